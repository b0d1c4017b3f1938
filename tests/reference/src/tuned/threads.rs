//! The search: threads in slots that are used again, found by a hash of their
//! configuration. A thread that nothing happens to is looked at through eight
//! bytes and stays where it is; a step that is hopeless is not tried again.

use super::guard::Sight;
use super::lists::Lists;
use super::tables::{Own, Tables};
use crate::formula::{Bind, Kind, LISTS, MOST_STATES, VARIABLES};
use crate::machine::{self, Setting};
use crate::runs::threads::Trail;
use crate::runs::{Outcome, MOST_RUN};

/// A configuration; values that are not held are 0, lists are numbers.
#[derive(Clone, Copy, Default, PartialEq, Eq)]
pub struct Config {
    pub state: u8,
    pub held: u8,
    pub counts: [u8; MOST_STATES],
    pub values: [u32; VARIABLES],
    pub lists: [u32; LISTS],
}

impl Config {
    /// A number that is seldom the same for two configurations.
    fn hash(&self) -> u32 {
        let counts = u128::from_le_bytes(self.counts);
        let numbers = u64::from(self.state) << 8 | u64::from(self.held);
        let (mut mixed, mut factor) = (0u64, 0x9E37_79B9_7F4A_7C15u64);
        let mut mix = |word: u64| {
            mixed = mixed.wrapping_add((word ^ word >> 29).wrapping_mul(factor));
            factor = factor.wrapping_mul(0xD129_0D3B_3F5A_7B4D);
        };
        mix(numbers);
        mix(counts as u64);
        mix((counts >> 64) as u64);
        let values = self.values.chunks_exact(2);
        for two in values.chain(self.lists.chunks_exact(2)) {
            mix(u64::from(two[0]) << 32 | u64::from(two[1]));
        }
        ((mixed ^ mixed >> 32).wrapping_mul(0x9E37_79B9_7F4A_7C15) >> 32) as u32
    }

    /// The same for the reference, without the lists: no row shows them.
    fn plain(&self) -> machine::Config {
        let held = |v: usize| (self.held >> v & 1 == 1).then_some(self.values[v]);
        machine::Config {
            state: self.state,
            counts: self.counts,
            held: std::array::from_fn(held),
            lists: machine::Lists::EMPTY,
        }
    }
}

/// A slot; `next` is the next thread in the same row of the hash table.
#[derive(Clone, Copy)]
struct Thread {
    config: Config,
    trail: Trail,
    hash: u32,
    next: u16,
}

/// All that most events need to know of a thread. Sets of steps are bits.
#[derive(Clone, Copy)]
struct Waiting {
    slot: u16,
    state: u8,
    /// Steps that are not hopeless. With none the thread leaves on the next
    /// event; until then equal configurations still find it.
    alive: u8,
    /// Steps that may become hopeless by more than the event alone.
    watched: u8,
    /// Steps whose guard is true as long as the thread waits.
    sure: u8,
}

/// Rows of the hash table: with 64 seats most have one thread or none.
const ROWS: usize = 256;
const NOBODY: u16 = u16::MAX;

pub struct Search<'a> {
    tables: Tables<'a>,
    seats: usize,
    lists: Lists,
    threads: Vec<Thread>,
    free: Vec<u16>,
    rows: [u16; ROWS],
    waiting: Vec<Waiting>,
    /// The slots of threads that have moved on this event.
    fresh: Vec<u16>,
    /// The least run that ends on this event.
    least: Option<(Config, Trail)>,
}

impl<'a> Search<'a> {
    /// Nothing waits yet.
    pub fn new(setting: &'a Setting<'a>, seats: usize) -> Search<'a> {
        Search {
            tables: Tables::new(setting),
            seats,
            lists: Lists::new(),
            threads: Vec::new(),
            free: Vec::new(),
            rows: [NOBODY; ROWS],
            waiting: Vec::new(),
            fresh: Vec::new(),
            least: None,
        }
    }

    /// Searches from one start to the end of its stretch.
    pub fn run(&mut self, start: usize) -> Outcome {
        self.clear();
        let begin = self.keep(Config::default(), Trail::EMPTY);
        let (begin, sure) = self.arrive(begin, start);
        self.spread(begin, sure, start);
        self.free.push(begin.slot);
        let mut width = 0;
        for n in start..self.tables.setting.log.around(start).end {
            if n > start {
                self.advance(n);
            }
            if let Some((end, trail)) = &self.least {
                let run = Some(trail.run(end.plain()));
                return Outcome::Done { run, width };
            }
            let count = self.settle(n);
            if count > self.seats {
                return Outcome::Crowded(n);
            }
            width = width.max(count);
            if count == 0 {
                break;
            }
        }
        Outcome::Done { run: None, width }
    }

    /// Frees all slots and forgets what the search before has left.
    fn clear(&mut self) {
        self.free.clear();
        self.free.extend(0..self.threads.len() as u16);
        self.rows = [NOBODY; ROWS];
        self.waiting.clear();
        self.fresh.clear();
        self.lists.clear();
        self.least = None;
    }

    /// Puts a thread into a free slot.
    fn keep(&mut self, config: Config, trail: Trail) -> u16 {
        let thread = Thread {
            config,
            trail,
            hash: 0,
            next: NOBODY,
        };
        if let Some(slot) = self.free.pop() {
            self.threads[usize::from(slot)] = thread;
            return slot;
        }
        self.threads.push(thread);
        self.threads.len() as u16 - 1
    }

    /// Lets every thread see event n: it takes the steps that it may take and
    /// stays, unless it is committed and has moved, or has no step left.
    fn advance(&mut self, n: usize) {
        let mut kept = 0;
        for at in 0..self.waiting.len() {
            let mut one = self.waiting[at];
            let look = self.tables.look(n, one.state);
            let busy = one.alive & (look.due | !look.barred | one.watched) != 0;
            one.alive &= !look.due;
            let left = busy && {
                let sure = self.judge(&mut one, n);
                self.spread(one, sure, n)
            };
            if left || one.alive == 0 {
                self.remove(one.slot);
            } else {
                self.waiting[kept] = one;
                kept += 1;
            }
        }
        self.waiting.truncate(kept);
    }

    /// Looks for the first time at a thread that has come on event n: which of
    /// its steps are not hopeless, and which guards are true on n.
    fn arrive(&mut self, slot: u16, n: usize) -> (Waiting, u8) {
        let config = &self.threads[usize::from(slot)].config;
        let look = self.tables.look(n, config.state);
        let stand = self.tables.stand(config.state, config.held);
        let state = &self.tables.states[usize::from(config.state)];
        let mut one = Waiting {
            slot,
            state: config.state,
            alive: state.all & !look.due,
            watched: state.limited | stand.falling,
            sure: state.bare,
        };
        for number in bits(one.alive & stand.settled) {
            match self.guard_holds(one, number, n) {
                true => one.sure |= 1 << number,
                false => one.alive &= !(1 << number),
            }
        }
        let sure = self.judge(&mut one, n);
        (one, sure)
    }

    /// Takes away the steps that event n makes hopeless by a TESTV or a falling
    /// guard; gives those whose guard is known to be true on n.
    fn judge(&mut self, one: &mut Waiting, n: usize) -> u8 {
        let mut sure = one.sure;
        if one.alive & one.watched == 0 {
            return sure;
        }
        let config = &self.threads[usize::from(one.slot)].config;
        let stand = self.tables.stand(one.state, config.held);
        let (latest, known) = (&self.tables.latest[n], self.tables.known[n]);
        let past = |test: &Own| known >> test.field & 1 == 1 && !test.holds(latest, &config.values);
        let steps = &self.tables.states[usize::from(one.state)].steps;
        for number in bits(one.alive & one.watched) {
            let bit = 1 << number;
            if steps[number].limits.iter().any(past) {
                one.alive &= !bit;
            } else if stand.falling & bit != 0 && stand.needs[number] & !known == 0 {
                match self.guard_holds(*one, number, n) {
                    true => sure |= bit,
                    false => one.alive &= !bit,
                }
            }
        }
        sure
    }

    /// Is the guard of a step true with the last present values after n?
    fn guard_holds(&self, one: Waiting, number: usize, n: usize) -> bool {
        let sight = Sight {
            config: &self.threads[usize::from(one.slot)].config,
            latest: &self.tables.latest[n],
            lists: &self.lists,
        };
        let step = &self.tables.states[usize::from(one.state)].steps[number];
        step.guard.as_ref().is_none_or(|guard| guard.holds(&sight))
    }

    /// Takes the steps that a thread may take on event n. Does it leave?
    fn spread(&mut self, one: Waiting, sure: u8, n: usize) -> bool {
        let open = one.alive & !self.tables.look(n, one.state).barred;
        let from = self.fresh.len();
        for number in bits(open) {
            if self.fires(one, number, sure, n) {
                self.take(one, number, n, from);
                if self.tables.states[usize::from(one.state)].kind == Kind::Committed {
                    return true;
                }
            }
        }
        false
    }

    /// Does a step fire on event n, which does not bar it by itself and does not
    /// make it hopeless? The TESTV that fails is the first to be asked next time.
    fn fires(&mut self, one: Waiting, number: usize, sure: u8, n: usize) -> bool {
        let config = &self.threads[usize::from(one.slot)].config;
        let latest = &self.tables.latest[n];
        let step = &mut self.tables.states[usize::from(one.state)].steps[number];
        let fails = |test: &Own| !test.holds(latest, &config.values);
        if let Some(at) = step.others.iter().position(fails) {
            step.others.swap(0, at);
            return false;
        }
        let agrees = |bind: &Bind| {
            let free = config.held >> bind.variable & 1 == 0;
            free || config.values[bind.variable] == latest[bind.field]
        };
        step.source.binds.iter().all(agrees)
            && (sure >> number & 1 == 1 || self.guard_holds(one, number, n))
    }

    /// Takes a step that fires: keeps the least run that ends, else a thread
    /// that has moved, unless a lower step of it, whose threads are kept from
    /// `from` on, leads to the same.
    fn take(&mut self, one: Waiting, number: usize, n: usize, from: usize) {
        let step = self.tables.states[usize::from(one.state)].steps[number].source;
        let ends = self.tables.states[usize::from(step.target)].kind.ends();
        let thread = &self.threads[usize::from(one.slot)];
        if !ends && (self.least.is_some() || thread.trail.length + 1 == MOST_RUN) {
            return;
        }
        let latest = &self.tables.latest[n];
        let mut config = thread.config;
        for bind in &step.binds {
            config.held |= 1 << bind.variable;
            config.values[bind.variable] = latest[bind.field];
        }
        config.counts[usize::from(one.state)] += 1;
        config.state = step.target;
        if ends {
            let trail = thread.trail.with(n, number);
            if self.least.is_none_or(|(_, known)| trail < known) {
                self.least = Some((config, trail));
            }
            return;
        }
        for gather in &step.gathers {
            let list = &mut config.lists[gather.list];
            *list = self.lists.add(*list, latest[gather.field]);
        }
        let known = |&slot: &u16| self.threads[usize::from(slot)].config == config;
        if !self.fresh[from..].iter().any(known) {
            let slot = self.keep(config, thread.trail.with(n, number));
            self.fresh.push(slot);
        }
    }

    /// Lets the threads that have moved wait, each configuration once with its
    /// least trail. Gives how many wait, or one more than there are seats.
    fn settle(&mut self, n: usize) -> usize {
        let mut count = self.waiting.len();
        for at in 0..self.fresh.len() {
            let slot = self.fresh[at];
            if let Some(known) = self.find_or_add(slot) {
                let trail = self.threads[usize::from(slot)].trail;
                if before(&trail, &self.threads[usize::from(known)].trail) {
                    self.threads[usize::from(known)].trail = trail;
                }
                self.free.push(slot);
                continue;
            }
            let (one, _) = self.arrive(slot, n);
            self.waiting.push(one);
            count += usize::from(one.alive != 0);
            if count > self.seats {
                break;
            }
        }
        self.fresh.clear();
        count
    }

    /// The thread that waits with the same configuration; where there is none,
    /// this one becomes the first of its row.
    fn find_or_add(&mut self, slot: u16) -> Option<u16> {
        let config = &self.threads[usize::from(slot)].config;
        let hash = config.hash();
        let first = &mut self.rows[hash as usize % ROWS];
        let mut at = *first;
        while at != NOBODY {
            let other = &self.threads[usize::from(at)];
            if other.hash == hash && other.config == *config {
                return Some(at);
            }
            at = other.next;
        }
        let thread = &mut self.threads[usize::from(slot)];
        thread.hash = hash;
        thread.next = *first;
        *first = slot;
        None
    }

    /// Takes a thread out of its row and frees its slot.
    fn remove(&mut self, slot: u16) {
        let Thread { hash, next, .. } = self.threads[usize::from(slot)];
        let first = &mut self.rows[hash as usize % ROWS];
        if *first == slot {
            *first = next;
        } else {
            let mut at = usize::from(*first);
            while self.threads[at].next != slot {
                at = usize::from(self.threads[at].next);
            }
            self.threads[at].next = next;
        }
        self.free.push(slot);
    }
}

/// Does a trail come before another one of the same length?
fn before(one: &Trail, other: &Trail) -> bool {
    match one.events == other.events {
        true => one.steps < other.steps,
        false => one.events < other.events,
    }
}

/// The numbers of the bits that are set, from the lowest.
fn bits(mut set: u8) -> impl Iterator<Item = usize> {
    std::iter::from_fn(move || {
        let lowest = (set != 0).then_some(set.trailing_zeros() as usize);
        set &= set.wrapping_sub(1);
        lowest
    })
}
