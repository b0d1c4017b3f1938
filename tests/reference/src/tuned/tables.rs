//! The log and the formula decoded, and what is worked out once: what an event
//! alone says of the steps of a state, and how guards stand while some
//! variables are held. Both are filled in where they are first asked for.

use super::guard::Guard;
use crate::formula::{self, Expression, Kind, Operator, Right, Test};
use crate::formula::{MOST_STATES, MOST_STEPS, VARIABLES};
use crate::log::MOST_FIELDS;
use crate::machine::{giver, trend, Config, Setting};

/// One entry a field.
pub type Values = [u32; MOST_FIELDS];

/// So many sets of held variables there are.
const HELD: usize = 1 << VARIABLES;

/// A TESTV. Of less, equal and greater a bit each says whether it then holds.
pub struct Own {
    pub field: u8,
    variable: u8,
    orders: u8,
}

impl Own {
    /// Does it hold for the last present values, with these held?
    #[inline(always)]
    pub fn holds(&self, latest: &Values, held: &[u32; VARIABLES]) -> bool {
        let (now, held) = (latest[self.field as usize], held[self.variable as usize]);
        let order = 1 + u8::from(now > held) - u8::from(now < held);
        self.orders >> order & 1 == 1
    }
}

pub struct Step<'a> {
    pub source: &'a formula::Step,
    /// All fields that it reads, a bit each.
    reads: u8,
    /// TESTVs, parted by whether they make the step hopeless.
    pub limits: Vec<Own>,
    pub others: Vec<Own>,
    pub guard: Option<Guard>,
}

/// Sets of steps are bits.
pub struct State<'a> {
    pub kind: Kind,
    pub steps: Vec<Step<'a>>,
    pub all: u8,
    /// Steps without a guard.
    pub bare: u8,
    /// Steps with a TESTV that makes them hopeless.
    pub limited: u8,
}

/// What an event alone says of the steps of a state.
#[derive(Clone, Copy, Default)]
pub struct Look {
    ready: bool,
    /// Steps that it keeps from firing.
    pub barred: u8,
    /// Steps that are hopeless after it by a TEST.
    pub due: u8,
}

/// How the guards of a state stand while some variables are held.
#[derive(Clone, Copy, Default)]
pub struct Stand {
    ready: bool,
    /// Steps whose guard has one value as long as the configuration waits.
    pub settled: u8,
    /// Steps whose guard is falling and takes a value from the event.
    pub falling: u8,
    /// For each step the fields from which its guard takes values.
    pub needs: [u8; MOST_STEPS],
}

pub struct Tables<'a> {
    pub setting: &'a Setting<'a>,
    pub states: Vec<State<'a>>,
    /// One entry an event: each field's last present value in the stretch,
    /// which fields have one, and which are present.
    pub latest: Vec<Values>,
    pub known: Vec<u8>,
    present: Vec<u8>,
    looks: Vec<Look>,
    /// One entry a state: one for each set of held variables, or none yet.
    stands: Vec<Vec<Stand>>,
}

impl<'a> Tables<'a> {
    /// Decodes both files.
    pub fn new(setting: &'a Setting<'a>) -> Tables<'a> {
        let states = setting.formula.states.iter().enumerate();
        let mut tables = Tables {
            setting,
            states: states
                .map(|(own, state)| decode(setting, own, state))
                .collect(),
            latest: Vec::new(),
            known: Vec::new(),
            present: Vec::new(),
            looks: vec![Look::default(); MOST_STATES * setting.log.events()],
            stands: vec![Vec::new(); MOST_STATES],
        };
        tables.load();
        tables
    }

    /// Goes once over the events.
    fn load(&mut self) {
        let log = self.setting.log;
        let (mut latest, mut known) = ([0; MOST_FIELDS], 0);
        for (n, event) in log.recorded.iter().enumerate() {
            if n > 0 && !log.one_stretch(n - 1, n) {
                (latest, known) = ([0; MOST_FIELDS], 0);
            }
            let mut present = 0;
            for (field, value) in event.iter().enumerate() {
                latest[field] = value.unwrap_or(latest[field]);
                present |= u8::from(value.is_some()) << field;
            }
            known |= present;
            self.latest.push(latest);
            self.known.push(known);
            self.present.push(present);
        }
    }

    /// What event n alone says of the steps of a state.
    #[inline(always)]
    pub fn look(&mut self, n: usize, state: u8) -> Look {
        let at = MOST_STATES * n + usize::from(state);
        match self.looks[at] {
            look if look.ready => look,
            _ => self.first_look(n, at),
        }
    }

    /// Works it out.
    #[cold]
    fn first_look(&mut self, n: usize, at: usize) -> Look {
        let (latest, known) = (&self.latest[n], self.known[n]);
        let holds = |test: &Test| match test.right {
            Right::Value(value) => test.operator.holds(latest[test.field], value),
            Right::Variable(_) => true,
        };
        let past =
            |test: &Test| limit(self.setting, test) && known >> test.field & 1 == 1 && !holds(test);
        let mut look = Look {
            ready: true,
            ..Look::default()
        };
        for (number, step) in self.states[at % MOST_STATES].steps.iter().enumerate() {
            let (tests, binds) = (&step.source.tests, &step.source.binds);
            let agrees = |one: &formula::Bind| {
                let mut others = binds.iter().filter(|other| other.variable == one.variable);
                others.all(|other| latest[other.field] == latest[one.field])
            };
            let absent = step.reads & !self.present[n] != 0;
            let fits = !absent && tests.iter().all(holds) && binds.iter().all(agrees);
            look.barred |= u8::from(!fits) << number;
            look.due |= u8::from(tests.iter().any(past)) << number;
        }
        self.looks[at] = look;
        look
    }

    /// How the guards of a state stand while these variables are held.
    #[inline(always)]
    pub fn stand(&mut self, state: u8, held: u8) -> Stand {
        match self.stands[usize::from(state)].get(usize::from(held)) {
            Some(stand) if stand.ready => *stand,
            _ => self.first_stand(usize::from(state), held),
        }
    }

    /// Works it out.
    #[cold]
    fn first_stand(&mut self, state: usize, held: u8) -> Stand {
        let mut config = Config::START;
        config.held = std::array::from_fn(|variable| (held >> variable & 1 == 1).then_some(0));
        let mut stand = Stand {
            ready: true,
            ..Stand::default()
        };
        for (number, step) in self.states[state].steps.iter().enumerate() {
            let Some(guard) = &step.source.guard else {
                continue;
            };
            let falling = trend(guard, &self.setting.trends(&config, step.source)).falling;
            let needs = taken(guard, &config, step.source);
            stand.settled |= u8::from(needs == 0) << number;
            stand.falling |= u8::from(needs != 0 && falling) << number;
            stand.needs[number] = needs;
        }
        self.stands[state].resize(HELD, Stand::default());
        self.stands[state][usize::from(held)] = stand;
        stand
    }
}

/// Decodes one state.
fn decode<'a>(setting: &Setting, own: usize, state: &'a formula::State) -> State<'a> {
    let steps = state.steps.iter();
    let mut decoded = State {
        kind: state.kind,
        steps: steps.map(|step| decode_step(setting, own, step)).collect(),
        all: 0,
        bare: 0,
        limited: 0,
    };
    for (number, step) in decoded.steps.iter().enumerate() {
        decoded.all |= 1 << number;
        decoded.bare |= u8::from(step.guard.is_none()) << number;
        decoded.limited |= u8::from(!step.limits.is_empty()) << number;
    }
    decoded
}

/// Decodes one step of the given state.
fn decode_step<'a>(setting: &Setting, state: usize, step: &'a formula::Step) -> Step<'a> {
    let tested = step.tests.iter().map(|test| test.field);
    let bound = step.binds.iter().map(|bind| bind.field);
    let gathered = step.gathers.iter().map(|gather| gather.field);
    let fields = tested.chain(bound).chain(gathered);
    let (limits, others) = step.tests.iter().partition(|test| limit(setting, test));
    let own = |tests: Vec<&Test>| tests.into_iter().filter_map(decode_test).collect();
    let guard = step.guard.as_ref();
    Step {
        source: step,
        reads: fields.fold(0, |reads, field| reads | 1 << field),
        limits: own(limits),
        others: own(others),
        guard: guard.map(|guard| Guard::new(guard, step, state)),
    }
}

/// Decodes a TESTV.
fn decode_test(test: &Test) -> Option<Own> {
    let Right::Variable(variable) = test.right else {
        return None;
    };
    let bit = |order: u32| u8::from(test.operator.holds(order, 1)) << order;
    Some(Own {
        field: test.field as u8,
        variable: variable as u8,
        orders: (0..3).map(bit).sum(),
    })
}

/// Does the test make its step hopeless once it is false?
fn limit(setting: &Setting, test: &Test) -> bool {
    let upper = matches!(test.operator, Operator::Less | Operator::AtMost);
    upper && setting.log.rising[test.field]
}

/// The fields from which a guard takes values, by variables that are not held
/// and by lists that its step gathers into.
fn taken(guard: &Expression, config: &Config, step: &formula::Step) -> u8 {
    let list = |list: usize| {
        let into = step.gathers.iter().find(|gather| gather.list == list);
        into.map_or(0, |gather| 1 << gather.field)
    };
    let variable = |v: usize| giver(config, step, v).map_or(0, |bind| 1 << bind.field);
    let mut fields = 0;
    guard.visit(&mut |part| match part {
        Expression::Var { variable: v, .. } => fields |= variable(*v),
        Expression::Sum(of) | Expression::Different(of) => fields |= list(*of),
        _ => {}
    });
    fields
}
