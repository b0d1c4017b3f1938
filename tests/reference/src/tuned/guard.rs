//! Guards as lists of commands, operands first, with jumps over what does not
//! matter. A leaf knows what its own step adds to it.

use super::lists::Lists;
use super::tables::Values;
use super::threads::Config;
use crate::formula::{Expression, Pair, Step};

/// What a guard reads. A field is one whose value the step would add; it is the
/// last present value, which is the event's wherever the step can fire.
#[derive(Clone, Copy)]
enum Leaf {
    Const(u32),
    /// The held value, or else that of the field of the step's first BIND.
    Var(u8, u8),
    /// A state and how many the step adds to its counter.
    Count(u8, u8),
    Sum(u8, Option<u8>),
    Length(u8, u8),
    Different(u8, Option<u8>),
}

/// A command works on the last value and those laid by before it.
#[derive(Clone, Copy)]
enum Code {
    /// Lays the last value by and reads another.
    Load(Leaf),
    /// The last value with a leaf.
    With(Pair, Leaf),
    /// The value laid by last with the last value.
    Both(Pair),
    Not,
    /// The first operand of AND: if it is 0, so is the AND, and it ends there.
    IfZero(u8),
    /// The first operand of OR: if it is not 0, the OR is 1.
    IfTrue(u8),
    /// The condition of IF is taken away; if it was 0, goes on there.
    Else(u8),
    Jump(u8),
}

/// What a guard is evaluated for.
pub struct Sight<'a> {
    pub config: &'a Config,
    pub latest: &'a Values,
    pub lists: &'a Lists,
}

/// As many values are laid by at most: one for each depth.
const DEPTH: usize = 8;

pub struct Guard(Vec<Code>);

impl Guard {
    /// Decodes the guard of a step that stands in the given state.
    pub fn new(guard: &Expression, step: &Step, state: usize) -> Guard {
        let mut codes = Guard(Vec::new());
        codes.add(guard, &|part| leaf(part, step, state));
        codes
    }

    /// Adds the commands of a part.
    fn add(&mut self, part: &Expression, leaf: &dyn Fn(&Expression) -> Option<Leaf>) {
        match part {
            Expression::Not(inner) => {
                self.add(inner, leaf);
                self.0.push(Code::Not);
            }
            Expression::Two(pair, first, second) => {
                self.add(first, leaf);
                if let Some(second) = leaf(second) {
                    return self.0.push(Code::With(*pair, second));
                }
                let place = self.0.len();
                if matches!(pair, Pair::And | Pair::Or) {
                    self.0.push(Code::Jump(0));
                }
                self.add(second, leaf);
                self.0.push(Code::Both(*pair));
                let end = self.0.len() as u8;
                match pair {
                    Pair::And => self.0[place] = Code::IfZero(end),
                    Pair::Or => self.0[place] = Code::IfTrue(end),
                    _ => {}
                }
            }
            Expression::If(test, first, second) => {
                self.add(test, leaf);
                let to_else = self.0.len();
                self.0.push(Code::Else(0));
                self.add(first, leaf);
                let to_end = self.0.len();
                self.0.push(Code::Jump(0));
                self.0[to_else] = Code::Else(self.0.len() as u8);
                self.add(second, leaf);
                self.0[to_end] = Code::Jump(self.0.len() as u8);
            }
            _ => self.0.extend(leaf(part).map(Code::Load)),
        }
    }

    /// Is its value not 0?
    pub fn holds(&self, sight: &Sight) -> bool {
        let (mut aside, mut used) = ([0; DEPTH], 0);
        let (mut last, mut at) = (0, 0);
        while let Some(code) = self.0.get(at) {
            at += 1;
            match *code {
                Code::Load(leaf) => {
                    aside[used % DEPTH] = last;
                    used += 1;
                    last = sight.read(leaf);
                }
                Code::With(pair, leaf) => last = apply(pair, last, sight.read(leaf)),
                Code::Both(pair) => {
                    used -= 1;
                    last = apply(pair, aside[used % DEPTH], last);
                }
                Code::Not => last = u32::from(last == 0),
                Code::IfZero(to) if last == 0 => at = usize::from(to),
                Code::IfTrue(to) if last != 0 => (last, at) = (1, usize::from(to)),
                Code::IfZero(_) | Code::IfTrue(_) => {}
                Code::Else(to) => {
                    at = if last == 0 { usize::from(to) } else { at };
                    used -= 1;
                    last = aside[used % DEPTH];
                }
                Code::Jump(to) => at = usize::from(to),
            }
        }
        last != 0
    }
}

impl Sight<'_> {
    /// The value of a leaf.
    #[inline(always)]
    fn read(&self, leaf: Leaf) -> u32 {
        let config = self.config;
        match leaf {
            Leaf::Const(value) => value,
            Leaf::Var(variable, field) => match config.held >> variable & 1 {
                0 => self.latest[usize::from(field)],
                _ => config.values[usize::from(variable)],
            },
            Leaf::Count(state, more) => u32::from(config.counts[usize::from(state)] + more),
            _ => self.read_list(leaf),
        }
    }

    /// The value of a leaf that reads a list.
    fn read_list(&self, leaf: Leaf) -> u32 {
        let number = |list: u8| self.config.lists[usize::from(list)];
        let list = |list: u8| self.lists.of(number(list));
        let now = |field: u8| self.latest[usize::from(field)];
        match leaf {
            Leaf::Sum(of, more) => list(of).sum.saturating_add(more.map_or(0, now)),
            Leaf::Length(of, more) => list(of).length + u32::from(more),
            Leaf::Different(of, None) => list(of).different,
            Leaf::Different(of, Some(field)) => self.lists.different_with(number(of), now(field)),
            Leaf::Const(_) | Leaf::Var(..) | Leaf::Count(..) => self.read(leaf),
        }
    }
}

/// A part without operands, with what its step adds to it.
fn leaf(part: &Expression, step: &Step, own: usize) -> Option<Leaf> {
    let field = |list: usize| {
        let mut gathers = step.gathers.iter();
        let into = gathers.find(|gather| gather.list == list);
        into.map(|gather| gather.field as u8)
    };
    Some(match *part {
        Expression::Const(value) => Leaf::Const(value),
        Expression::Var { variable, .. } => {
            let first = step.binds.iter().find(|bind| bind.variable == variable);
            Leaf::Var(variable as u8, first.map_or(0, |bind| bind.field as u8))
        }
        Expression::Count { state, .. } => Leaf::Count(state as u8, u8::from(state == own)),
        Expression::Sum(list) => Leaf::Sum(list as u8, field(list)),
        Expression::Length(list) => Leaf::Length(list as u8, u8::from(field(list).is_some())),
        Expression::Different(list) => Leaf::Different(list as u8, field(list)),
        _ => return None,
    })
}

/// A command with two operands.
#[inline(always)]
fn apply(pair: Pair, left: u32, right: u32) -> u32 {
    match pair {
        Pair::Add => left.saturating_add(right),
        Pair::Sub => left.saturating_sub(right),
        Pair::Less => u32::from(left < right),
        Pair::AtMost => u32::from(left <= right),
        Pair::Equal => u32::from(left == right),
        Pair::And => u32::from(left != 0 && right != 0),
        Pair::Or => u32::from(left != 0 || right != 0),
    }
}
