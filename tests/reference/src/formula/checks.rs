//! The checks behind END: absent states, a dead start, unbound variables.

use super::{Expression, Formula, Right, Step, VARIABLES};
use crate::refusal::{Refusal, ABSENT_STATE, DEAD_START, FORMULA, UNBOUND};

type Held = [bool; VARIABLES];

pub fn check(formula: &Formula) -> Result<(), Refusal> {
    if let Some(place) = first_absent(formula) {
        return Err(Refusal::new(FORMULA, ABSENT_STATE, place));
    }
    if formula.states[0].kind.ends() {
        return Err(Refusal::new(FORMULA, DEAD_START, 0));
    }
    match first_unbound(formula) {
        Some(place) => Err(Refusal::new(FORMULA, UNBOUND, place)),
        None => Ok(()),
    }
}

/// The first STEP or COUNT in the file that names an absent state.
fn first_absent(formula: &Formula) -> Option<usize> {
    let count = formula.states.len();
    let mut absent = Vec::new();
    for step in formula.states.iter().flat_map(|state| &state.steps) {
        if usize::from(step.target) >= count {
            absent.push(step.place);
        }
        each_part(step, &mut |part| match part {
            Expression::Count { place, state } if *state >= count => absent.push(*place),
            _ => {}
        });
    }
    absent.into_iter().min()
}

/// The first TESTV or VAR in the file whose variable some path leaves free.
fn first_unbound(formula: &Formula) -> Option<usize> {
    let mut unbound = Vec::new();
    let bound = bound_on_every_path(formula);
    for (state, before) in formula.states.iter().zip(bound) {
        let Some(before) = before else { continue };
        for step in &state.steps {
            for test in &step.tests {
                match test.right {
                    Right::Variable(variable) if !before[variable] => unbound.push(test.place),
                    _ => {}
                }
            }
            let after = with_binds(before, step);
            each_part(step, &mut |part| match part {
                Expression::Var { place, variable } if !after[*variable] => unbound.push(*place),
                _ => {}
            });
        }
    }
    unbound.into_iter().min()
}

/// For each state that some path reaches, the variables every path binds.
/// Worked out by letting the sets shrink until nothing changes.
fn bound_on_every_path(formula: &Formula) -> Vec<Option<Held>> {
    let mut bound: Vec<Option<Held>> = vec![None; formula.states.len()];
    bound[0] = Some([false; VARIABLES]);
    loop {
        let before = bound.clone();
        for (number, state) in formula.states.iter().enumerate() {
            let Some(here) = bound[number] else { continue };
            for step in &state.steps {
                let target = usize::from(step.target);
                let arriving = with_binds(here, step);
                bound[target] = Some(match bound[target] {
                    None => arriving,
                    Some(known) => std::array::from_fn(|v| known[v] && arriving[v]),
                });
            }
        }
        if bound == before {
            return bound;
        }
    }
}

fn with_binds(mut held: Held, step: &Step) -> Held {
    for bind in &step.binds {
        held[bind.variable] = true;
    }
    held
}

fn each_part(step: &Step, see: &mut dyn FnMut(&Expression)) {
    if let Some(guard) = &step.guard {
        guard.visit(see);
    }
}
