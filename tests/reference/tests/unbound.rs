//! Unbound variables: by cases, and against a search path by path.

use reference::compose::*;
use reference::formula::read;
use reference::log::Log;
use reference::random::case;

fn outcome(text: &str) -> Option<(u32, u32, usize)> {
    let log = Log::read(&hex("0101 0100 00")).expect("a log");
    read(&hex(text), &log).err().map(|refusal| refusal.triple())
}

#[test]
fn the_empty_path_reaches_state_0() {
    assert_eq!(outcome("1000 1101 13000000 1002 00"), Some((2, 8, 4)));
    assert_eq!(outcome("1000 1101 15 2103 1002 00"), Some((2, 8, 5)));
}

#[test]
fn own_binds_count_at_a_var_only() {
    // Before or behind the TESTV makes no difference.
    assert_eq!(
        outcome("1000 1101 140000 13000000 1002 00"),
        Some((2, 8, 7))
    );
    assert_eq!(
        outcome("1000 1101 13000000 140000 1002 00"),
        Some((2, 8, 4))
    );
    assert_eq!(outcome("1000 1101 140000 15 2100 1002 00"), None);
    assert_eq!(outcome("1000 1101 140001 15 2100 1002 00"), Some((2, 8, 8)));
}

#[test]
fn a_step_counts_in_the_state_it_stands_in() {
    // State 1 is reached only behind the BIND; its target does not matter.
    assert_eq!(outcome("1000 1101 140000 1000 1100 13000000 00"), None);
    assert_eq!(outcome("1000 1101 140000 1000 1100 15 2100 00"), None);
}

#[test]
fn one_path_without_a_bind_is_enough() {
    // Two steps to state 1, only one of them binds.
    let bytes = "1000 1101 140000 1101 1000 1102 13000000 1002 00";
    assert_eq!(outcome(bytes), Some((2, 8, 13)));
    let both = "1000 1101 140000 1101 140100 1000 1102 13000000 1002 00";
    assert_eq!(outcome(both), None);
}

#[test]
fn paths_ignore_tests_and_guards() {
    let never = "1000 1101 140000 1101 15 20 00000000 1000 1102 13000000 1002 00";
    assert_eq!(outcome(never), Some((2, 8, 19)));
}

#[test]
fn paths_may_come_back_to_state_0() {
    // Binding on the way round does not help at state 0.
    let bytes = "1000 1101 140000 13000000 1000 1100 00";
    assert_eq!(outcome(bytes), Some((2, 8, 7)));
    // Long way round: 0, 1, 0, 2 without a bind.
    let round = "1000 1101 1102 1000 1100 140000 1000 1102 13000000 00";
    assert_eq!(outcome(round), Some((2, 8, 17)));
}

#[test]
fn nothing_is_unbound_where_no_path_leads() {
    assert_eq!(outcome("1000 1000 1101 13000000 15 2105 00"), None);
    // Reached only from a state that is not reached.
    assert_eq!(outcome("1000 1000 1102 1000 1102 13000000 00"), None);
}

#[test]
fn the_first_in_the_file_decides() {
    let bytes = "1000 1101 1000 1101 15 23 2100 2101 1101 13000000 00";
    assert_eq!(outcome(bytes), Some((2, 8, 10)));
    let bind = "1000 1101 140000 1000 1101 15 23 2100 2101 1101 13000000 00";
    assert_eq!(outcome(bind), Some((2, 8, 15)));
}

/// A formula's parts: the steps as (state, target, bound variables), and the
/// uses of variables as (place, step, is it a VAR, variable).
#[derive(Default)]
struct Parts {
    steps: Vec<(u8, u8, Vec<u8>)>,
    uses: Vec<(usize, usize, bool, u8)>,
}

/// Takes a formula apart that is known to be well formed.
fn parts(bytes: &[u8]) -> Parts {
    let mut parts = Parts::default();
    let mut states = 0;
    let mut at = 0;
    while bytes[at] != 0 {
        let step = parts.steps.len().wrapping_sub(1);
        match bytes[at] {
            0x10 => states += 1,
            0x11 => parts.steps.push((states - 1, bytes[at + 1], Vec::new())),
            0x13 => parts.uses.push((at, step, false, bytes[at + 3])),
            0x14 => parts.steps[step].2.push(bytes[at + 2]),
            0x21 => parts.uses.push((at, step, true, bytes[at + 1])),
            _ => {}
        }
        at += match bytes[at] {
            0x10 | 0x11 | 0x16 | 0x21 | 0x22 | 0x2C..=0x2E => 2,
            0x12 => 7,
            0x13 => 4,
            0x14 | 0x17 => 3,
            0x20 => 5,
            _ => 1,
        };
    }
    parts
}

/// Can the state be reached by steps that never bind the variable?
fn reached_without(parts: &Parts, state: u8, variable: u8) -> bool {
    let mut reached = vec![0];
    let mut next = 0;
    while next < reached.len() {
        for (from, target, binds) in &parts.steps {
            let free = *from == reached[next] && !binds.contains(&variable);
            if free && !reached.contains(target) {
                reached.push(*target);
            }
        }
        next += 1;
    }
    reached.contains(&state)
}

#[test]
fn rolled_formulas_agree_with_a_search_of_paths() {
    let (mut bad, mut good) = (0, 0);
    for seed in 0..30_000 {
        let case = case(seed);
        let Ok(log) = Log::read(&case.log) else {
            continue;
        };
        let refusal = read(&case.formula, &log).err();
        if refusal.is_some_and(|refusal| refusal.number != 8) {
            continue;
        }
        let parts = parts(&case.formula);
        let unbound = |&&(_, step, own, variable): &&(usize, usize, bool, u8)| {
            let (state, _, binds) = &parts.steps[step];
            !(own && binds.contains(&variable)) && reached_without(&parts, *state, variable)
        };
        let first = parts.uses.iter().find(unbound).map(|found| found.0);
        assert_eq!(refusal.map(|refusal| refusal.place), first, "{case:?}");
        bad += usize::from(first.is_some());
        good += usize::from(first.is_none());
    }
    println!("{bad} unbound, {good} bound");
    assert!(bad > 100 && good > 5000);
}
