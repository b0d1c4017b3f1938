//! Where ties count in the rows of an analysis, told by what other rules would
//! say of the same rows.

use crate::analysis::{ALERT, NONE, REJECTED, ROW_WORDS, SUBSUMED};
use crate::formula::{Formula, VARIABLES};

pub const SHOWN: usize = 8;

/// What a row may show, in the order of `shown`.
pub const NAMES: [&str; SHOWN] = [
    "an alert where neither run holds a tied variable",
    "an alert where one run alone holds it",
    "an alert where they hold two values",
    "an alert past a rejecting run that lacks it",
    "an alert though another tied variable has one value",
    "subsumed with TIED",
    "subsumed without TIED",
    "subsumed past a run that lacks it",
];

/// A named run as its row gives it.
struct Named<'a>(&'a [u32]);

impl Named<'_> {
    fn held(&self, variable: usize) -> Option<u32> {
        (self.0[3] >> variable & 1 == 1).then_some(self.0[4 + variable])
    }
}

/// An earlier run and a later one that it overlaps: how many of the tied
/// variables are held by neither, by one alone, by both with two values and
/// with one; and whether the earlier run rejects.
struct Pair {
    neither: usize,
    earlier: usize,
    later: usize,
    differ: usize,
    agree: usize,
    rejects: bool,
}

impl Pair {
    fn of(formula: &Formula, one: &Named, other: &Named) -> Pair {
        let mut pair = Pair {
            neither: 0,
            earlier: 0,
            later: 0,
            differ: 0,
            agree: 0,
            rejects: one.0[0] == REJECTED,
        };
        for variable in (0..VARIABLES).filter(|&variable| formula.tied[variable]) {
            *match (one.held(variable), other.held(variable)) {
                (None, None) => &mut pair.neither,
                (Some(_), None) => &mut pair.earlier,
                (None, Some(_)) => &mut pair.later,
                (Some(held), Some(value)) if held != value => &mut pair.differ,
                _ => &mut pair.agree,
            } += 1;
        }
        pair
    }

    /// Does one run alone hold some variable?
    fn one_alone(&self) -> bool {
        self.earlier + self.later > 0
    }

    /// Does the earlier run lack a variable?
    fn lacks(&self) -> bool {
        self.neither + self.later > 0
    }
}

/// What the row of this start shows: none of it unless the run accepts.
fn row(formula: &Formula, rows: &[&[u32]], start: usize) -> [bool; SHOWN] {
    let earlier = rows[..start].iter();
    let overlaps = |row: &&&[u32]| row[0] != NONE && row[1] as usize >= start;
    let pairs: Vec<Pair> = earlier
        .filter(overlaps)
        .map(|row| Pair::of(formula, &Named(row), &Named(rows[start])))
        .collect();
    let any = |holds: fn(&Pair) -> bool| pairs.iter().any(holds);
    let with_ties = formula.tied.contains(&true);
    let (alert, subsumed) = (rows[start][0] == ALERT, rows[start][0] == SUBSUMED);
    [
        alert && any(|pair| pair.differ == 0 && !pair.one_alone()),
        alert && any(|pair| pair.differ == 0 && pair.one_alone()),
        alert && any(|pair| pair.differ > 0 && !pair.one_alone() && pair.neither == 0),
        alert && any(|pair| pair.differ == 0 && pair.lacks() && pair.rejects),
        alert && any(|pair| pair.agree > 0),
        subsumed && with_ties,
        subsumed && !with_ties,
        subsumed && any(Pair::lacks),
    ]
}

/// In how many of the rows each way shows.
pub fn shown(formula: &Formula, rows: &[u32]) -> [usize; SHOWN] {
    let rows: Vec<&[u32]> = rows.chunks_exact(ROW_WORDS).collect();
    let mut times = [0; SHOWN];
    for start in 0..rows.len() {
        let shows = row(formula, &rows, start);
        let tallied = times.iter_mut().zip(shows);
        tallied.for_each(|(times, shows)| *times += usize::from(shows));
    }
    times
}
