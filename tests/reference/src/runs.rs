//! Runs from a start: by the words of the definition, and fast.

pub mod literal;
pub mod threads;

use crate::machine::Config;

pub const MOST_RUN: usize = 32;

/// A run, ended or not: its events, its step numbers and where it stands.
#[derive(Clone, Debug, PartialEq, Eq)]
pub struct Run {
    pub events: Vec<usize>,
    pub steps: Vec<usize>,
    pub end: Config,
}

/// What a search comes to once all checks are passed.
#[derive(Clone, Debug, PartialEq, Eq)]
pub enum Outcome {
    /// More configurations wait after this event than there are seats.
    Crowded(usize),
    Done {
        run: Option<Run>,
        width: usize,
    },
}
