//! A plain implementation of the log analyser, written from the definitions.
//! It exists to be compared with: it shares no code and no plan with any
//! other implementation.

pub mod analysis;
pub mod bytes;
pub mod compose;
pub mod formula;
pub mod log;
pub mod machine;
pub mod program;
pub mod random;
pub mod reach;
pub mod refusal;
pub mod runs;
pub mod search;
pub mod tuned;
