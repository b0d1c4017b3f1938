//! Compares the product's static library with the reference implementation,
//! answer by answer and word by word, and measures both.

pub mod checks;
pub mod clock;
pub mod counts;
#[cfg(feature = "fake")]
pub mod fake;
pub mod files;
pub mod guards;
pub mod heavy;
pub mod lacking;
pub mod lent;
pub mod marks;
pub mod page;
pub mod product;
pub mod program;
pub mod rounds;
#[cfg(not(feature = "fake"))]
pub mod stack;
