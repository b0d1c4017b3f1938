//! The comparison shows every fault of the stand-in, and none where there is
//! none. One test alone, since a fault is switched on for the whole process.

use compare::checks::{Check, Comparison};
use compare::fake::{switch, Fault};
use compare::rounds;

/// The fixed cases, with fewer seeds.
fn compared(comparison: &mut Comparison) -> Check {
    for seed in 0..400 {
        rounds::rolled(comparison, seed)?;
    }
    rounds::limits(comparison)?;
    rounds::spoiled(comparison)
}

#[test]
fn every_fault_shows() {
    switch(Fault::Nothing);
    let mut comparison = Comparison::default();
    let clean = compared(&mut comparison);
    assert!(clean.is_ok(), "{:?}", clean.err());
    println!("{}", comparison.counts);
    assert_eq!(comparison.counts.missing(), None);
    for &fault in Fault::ALL {
        switch(fault);
        match compared(&mut Comparison::default()) {
            Ok(()) => panic!("{fault:?} does not show"),
            Err(disagreement) => println!("{fault:?}: {}", disagreement.cause),
        }
    }
}
