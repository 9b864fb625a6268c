//! The proved library against the reference on seeded inputs; everything must be reached.

use lsc_compare::seen::Seen;
use lsc_compare::{limits, run, Span};

const INPUTS: u64 = 600_000;

#[test]
fn the_library_and_the_reference_agree() {
    let mut seen = Seen::default();
    if let Err(difference) = limits::run(&mut seen) {
        panic!("{difference}");
    }
    let span = Span {
        seed: 20_240_501,
        first: 0,
        count: INPUTS,
    };
    if let Err(difference) = run(span, &mut seen, &mut |_, _| {}) {
        panic!("{difference}");
    }
    println!("{seen}");
    assert!(seen.inputs() >= INPUTS);
    assert_eq!(seen.missing(), Vec::<String>::new());
}
