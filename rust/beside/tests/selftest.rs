//! The comparison is trusted because it finds every planted fault.
#![cfg(original)]
use beside::compare::Plan;
use beside::selftest;
use beside::subjects::SUBJECTS;
use std::collections::HashSet;

#[test]
fn every_planted_fault_is_found() {
    let plan = Plan {
        seed: 1,
        count: 20_000,
        threads: 2,
    };
    assert!(selftest::run(plan));
}

#[test]
fn names_and_streams_are_a_subjects_own() {
    let names: HashSet<_> = SUBJECTS.iter().map(|subject| subject.name()).collect();
    let streams = SUBJECTS.iter().map(|subject| subject.about().stream);
    let streams: HashSet<_> = streams.collect();
    assert_eq!(
        (names.len(), streams.len()),
        (SUBJECTS.len(), SUBJECTS.len())
    );
}
