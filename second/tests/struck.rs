//! Refused steps struck from traces of the second program and of the proved
//! library: document 02, request 13.

use second::compare::ledgers::Course;
use second::compare::sides::{numbers_of, split, Calls, SECOND};
use second::compare::struck::steps::check_steps;
use second::compare::struck::{check_trace, check_traces, Counts};
use second::compare::Answers;
use second::depot;
use second::generate::guided::Guide;
use second::ledger::Ledger;
use second::proved;
use second::random::Random;

const PROVED: Calls = Calls { step: proved::step, run_on: proved::run_on };
const COURSES: [Course; 4] = [Course::Fresh, Course::Stocked, Course::High, Course::Damaged];

type Check = fn(&mut Random, &mut Guide, Course, usize, Calls) -> Result<Counts, String>;

/// So many traces or sequences of each course. Both sides see the same ones, so
/// what they are asked and answer is counted alike.
fn unchanged(seed: u64, check: Check, traces: usize) -> Counts {
    let mut all = Counts::default();
    for (course, seed) in COURSES.into_iter().zip((seed..).step_by(2)) {
        let counted = |side: Calls| {
            let (mut random, mut guide) = (Random::new(seed), Guide::new(seed + 1));
            let checked = check(&mut random, &mut guide, course, traces, side);
            checked.unwrap_or_else(|told| panic!("{course:?}: {told}"))
        };
        let counts = counted(PROVED);
        println!("{course:?}: {counts:?}");
        assert_eq!(counts, counted(SECOND));
        all.add(counts);
    }
    assert_eq!(all.traces, COURSES.len() * traces);
    all
}

#[track_caller]
fn all_given(answers: &Answers, expected: impl IntoIterator<Item = u64>, least: usize) {
    for answer in expected {
        assert!(answers.get(&answer) >= Some(&least), "{answer} of {answers:?}");
    }
}

/// Many of each sort, so that none is checked on nothing.
fn much_was_seen(counts: &Counts, least: usize) {
    all_given(&counts.struck, 1..=17, least);
    all_given(&counts.stayed, 0..=17, least);
    assert_eq!(counts.struck.get(&0), None);
    for sort in [counts.malformed, counts.unsound, counts.unrefused, counts.all_refused] {
        assert!(sort >= least, "{counts:?}");
    }
}

#[test]
fn records_struck_from_traces_change_nothing() {
    let counts = unchanged(20_240_701, check_traces, 400);
    much_was_seen(&counts, 80);
    assert!(counts.unknown >= 100 && counts.full >= 4_000, "{counts:?}");
}

#[test]
fn steps_struck_from_sequences_change_nothing() {
    let counts = unchanged(20_240_711, check_steps, 300);
    much_was_seen(&counts, 50);
}

/// The papers' tables, of both sides.
#[test]
fn the_tables_keep_their_other_verdicts() {
    let start = numbers_of(&Ledger::fresh());
    for table in [depot::week(), depot::out_of_order()] {
        let trace = depot::records(&table);
        let records: Vec<Vec<u8>> = split(&trace).into_iter().map(Vec::from).collect();
        assert_eq!(records.len(), table.len());
        for side in [PROVED, SECOND] {
            let (mut random, mut counts) = (Random::new(20_240_721), Counts::default());
            check_trace(&mut random, side, &start, &records, &mut counts).unwrap();
            assert_eq!((counts.traces, counts.strikes, counts.unrefused), (1, 4, 0));
        }
    }
}
