//! What an accepted COMPACT leaves as it was, in the second program and in the
//! proved library: document 02, request 13.

use second::compare::compaction::{check_sequence, Counts};
use second::compare::ledgers::Course;
use second::compare::sides::{asked, numbers_of, Calls, SECOND};
use second::compare::Answers;
use second::depot;
use second::generate::guided::Guide;
use second::ledger::Ledger;
use second::proved;
use second::random::Random;
use second::records::{Kind, Step};

const PROVED: Calls = Calls { step: proved::step, run_on: proved::run_on };

fn counted(seed: u64, course: Course, sequences: usize, length: usize, side: Calls) -> Counts {
    let (mut random, mut guide) = (Random::new(seed), Guide::new(seed + 1));
    let mut counts = Counts::default();
    for sequence in 0..sequences {
        let checked = check_sequence(&mut random, &mut guide, course, length, side);
        let told = |told| panic!("{course:?}, sequence {sequence}: {told}");
        counts.add(checked.unwrap_or_else(told));
    }
    counts
}

/// So many sequences of so many compactions aimed at. Both sides go the same
/// way, so what they are asked and answer is counted alike.
fn unchanged(seed: u64, course: Course, sequences: usize, length: usize) -> Counts {
    let counts = counted(seed, course, sequences, length, PROVED);
    println!("{course:?}: {counts:?}");
    assert_eq!(counts, counted(seed, course, sequences, length, SECOND));
    counts
}

fn from(answers: &Answers, least: u64) -> usize {
    answers.range(least..).map(|(_, times)| times).sum()
}

/// Many of each sort, so that none is checked on nothing.
fn much_was_seen(counts: &Counts, compactions: usize) {
    assert!(counts.compactions >= compactions, "{counts:?}");
    assert!(counts.looks >= 40 * compactions, "{counts:?}");
    for answer in [0, 2, 15, 16] {
        assert!(counts.answers.get(&answer) >= Some(&(4 * compactions)), "{counts:?}");
    }
    assert!(counts.held_current >= 2 * compactions, "{counts:?}");
    assert!(counts.held_back >= compactions / 2, "{counts:?}");
    for sort in [from(&counts.taken_out, 2), counts.sales, counts.listed, counts.expired] {
        assert!(sort >= compactions / 20, "{counts:?}");
    }
    assert!(counts.at_expiry >= compactions / 20, "{counts:?}");
    assert!(from(&counts.currencies, 3) >= compactions / 4, "{counts:?}");
    assert!(from(&counts.live, 3) >= compactions / 4, "{counts:?}");
}

#[test]
fn looks_agree_around_compactions_from_fresh() {
    let counts = unchanged(20_240_691, Course::Fresh, 8, 50);
    much_was_seen(&counts, 350);
}

#[test]
fn looks_agree_around_compactions_of_stocked_ledgers() {
    let counts = unchanged(20_240_693, Course::Stocked, 90, 5);
    much_was_seen(&counts, 400);
}

#[test]
fn looks_agree_around_compactions_near_the_highest_numbers() {
    let counts = unchanged(20_240_695, Course::High, 8, 30);
    much_was_seen(&counts, 180);
}

/// The case and the value of what a step without a list is answered at 22.
fn answer(side: Calls, ledger: &mut [u64], kind: Kind) -> [u64; 2] {
    let step = Step { time: 22, kind, list: vec![] };
    let ([case, value, _], _) = side.answer(ledger, &asked(&step)).unwrap();
    [case, value]
}

/// Case 19 of the depot's week, with a hold on manifest 5, which lists object 2
/// of currency 756 and object 4 of 978 and is current before the COMPACT.
#[test]
fn case_19_leaves_the_other_looks_as_they_were() {
    let (week, done, refused) = (depot::week(), [1, 0], |code| [0, code]);
    let found = |object| [4, object];
    for side in [PROVED, SECOND] {
        let mut ledger = numbers_of(&Ledger::fresh());
        for (step, _) in &week[..20] {
            side.answer(&mut ledger, &asked(step)).unwrap();
        }
        let held = Kind::Hold { hold: 9, manifest: 5, expiry: 22 };
        assert_eq!(answer(side, &mut ledger, held), done);
        let looks = |ledger: &[u64]| {
            let asked = [(756, 0), (978, 0), (985, 0), (756, 9), (978, 9), (985, 9), (978, 8)];
            asked.map(|(currency, hold)| {
                answer(side, &mut ledger.to_vec(), Kind::Look { currency, hold })
            })
        };
        let through = [found(2), found(4), refused(16), refused(15)];
        let current = |object| vec![found(2), found(object), refused(16)];
        assert_eq!(looks(&ledger)[..], [current(4), through.to_vec()].concat());
        assert_eq!(answer(side, &mut ledger, week[20].0.kind), done);
        assert_eq!(looks(&ledger)[..], [current(5), through.to_vec()].concat());
    }
}
