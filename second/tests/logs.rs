//! The proved library's check of a log against the second program's.

use std::thread;

use second::compare::logs::week::check_week;
use second::compare::logs::{
    compare_logs, Counts, Place, AGREE, DIFFERS, MALFORMED, SECOND, SHORT, UNSOUND,
};
use second::generate::logs::{Source, SORTS};
use second::proved;
use second::random::Random;

/// Compared in two halves at once.
const TIMES: usize = 300_000;

fn half(seed: u64) -> Counts {
    let (mut random, mut source) = (Random::new(seed), Source::new(seed + 1));
    let compared = compare_logs(&mut random, &mut source, TIMES / 2, proved::check_log, SECOND);
    compared.unwrap_or_else(|difference| panic!("seed {seed}: {difference}"))
}

#[test]
fn checkers_agree() {
    let halves = thread::scope(|scope| {
        let other = scope.spawn(|| half(20_240_754));
        [half(20_240_751), other.join().expect("the other half")]
    });
    for Counts { asked, answers, sorts, indices, places, lent, records } in halves {
        println!("{asked} logs of {records} records by answer: {answers:?}");
        println!("  by sort and answer: {sorts:?}");
        println!("  differences: {places:?}, by index: {indices:?}; lent: {lent:?}");
        assert_eq!(asked, TIMES / 2);
        for (answer, least) in
            [(AGREE, 20_000), (UNSOUND, 2_000), (MALFORMED, 5_000), (SHORT, 2_000)]
        {
            assert!(answers.get(&answer) >= Some(&least), "{answer} of {answers:?}");
        }
        assert!(answers.get(&DIFFERS) >= Some(&60_000), "{answers:?}");
        for (sort, expected) in SORTS {
            for answer in [AGREE, UNSOUND, MALFORMED, DIFFERS] {
                let times = sorts.get(&(sort, answer)).copied().unwrap_or(0);
                let wanted = expected.contains(&answer);
                let enough = if wanted { times >= 50 } else { times == 0 };
                assert!(enough, "{sort:?} is answered {answer}: {times}");
            }
        }
        for place in [Place::First, Place::Middle, Place::Last, Place::Behind] {
            assert!(places.get(&place) >= Some(&5_000), "{place:?} of {places:?}");
        }
        assert!((0..=40).all(|index| indices.contains_key(&index)), "{indices:?}");
        assert!(indices.range(256..).count() >= 5, "{indices:?}");
    }
}

#[test]
fn every_cut_and_every_bit_of_the_week_is_answered_as_the_paper_says() {
    for side in [proved::check_log, SECOND] {
        let asked = check_week(side).unwrap_or_else(|difference| panic!("{difference}"));
        println!("asked {asked} times");
        assert!(asked >= 17_000, "{asked}");
    }
}
