//! The comparison finds differences: each wrong desk differs from the right
//! one in one respect only.

use super::*;
use crate::compare::ledgers::Course;
use crate::compare::Answers;
use crate::desk::LARGEST_FARE;
use crate::generate::guided::Guide;
use crate::random::Random;
use crate::records::{Kind, Step};

mod wrong_cards;
mod wrong_sales;
mod wrong_sheets;

const COURSES: [Course; 4] = [Course::Fresh, Course::Stocked, Course::High, Course::Damaged];

fn sold(course: Course, sequences: usize, first: Calls) -> Result<sales::Counts, String> {
    let (mut random, mut guide) = (Random::new(1), Guide::new(2));
    let mut counts = sales::Counts::default();
    for _ in 0..sequences {
        let some = sales::compare_sequence(&mut random, &mut guide, course, 250, first, SECOND)?;
        counts.add(some);
    }
    Ok(counts)
}

fn filled(course: Course, sequences: usize, first: Calls) -> Result<cards::Counts, String> {
    let (mut random, mut guide) = (Random::new(3), Guide::new(4));
    let mut counts = cards::Counts::default();
    for _ in 0..sequences {
        let some = cards::compare_sequence(&mut random, &mut guide, course, 250, first, SECOND)?;
        counts.add(some);
    }
    Ok(counts)
}

/// Lays the ledger after a look over the one before.
fn look_on(ledger: &mut [u64], time: u64, currency: u64, hold: u64) {
    let kind = Kind::Look { currency: cut(currency), hold };
    let (_, next) = raw::step(&raw_of(ledger), &Step { time, kind, list: vec![] });
    ledger[..LEDGER].copy_from_slice(&ledger_numbers(&next));
}

#[track_caller]
fn given(answers: &Answers, expected: &[u64], least: usize) {
    assert_eq!(answers.keys().copied().collect::<Vec<_>>(), expected);
    assert!(answers.values().all(|times| *times >= least), "{answers:?}");
}

/// A tenth of what is compared with the proved library, and of what it must
/// reach.
#[test]
fn sales_reach_every_code() {
    let mut all = sales::Counts::default();
    for (course, sequences) in COURSES.into_iter().zip([80, 50, 50, 60]) {
        let counts = sold(course, sequences, SECOND).unwrap();
        println!("{course:?}: {counts:?}");
        given(&counts.answers, &[DONE, SHORT], 50);
        given(&counts.holds, &[0, 1, 2, 3], 20);
        given(&counts.times, &[0, 1, 2], 1_000);
        assert!(counts.rounded > 500 && counts.moved > 200 && counts.held_back > 50);
        assert_eq!(counts.codes.contains_key(&1), course == Course::Damaged);
        assert_eq!(counts.damaged_sound > 100, course == Course::Damaged);
        all.add(counts);
    }
    assert!(all.sales >= 50_000);
    given(&all.codes, &[0, 1, 2, 3, 15, 16, 30], 100);
    let million = 1_000_000;
    let wide = 1 << 32;
    let fares = [0, 1, million - 1, million, million + 1, wide, wide + million, u64::MAX];
    given(&all.fares, &fares, 50);
    let edges = [0, 999, 1_000, 65_535, 65_536, 66_514, u64::MAX - 1, u64::MAX];
    given(&all.currencies, &edges, 50);
}

#[test]
fn cards_reach_every_code() {
    let mut all = cards::Counts::default();
    for (course, sequences) in COURSES.into_iter().zip([8, 4, 5, 7]) {
        let counts = filled(course, sequences, SECOND).unwrap();
        println!("{course:?}: {counts:?}");
        given(&counts.answers, &[DONE, MALFORMED, SHORT], 10);
        assert!(counts.resumed > 50);
        all.add(counts);
    }
    assert!(all.cards >= 5_000);
    given(&all.codes, &[0, 1, 2, 3, 15, 16], 100);
    given(&all.holds, &[0, 1, 2, 3], 20);
    given(&all.entries, &(0..=ENTRIES as u64 + 2).collect::<Vec<_>>(), 1);
    assert!(all.handed_on > 20 && all.damaged_sound > 100, "{all:?}");
}

#[test]
fn sheets_reach_every_answer() {
    let reads = sheets::compare_reads(&mut Random::new(5), 10_000, SECOND, SECOND).unwrap();
    given(&reads, &[DONE, MALFORMED, SHORT], 1_000);
    let mut random = Random::new(6);
    let writes = sheets::compare_writes(&mut random, 1_000, write_sheet, write_sheet).unwrap();
    given(&writes, &[0, MALFORMED, SHORT, 41], 1_000);
}

#[test]
fn slices_of_every_length_are_tried() {
    let counts = sales::compare_lent(&mut Random::new(7), SECOND, SECOND).unwrap();
    given(&counts.answers, &[DONE, SHORT], 100);
    given(&counts.codes, &[0, 1, 2, 3, 15, 16, 30], 9);
    let counts = cards::compare_lent(&mut Random::new(8), SECOND, SECOND).unwrap();
    given(&counts.answers, &[DONE, MALFORMED, SHORT], 100);
}

/// A currency of more than 16 bits is not cut to one that a sheet has.
#[test]
fn a_wide_currency_is_none() {
    let ([mut numbers, ..], wide) = (week(), 978 + (1 << 16));
    let (mut card, mut sheet, mut sale) = ([wide, 7, 7], [0; 41], [7; SALE]);
    assert_eq!(fill_card(&mut numbers, 22, 0, 1, &mut card), DONE);
    assert_eq!(card, [wide, 2, 0]);
    assert_eq!(write_sheet(&[5, wide, 1, 1], &mut sheet), MALFORMED);
    assert_eq!(write_sheet(&[5, 978, 1, 1], &mut sheet), 41);
    assert_eq!(sell(&mut numbers, 22, &sheet, wide, 0, 8, &mut sale), DONE);
    assert_eq!(sale, [2, 0]);
    assert_eq!(sell(&mut numbers, 22, &sheet, 978, 0, 8, &mut sale), DONE);
    assert_eq!(sale, [0, 8]);
}

/// Marks that no ledger has are not cut: the look is refused with 1, and they
/// stay as they are. Elements beyond stay.
#[test]
fn the_calls_keep_their_convention() {
    let [start, marked, _] = week();
    assert_ne!(start, marked);
    let mut numbers = marked.clone();
    assert_eq!(sell(&mut numbers, 22, &[], 978, 0, 0, &mut [0]), SHORT);
    assert_eq!(fill_card(&mut numbers, 22, 0, 0, &mut [0; (ENTRIES + 1) * ENTRY]), SHORT);
    assert_eq!(fill_card(&mut numbers[1..], 22, 0, 0, &mut []), SHORT);
    let (mut sale, mut sheet) = ([7; SALE + 1], [0; 41]);
    assert_eq!(sell(&mut numbers, 22, &[], 978, 0, 0, &mut sale), DONE);
    assert_eq!(sale, [2, 0, 7]);
    assert_eq!(write_sheet(&[5, 978, 1, 1], &mut sheet), 41);
    assert_eq!(sell(&mut numbers, 22, &sheet, 978, 0, 8, &mut sale), DONE);
    assert_eq!(sale, [1, 0, 7]);
    assert_eq!(fill_card(&mut numbers, 22, 0, 1, &mut [978, 7, 7]), DONE);
    assert_eq!(numbers, marked);

    let mut numbers = [&start[..], &[7]].concat();
    let mut card = [978, 7, 7, 985, 7, 7, 978, 7];
    assert_eq!(fill_card(&mut numbers, 23, 0, 3, &mut card), MALFORMED);
    assert_eq!(card, [978, 7, 7, 985, 7, 7, 978, 7]);
    assert_eq!(numbers, [&start[..], &[7]].concat());
    assert_eq!(fill_card(&mut numbers, 23, 0, 2, &mut card), DONE);
    assert_eq!(card, [978, 0, 5, 985, 16, 0, 978, 7]);
    assert_eq!((numbers[0], numbers[LEDGER]), (23, 7));
    let mut longest = [978; (ENTRIES + 1) * ENTRY - 1];
    assert_eq!(fill_card(&mut numbers, 23, 0, ENTRIES as u64, &mut longest), DONE);
    assert_eq!(longest[(ENTRIES - 1) * ENTRY..], [978, 0, 5, 978, 978]);
}
