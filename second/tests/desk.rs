//! The proved library's sale desk against the second one.

use second::compare::desk::{cards, sales, sheets, Calls, ENTRIES, SECOND};
use second::compare::ledgers::{ledger_numbers, Course};
use second::compare::Answers;
use second::depot;
use second::desk::{write_sheet, Sheet};
use second::generate::guided::Guide;
use second::ledger::Ledger;
use second::proved;
use second::random::Random;
use second::raw::raw;
use second::run::run;

const PROVED: Calls = Calls {
    read: proved::read_sheet,
    write: proved::write_sheet,
    sell: proved::sell,
    fill: proved::fill_card,
};
const LENGTH: usize = 250;

#[track_caller]
fn told<T>(label: &str, compared: Result<T, String>) -> T {
    compared.unwrap_or_else(|difference| panic!("{label}: desks differ: {difference}"))
}

#[track_caller]
fn all_given(answers: &Answers, expected: &[u64], least: usize) {
    for answer in expected {
        assert!(answers.get(answer) >= Some(&least), "{answer} of {answers:?}");
    }
}

/// Compares that many sequences of 250 sales.
fn sales_agree(seed: u64, course: Course, sequences: usize) -> sales::Counts {
    let (mut random, mut guide) = (Random::new(seed), Guide::new(seed + 1));
    let mut counts = sales::Counts::default();
    for sequence in 0..sequences {
        let compared =
            sales::compare_sequence(&mut random, &mut guide, course, LENGTH, PROVED, SECOND);
        counts.add(told(&format!("{course:?}, sequence {sequence}"), compared));
    }
    println!("{course:?}: {counts:?}");
    assert_eq!(counts.sales, sequences * LENGTH);
    all_given(&counts.answers, &[0, 3], 500);
    all_given(&counts.codes, &[0, 2, 3, 15, 16, 30], 1_000);
    all_given(&counts.holds, &[0, 1, 2, 3], 500);
    all_given(&counts.times, &[0, 1, 2], 5_000);
    all_given(&counts.currencies, &[0, 999, 1_000, 65_535, 65_536, u64::MAX], 500);
    all_given(&counts.fares, &[0, 1, 1_000_000, 1_000_001, u64::MAX], 500);
    assert!(counts.rounded >= 10_000 && counts.moved >= 1_000 && counts.held_back >= 500);
    counts
}

/// Compares that many sequences of 250 cards.
fn cards_agree(seed: u64, course: Course, sequences: usize) -> cards::Counts {
    let (mut random, mut guide) = (Random::new(seed), Guide::new(seed + 1));
    let mut counts = cards::Counts::default();
    for sequence in 0..sequences {
        let compared =
            cards::compare_sequence(&mut random, &mut guide, course, LENGTH, PROVED, SECOND);
        counts.add(told(&format!("{course:?}, sequence {sequence}"), compared));
    }
    println!("{course:?}: {counts:?}");
    assert_eq!(counts.cards, sequences * LENGTH);
    all_given(&counts.answers, &[0, 2, 3], 100);
    all_given(&counts.codes, &[0, 2, 3, 15, 16], 1_000);
    all_given(&counts.entries, &(0..=ENTRIES as u64 + 2).collect::<Vec<_>>(), 5);
    all_given(&counts.holds, &[0, 1, 2, 3], 50);
    assert!(counts.resumed >= 500 && counts.handed_on >= 50);
    counts
}

#[test]
fn sheets_are_read_alike() {
    let mut random = Random::new(20_240_651);
    let answers = told("reads", sheets::compare_reads(&mut random, 250_000, PROVED, SECOND));
    println!("sheets read by answer: {answers:?}");
    all_given(&answers, &[0, 2, 3], 10_000);
    assert!(answers.values().sum::<usize>() >= 300_000);
}

/// Each sheet in every room up to 50.
#[test]
fn sheets_are_written_alike() {
    let mut random = Random::new(20_240_653);
    let compared = sheets::compare_writes(&mut random, 100_000, PROVED.write, SECOND.write);
    let answers = told("writes", compared);
    println!("sheets written by answer: {answers:?}");
    all_given(&answers, &[0, 2, 3, 41], 100_000);
}

#[test]
fn sales_agree_from_fresh() {
    sales_agree(20_240_655, Course::Fresh, 950);
}

#[test]
fn sales_agree_on_stocked_ledgers() {
    sales_agree(20_240_669, Course::Stocked, 250);
}

#[test]
fn sales_agree_near_the_highest_numbers() {
    sales_agree(20_240_657, Course::High, 400);
}

#[test]
fn sales_agree_on_damaged_ledgers() {
    let counts = sales_agree(20_240_659, Course::Damaged, 500);
    all_given(&counts.codes, &[1], 1_000);
    assert!(counts.damaged_sound >= 1_000, "{counts:?}");
}

#[test]
fn cards_agree_from_fresh() {
    cards_agree(20_240_661, Course::Fresh, 120);
}

#[test]
fn cards_agree_on_stocked_ledgers() {
    cards_agree(20_240_671, Course::Stocked, 60);
}

#[test]
fn cards_agree_near_the_highest_numbers() {
    cards_agree(20_240_663, Course::High, 60);
}

#[test]
fn cards_agree_on_damaged_ledgers() {
    let counts = cards_agree(20_240_665, Course::Damaged, 80);
    all_given(&counts.codes, &[1], 1_000);
    assert!(counts.damaged_sound >= 1_000, "{counts:?}");
}

#[test]
fn slices_of_every_length_are_answered_alike() {
    let mut random = Random::new(20_240_667);
    let counts = told("sales", sales::compare_lent(&mut random, PROVED, SECOND));
    all_given(&counts.answers, &[0, 3], 100);
    let counts = told("cards", cards::compare_lent(&mut random, PROVED, SECOND));
    all_given(&counts.answers, &[0, 2, 3], 100);
}

/// The papers' charges and the ends of the ranges, on the ledger behind the
/// depot's week, where object 5 is the sheet of currency 978.
#[test]
fn the_papers_charges_hold_of_the_proved_desk() {
    let week = run(&Ledger::fresh(), &depot::trace(), usize::MAX).ledger;
    for (fare, numerator, denominator, charge) in [
        (250, 11, 10, 275),
        (100, 1, 3, 34),
        (0, 1_000_000_000, 1, 0),
        (1, 1, 1_000_000_000, 1),
        (1_000_000, 1_000_000_000, 1, 1_000_000_000_000_000),
    ] {
        let sheet = Sheet { object: 5, currency: 978, numerator, denominator };
        let sheet = write_sheet(&sheet).expect("it is well formed");
        let (mut ledger, mut sale) = (ledger_numbers(&raw(&week)), [7; 2]);
        assert_eq!((PROVED.sell)(&mut ledger, 23, &sheet, 978, 0, fare, &mut sale), 0);
        assert_eq!(sale, [0, charge], "{fare} at {numerator}/{denominator}");
        assert_eq!(ledger[0], 23);
    }
}
