//! The proved library's ledger against the second one, step by step.

use std::thread;

use second::compare::ledgers::{
    compare_sequence, ledger_numbers, Calls, Counts, Course, LEDGER, SECOND,
};
use second::compare::Answers;
use second::depot;
use second::generate::guided::Guide;
use second::generate::measured;
use second::limits::{Limits, LONGEST_IMAGE, NAMES, PLACES, WORDS};
use second::proved;
use second::random::Random;
use second::raw::raw;

const PROVED: Calls = Calls {
    fresh: proved::fresh,
    step: proved::step,
    is_sound: proved::is_sound,
    current: proved::current,
};
const LENGTH: usize = 1_000;

fn agree(seed: u64, course: Course, sequences: usize) -> Counts {
    let (mut random, mut guide) = (Random::new(seed), Guide::new(seed + 1));
    let mut counts = Counts::default();
    for sequence in 0..sequences {
        let compared = compare_sequence(&mut random, &mut guide, course, LENGTH, PROVED, SECOND);
        counts.add(compared.unwrap_or_else(|difference| {
            panic!("{course:?}, sequence {sequence}: ledgers differ: {difference}")
        }));
    }
    let Counts { steps, answers, verdicts, accepted, damaged_sound, .. } = &counts;
    println!("{course:?}: {steps} steps, answers {answers:?}");
    println!("  accepted by stored objects: {:?}", counts.stored);
    println!("  collections by length: {:?}", counts.collected);
    println!("  damaged words {:?}, places by word {:?}", counts.words, counts.places);
    println!("  by row of the table: {verdicts:?}");
    println!("  accepted by kind: {accepted:?}");
    println!("  changed ledgers that are sound: {damaged_sound}");
    println!("  soundness told {:?}; widened {}", counts.soundness, counts.widened);
    counts
}

fn all_given(answers: &Answers, expected: impl IntoIterator<Item = u64>, least: usize) {
    for answer in expected {
        assert!(answers.get(&answer) >= Some(&least), "{answer} of {answers:?}");
    }
}

/// Empty and full stores, and all between.
fn every_store(counts: &Counts, least: usize) {
    all_given(&counts.stored, 0..=PLACES as u64, least);
}

#[test]
fn ledgers_agree_from_fresh() {
    let counts = agree(20_240_621, Course::Fresh, 400);
    all_given(&counts.answers, [0, 3], 1_000);
    all_given(&counts.verdicts, (0..=17).filter(|row| *row != 1), 1_000);
    all_given(&counts.accepted, 0..=9, 1_000);
    every_store(&counts, 100);
    all_given(&counts.collected, [0, PLACES as u64], 50);
}

#[test]
fn ledgers_agree_from_stocked_ones() {
    let counts = agree(20_240_627, Course::Stocked, 200);
    all_given(&counts.verdicts, (0..=17).filter(|row| *row != 1), 100);
    all_given(&counts.accepted, 0..=9, 100);
    every_store(&counts, 100);
}

#[test]
fn ledgers_agree_near_the_highest_numbers() {
    let counts = agree(20_240_623, Course::High, 150);
    all_given(&counts.verdicts, (0..=17).filter(|row| *row != 1), 100);
    all_given(&counts.accepted, 0..=9, 100);
}

#[test]
fn damaged_ledgers_are_judged_alike() {
    let counts = agree(20_240_625, Course::Damaged, 250);
    all_given(&counts.verdicts, 0..=17, 100);
    all_given(&counts.verdicts, [0, 1], 1_000);
    all_given(&counts.words, 0..WORDS as u64, 1_000);
    all_given(&counts.places, 0..WORDS as u64, 1_000);
    assert!(counts.damaged_sound >= 1_000, "{counts:?}");
    all_given(&counts.soundness, [0, 1, 3], 500);
    assert!(counts.widened >= 1_000, "{counts:?}");
}

/// The number that the header gives that name.
fn header_number(name: &str) -> usize {
    let header = include_str!("../../include/cuudhaqil.h");
    let (_, rest) = header.split_once(&format!("{name} = ")).expect(name);
    rest.split_once([',', '\n']).expect(name).0.parse().expect(name)
}

/// The longest image both ways, and one that is refused.
fn image_calls(full: &[u64], ledger: &mut [u64]) {
    let mut image = vec![0; LONGEST_IMAGE];
    assert_eq!(proved::write_image(full, &mut image), LONGEST_IMAGE as u64);
    assert_eq!(proved::read_image(&image, ledger), 0);
    assert_eq!(ledger, full);
    assert_eq!(proved::read_image(&image[1..], ledger), 2);
}

/// A log that agrees, from fresh and from the longest image, for whose clock the
/// trace is too early; one that is torn; an image that is refused.
fn log_calls(full: &[u64]) {
    let (mut image, mut out) = (vec![0; LONGEST_IMAGE], vec![0; 4_096]);
    let (trace, mut counts, mut at) = (depot::trace(), [0; 2], [0]);
    assert_eq!(proved::write_image(full, &mut image), LONGEST_IMAGE as u64);
    assert_eq!(proved::run(&trace, &mut out, &mut counts), 0);
    let log = &out[..counts[1] as usize];
    assert_eq!(proved::check_log(&[], &trace, log, &mut at), 0);
    let early = [0x40, 0, 4, 0, 0, 1, 3].repeat(depot::week().len());
    assert_eq!(proved::check_log(&image, &trace, &early, &mut at), 0);
    assert_eq!(proved::check_log(&image, &trace, &early[..early.len() - 1], &mut at), 4);
    assert_eq!(proved::check_log(&image[1..], &trace, log, &mut at), 2);
}

/// A thread that has no more stack than the header says runs every call. A
/// call that needs more ends the tests.
#[test]
fn the_stack_that_the_header_says_is_enough() {
    let full = ledger_numbers(&raw(&measured::full(Limits::NOW, [756, 978])));
    let calls = move || {
        let (mut ledger, mut counts) = (vec![0; LEDGER], [0; 2]);
        let (mut verdict, mut objects, mut list) = ([0; 3], vec![0; PLACES], vec![0; PLACES]);
        let (mut out, mut numbers) = (vec![0; 4_096], [0; 11]);
        let (trace, listing) = (depot::trace(), b"wal/00000000000000000001.sst\n");
        assert_eq!(proved::fresh(&mut ledger), 0);
        assert_eq!(proved::run(&trace, &mut out, &mut counts), 0);
        assert_eq!(proved::run_on(&mut ledger, &trace, &mut out, &mut counts), 0);
        assert_eq!((proved::is_sound(&ledger), proved::current(&ledger, &mut numbers)), (0, 0));
        for kind in 0..=10 {
            let step = [kind, 22, 0, 2, 7, 9, 978, 1, 6, 0, 0];
            let answer =
                proved::step(&mut ledger, &step, &list[..NAMES], &mut verdict, &mut objects);
            assert_eq!(answer, 0);
        }
        let mut sheet = [0; 41];
        assert_eq!(proved::write_sheet(&[5, 978, 11, 10], &mut sheet), 41);
        assert_eq!(proved::read_sheet(&sheet, &mut numbers), 0);
        let mut sale = [0; 2];
        assert_eq!(proved::sell(&mut ledger, 22, &sheet, 978, 0, 250, &mut sale), 0);
        assert_eq!(proved::fill_card(&mut ledger, 22, 0, 64, &mut [978; 192]), 0);
        assert_eq!(proved::read_step(&trace[..29], &mut numbers, &mut list), 0);
        assert_eq!(proved::write_step(&numbers, &list, &mut out), 29);
        assert_eq!(proved::write_verdict(&[1, 0, 0], &objects, &mut out), 7);
        assert_eq!(proved::read_verdict(&out[..7], &mut numbers, &mut list), 0);
        assert_eq!(proved::next_record(&trace), 29);
        assert_eq!(proved::write_name(1, 1, &mut out), 28);
        assert_eq!(proved::read_name(&out[..28], &mut numbers), 1);
        assert_eq!(proved::read_listing(listing, &mut numbers), 0);
        image_calls(&full, &mut ledger);
        log_calls(&full);
    };
    let thread = thread::Builder::new().stack_size(header_number("CUUDHAQIL_STACK"));
    thread.spawn(calls).expect("a thread").join().expect("the calls");
}

/// The version is the one that the header and the programs tell.
#[test]
fn the_version_is_told() {
    let parts = include_str!("../../VERSION").trim().split('.');
    let version = parts.fold(0, |sum, part| sum * 1_000 + part.parse::<u64>().expect("a number"));
    assert_eq!(proved::version(), version);
    assert_eq!(header_number("CUUDHAQIL_VERSION") as u64, version);
}
