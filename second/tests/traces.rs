//! The proved library's runs over whole traces against the second program's.

use second::compare::ledgers::ledger_numbers;
use second::compare::traces::{
    compare_lent, compare_rooms, compare_sequence, Calls, Counts, Course, SECOND,
};
use second::compare::Answers;
use second::depot;
use second::generate::guided::Guide;
use second::ledger::Ledger;
use second::limits::{HOLDS, MANIFESTS, NAMES, PLACES};
use second::proved;
use second::random::Random;
use second::raw::raw;
use second::records::{write_verdict, Kind, Role, Verdict};

const PROVED: Calls = Calls { run: proved::run, run_on: proved::run_on };
const LENGTH: usize = 1_000;

#[track_caller]
fn told(label: &str, compared: Result<Counts, String>) -> Counts {
    let counts = compared.unwrap_or_else(|difference| panic!("{label}: runs differ: {difference}"));
    let Counts { runs, steps, answers, verdicts, accepted, .. } = &counts;
    println!("{label}: {runs} runs, {steps} steps, endings {answers:?}");
    println!("  by row of the table: {verdicts:?}");
    println!("  accepted by kind: {accepted:?}");
    println!("  by stored objects: {:?}", counts.objects);
    println!("  commits by names: {:?}", counts.committed);
    println!("  collections by names: {:?}", counts.collected);
    counts
}

/// Compares that many sequences of 1,000 records, which give at least so many
/// steps.
fn agree(seed: u64, course: Course, sequences: usize, steps: usize) -> Counts {
    let (mut random, mut guide) = (Random::new(seed), Guide::new(seed + 1));
    let compared = (0..sequences).try_fold(Counts::default(), |mut counts, _| {
        counts.add(compare_sequence(&mut random, &mut guide, course, LENGTH, PROVED, SECOND)?);
        Ok(counts)
    });
    let counts = told(&format!("{course:?}"), compared);
    assert!(counts.steps >= steps, "{} of {steps} steps", counts.steps);
    counts
}

#[track_caller]
fn all_given(answers: &Answers, expected: impl IntoIterator<Item = u64>, least: usize) {
    for answer in expected {
        assert!(answers.get(&answer) >= Some(&least), "{answer} of {answers:?}");
    }
}

/// Empty and full stores, the fresh ledger's one manifest and all nine, no
/// hold and all eight, and all between.
fn every_size(counts: &Counts, least: usize) {
    all_given(&counts.objects, 0..=PLACES as u64, least);
    all_given(&counts.manifests, 1..=MANIFESTS as u64, least);
    all_given(&counts.holds, 0..=HOLDS as u64, least);
}

/// Lists of every length, also one name too long, and the shortest and the
/// longest collection.
fn every_list(counts: &Counts, least: usize) {
    all_given(&counts.committed, 0..=NAMES as u64 + 1, least);
    all_given(&counts.collected, [0, PLACES as u64], least);
}

fn written(verdict: &Verdict) -> Vec<u8> {
    write_verdict(verdict).expect("a step's verdict is well formed")
}

#[test]
fn the_tables_hold_of_the_proved_run() {
    for table in [depot::week(), depot::out_of_order()] {
        let expected: Vec<u8> = table.iter().flat_map(|(_, verdict)| written(verdict)).collect();
        let (mut out, mut counts) = (vec![0; expected.len()], [0; 2]);
        assert_eq!(proved::run(&depot::records(&table), &mut out, &mut counts), 0);
        assert_eq!(out, expected);
    }
}

/// "once it is collected, every PUT past 9 gives 10", of the proved run on a
/// built ledger, which all of them leave as it was.
#[test]
fn once_the_largest_number_is_collected_every_put_past_9_gives_10() {
    let role = Role::Writer;
    let put = |epoch, object| Kind::Put { role, epoch, object, currency: 978 };
    let start = [Kind::Fence { role, slot: 1 }, put(1, 5), put(1, u64::MAX - 1)];
    let trace = start.map(|kind| depot::record(0, kind)).concat();
    let mut built = second::run::run(&Ledger::fresh(), &trace, usize::MAX).ledger;
    assert_eq!(built.objects.len(), 2);
    built.highest_collected = u64::MAX;
    let before = ledger_numbers(&raw(&built));
    for (epoch, object, code) in [
        (1, 1, 10),
        (1, 4, 10),
        (1, 6, 10),
        (1, u64::MAX, 10),
        (1, 5, 9),
        (1, u64::MAX - 1, 9),
        (2, 6, 4),
    ] {
        let (mut ledger, mut out, mut counts) = (before.clone(), [0; 7], [0; 2]);
        let record = depot::record(0, put(epoch, object));
        assert_eq!(proved::run_on(&mut ledger, &record, &mut out, &mut counts), 0);
        assert_eq!(out[..], written(&Verdict::Refused(code)), "{object} of epoch {epoch}");
        assert_eq!(ledger, before);
    }
}

#[test]
fn runs_agree_from_fresh() {
    let counts = agree(20_240_631, Course::Fresh, 1_000, 900_000);
    all_given(&counts.answers, [0, 2], 100);
    all_given(&counts.verdicts, (0..=17).filter(|row| *row != 1), 1_000);
    all_given(&counts.accepted, 0..=9, 1_000);
    every_size(&counts, 1_000);
    every_list(&counts, 100);
}

#[test]
fn runs_agree_on_the_ledger_of_the_run_before() {
    let counts = agree(20_240_633, Course::Pieces, 800, 700_000);
    all_given(&counts.answers, [0, 2], 1_000);
    all_given(&counts.verdicts, (0..=17).filter(|row| *row != 1), 1_000);
    all_given(&counts.accepted, 0..=9, 1_000);
    every_size(&counts, 1_000);
    every_list(&counts, 100);
}

#[test]
fn runs_agree_near_the_highest_numbers() {
    let counts = agree(20_240_635, Course::High, 100, 80_000);
    all_given(&counts.verdicts, (0..=17).filter(|row| *row != 1), 100);
    all_given(&counts.accepted, 0..=9, 100);
}

#[test]
fn runs_agree_on_damaged_traces() {
    let counts = agree(20_240_637, Course::DamagedTraces, 500, 200_000);
    all_given(&counts.answers, 0..=2, 1_000);
    all_given(&counts.verdicts, (0..=17).filter(|row| *row != 1), 100);
    all_given(&counts.accepted, 0..=9, 100);
}

#[test]
fn runs_agree_on_damaged_ledgers() {
    let counts = agree(20_240_639, Course::DamagedLedgers, 400, 300_000);
    all_given(&counts.verdicts, 0..=17, 100);
    all_given(&counts.verdicts, [0, 1], 1_000);
    assert!(counts.damaged_sound >= 1_000, "{}", counts.damaged_sound);
}

#[test]
fn runs_agree_in_every_room() {
    let (mut random, mut guide) = (Random::new(20_240_641), Guide::new(20_240_642));
    let counts = told("rooms", compare_rooms(&mut random, &mut guide, 60, PROVED, SECOND));
    all_given(&counts.answers, 0..=2, 1_000);
    // Traces whose verdicts all fit; the empty trace has no room one less.
    assert!(counts.exact >= 60, "{}", counts.exact);
    assert!(counts.one_less >= 50, "{}", counts.one_less);
}

#[test]
fn short_slices_are_answered_alike() {
    let counts = told("slices", compare_lent(&mut Random::new(20_240_643), PROVED, SECOND));
    all_given(&counts.answers, 0..=3, 100);
}
