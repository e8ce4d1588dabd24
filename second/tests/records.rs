//! The proved library's record codec against the second one.

use second::compare::records::{
    compare_reads, compare_writes, Codec, Records, LENGTH, STEPS, VERDICTS,
};
use second::compare::{records, Answers};
use second::proved;
use second::random::Random;

const PROVED_STEPS: Codec =
    Codec { next: proved::next_record, read: proved::read_step, write: proved::write_step };
const PROVED_VERDICTS: Codec =
    Codec { next: proved::next_record, read: proved::read_verdict, write: proved::write_verdict };
const SECOND_STEPS: Codec =
    Codec { next: records::next_record, read: records::read_step, write: records::write_step };
const SECOND_VERDICTS: Codec = Codec {
    next: records::next_record,
    read: records::read_verdict,
    write: records::write_verdict,
};

fn all_given(answers: &Answers, expected: &[u64], least: usize) {
    for answer in expected {
        assert!(answers.get(answer) >= Some(&least), "{answer} of {answers:?}");
    }
}

fn reads_agree(seed: u64, records: &Records, count: usize, one: Codec, other: Codec) {
    let compared = compare_reads(&mut Random::new(seed), records, count, one, other);
    let counts = compared.unwrap_or_else(|difference| panic!("codecs differ: {difference}"));
    println!("{count} records, answers by call, {LENGTH} for a length: {counts:?}");
    all_given(&counts.next, &[0, 1, LENGTH], 100);
    all_given(&counts.reads, &[0, 2, 3], 10_000);
    all_given(&counts.writes, &[0, LENGTH], 10_000);
}

fn writes_agree(seed: u64, records: &Records, count: usize, one: Codec, other: Codec) {
    let compared = compare_writes(&mut Random::new(seed), records, count, one, other);
    let answers = compared.unwrap_or_else(|difference| panic!("writers differ: {difference}"));
    println!("{count} writes by answer, {LENGTH} for a length: {answers:?}");
    all_given(&answers, &[0, 2, 3, LENGTH], 10_000);
}

#[test]
fn step_readers_agree() {
    reads_agree(20_240_611, &STEPS, 2_000_000, PROVED_STEPS, SECOND_STEPS);
}

#[test]
fn verdict_readers_agree() {
    reads_agree(20_240_612, &VERDICTS, 1_000_000, PROVED_VERDICTS, SECOND_VERDICTS);
}

#[test]
fn step_writers_agree() {
    writes_agree(20_240_613, &STEPS, 1_000_000, PROVED_STEPS, SECOND_STEPS);
}

#[test]
fn verdict_writers_agree() {
    writes_agree(20_240_614, &VERDICTS, 500_000, PROVED_VERDICTS, SECOND_VERDICTS);
}
