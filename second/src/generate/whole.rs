//! Traces that end whole, with many records that are refused, malformed ones
//! too: document 01, "Records and names" and "When a step is turned away".

use super::guided::Guide;
use super::{broken, loose, verdict_record};
use crate::ledger::Ledger;
use crate::random::Random;
use crate::records::{field, write_step, Kind, Step};
use crate::run::run;

/// That many whole records, guided by the ledger that they lead to.
pub fn records(
    random: &mut Random,
    guide: &mut Guide,
    start: &Ledger,
    length: usize,
) -> Vec<Vec<u8>> {
    let mut ledger = start.clone();
    let mut records = Vec::with_capacity(length);
    for _ in 0..length {
        let record = record(random, &guide.next(&ledger));
        ledger = run(&ledger, &record, usize::MAX).ledger;
        records.push(record);
    }
    records
}

/// The step's record, now and then another, most often malformed. Where no
/// reader takes the step, a COMMIT is written with its list nevertheless.
fn record(random: &mut Random, step: &Step) -> Vec<u8> {
    match (write_step(step), step.kind) {
        (Some(record), _) if random.once_in(20) => other(random, &record),
        (Some(record), _) => record,
        (None, Kind::Commit { epoch, slot }) => loose::commit(step.time, epoch, slot, &step.list),
        (None, _) => loose::step(random),
    }
}

/// Damaged within a true outer length, under any outer tag, without fields, no
/// step at all, with any values, or as long as a record can claim to be.
fn other(random: &mut Random, record: &[u8]) -> Vec<u8> {
    let tag = random.any() as u8;
    match random.below(12) {
        0..=3 => broken(random, record),
        4..=6 => [&[tag], &record[1..]].concat(),
        7 | 8 => field(random.pick(&[tag, record[0]]), &[]),
        9 => verdict_record(random),
        10 if random.once_in(20) => field(random.pick(&[tag, record[0]]), &[0; 0xFFFF]),
        _ => loose::step(random),
    }
}

#[cfg(test)]
mod tests {
    use super::*;
    use crate::records::{next_record, read_step, Next};

    #[test]
    fn every_record_is_whole_and_some_are_malformed() {
        let (mut random, mut guide) = (Random::new(1), Guide::new(2));
        let (mut taken, mut refused, mut longest) = (0, 0, 0);
        for _ in 0..50 {
            for record in records(&mut random, &mut guide, &Ledger::fresh(), 200) {
                assert_eq!(next_record(&record), Next::Record(record.len()));
                taken += usize::from(read_step(&record).is_some());
                refused += usize::from(read_step(&record).is_none());
                longest = longest.max(record.len());
            }
        }
        assert!(taken > 8_000 && refused > 400, "{taken} {refused}");
        assert_eq!(longest, 3 + 0xFFFF);
    }
}
