//! Random steps and records for comparisons with the proved library, well
//! formed and damaged: document 01, "Records and names".

pub mod compactions;
pub mod guided;
pub mod images;
pub mod listings;
pub mod logs;
pub mod loose;
pub mod measured;
pub mod names;
pub mod sheets;
pub mod stocked;
pub mod whole;

use std::collections::BTreeSet;

use crate::limits::{NAMES, PLACES};
use crate::random::Random;
use crate::records::{write_step, write_verdict, Kind, Role, Step, Verdict, LAST_CODE};

/// A number of any magnitude, often an edge.
pub fn number(random: &mut Random) -> u64 {
    match random.below(4) {
        0 => random.pick(&[0, 1, 2, u64::MAX - 1, u64::MAX]),
        1 => random.below(20),
        _ => random.magnitude(),
    }
}

pub fn role(random: &mut Random) -> Role {
    random.pick(&[Role::Writer, Role::Compactor])
}

/// An expiry that is 0 or not below the time, often equal to it.
pub fn expiry(random: &mut Random, time: u64) -> u64 {
    match random.below(4) {
        0 => 0,
        1 => time,
        _ => time.saturating_add(random.below(30)),
    }
}

/// A strictly rising list without 0, at times the longest.
pub fn list(random: &mut Random, longest: usize) -> Vec<u64> {
    let length = match random.below(8) {
        0 => longest,
        _ => random.index(longest + 1),
    };
    let mut list = BTreeSet::new();
    while list.len() < length {
        list.insert(number(random).max(1));
    }
    list.into_iter().collect()
}

/// A well-formed step of any kind.
pub fn step(random: &mut Random) -> Step {
    let time = number(random);
    step_at(random, time, NAMES)
}

/// A well-formed step of any kind at that time, with at most so many names.
pub fn step_at(random: &mut Random, time: u64, names: usize) -> Step {
    let kind = kind(random, time);
    let list = match kind {
        Kind::Commit { .. } => list(random, names),
        _ => Vec::new(),
    };
    Step { time, kind, list }
}

fn kind(random: &mut Random, time: u64) -> Kind {
    let which = random.below(10);
    let (hold, object) = (number(random).max(1), number(random).max(1));
    let (epoch, slot) = (number(random), number(random));
    let (role, expiry) = (role(random), expiry(random, time));
    let currency = random.below(1000) as u16;
    match which {
        0 => Kind::Fence { role, slot },
        1 => Kind::Put { role, epoch, object, currency },
        2 => Kind::Commit { epoch, slot },
        3 => Kind::Compact { epoch, slot, object },
        4 => Kind::Hold { hold, manifest: slot, expiry },
        5 => Kind::Renew { hold, expiry },
        6 => Kind::Release { hold },
        7 => Kind::List { hold: slot },
        8 => Kind::Look { currency: currency.max(1), hold: slot },
        _ => Kind::Collect,
    }
}

/// A well-formed step record.
pub fn record(random: &mut Random) -> Vec<u8> {
    write_step(&step(random)).expect("the step is well formed")
}

/// A well-formed verdict of any shape.
pub fn verdict(random: &mut Random) -> Verdict {
    match random.below(6) {
        0 => Verdict::Refused(1 + random.below(LAST_CODE.into()) as u8),
        1 => Verdict::Done,
        2 => Verdict::Epoch(number(random).max(1)),
        3 => Verdict::Listed { manifest: number(random), list: list(random, NAMES) },
        4 => Verdict::Found(number(random).max(1)),
        _ => Verdict::Collected(list(random, PLACES)),
    }
}

/// A well-formed verdict record.
pub fn verdict_record(random: &mut Random) -> Vec<u8> {
    write_verdict(&verdict(random)).expect("the verdict is well formed")
}

/// The record with one damage; at times the damage leaves it well formed.
pub fn damage(random: &mut Random, record: &[u8]) -> Vec<u8> {
    let mut bytes = record.to_vec();
    if bytes.is_empty() {
        return vec![random.any() as u8];
    }
    let place = random.index(bytes.len());
    match random.below(7) {
        0 => bytes[place] ^= 1 << random.below(8),
        1 => bytes[place] = random.any() as u8,
        // Headers are near the start of a record, so damage is wanted there.
        2 => bytes[place % 6] = random.below(0x20) as u8,
        3 => bytes.truncate(place),
        4 => bytes.insert(place, random.any() as u8),
        5 => bytes.extend((0..1 + random.below(9)).map(|_| random.any() as u8)),
        _ => {
            bytes.remove(place);
        }
    }
    bytes
}

/// The start of one record and the end of another.
pub fn splice(random: &mut Random, first: &[u8], second: &[u8]) -> Vec<u8> {
    let (left, right) = (random.index(first.len() + 1), random.index(second.len() + 1));
    [&first[..left], &second[right..]].concat()
}

/// The same bytes with an outer length that agrees with them, so that the
/// damage reaches the inner fields.
pub fn with_length(bytes: &[u8]) -> Vec<u8> {
    let mut bytes = bytes.to_vec();
    if let Some(length) = bytes.len().checked_sub(3) {
        let length = u16::try_from(length).expect("records are short");
        bytes[1..3].copy_from_slice(&length.to_be_bytes());
    }
    bytes
}

/// A record damaged in one of these ways.
pub fn damaged(random: &mut Random, record: &[u8], other: &[u8]) -> Vec<u8> {
    let bytes = match random.below(4) {
        0 => splice(random, record, other),
        _ => damage(random, record),
    };
    match random.below(2) {
        0 => with_length(&bytes),
        _ => bytes,
    }
}

/// The records of the steps one after another, some of them damaged in a way
/// that keeps the outer length true, and at times a torn end.
pub fn trace(random: &mut Random, steps: &[Step]) -> Vec<u8> {
    let mut trace = Vec::new();
    for step in steps {
        match write_step(step) {
            Some(bytes) => trace.extend(bytes),
            None => {
                let record = record(random);
                trace.extend(broken(random, &record));
            }
        }
        if random.once_in(20) {
            let record = record(random);
            trace.extend(broken(random, &record));
        }
    }
    if random.once_in(3) {
        let record = record(random);
        trace.extend(&record[..random.index(record.len())]);
    }
    trace
}

/// The record damaged in a way that keeps the outer length true.
pub fn broken(random: &mut Random, record: &[u8]) -> Vec<u8> {
    let bytes = with_length(&damage(random, record));
    // Fewer bytes than a header would misplace every record behind them.
    if bytes.len() < 3 {
        return vec![0xEE, 0, 0];
    }
    bytes
}

#[cfg(test)]
mod tests {
    use super::*;
    use crate::ledger::Ledger;
    use crate::records::{next_record, read_step, read_verdict, Next};
    use crate::run::{run, End};

    #[test]
    fn generated_records_are_well_formed_and_of_every_kind() {
        let mut random = Random::new(1);
        let mut kinds = [0; 10];
        for _ in 0..20_000 {
            let step = step(&mut random);
            let bytes = write_step(&step).unwrap();
            kinds[usize::from(bytes[0] - 0x10)] += 1;
            assert_eq!(read_step(&bytes), Some(step));
            let bytes = verdict_record(&mut random);
            let verdict = read_verdict(&bytes).unwrap();
            assert_eq!(write_verdict(&verdict), Some(bytes));
        }
        assert!(kinds.iter().all(|&times| times > 1000), "{kinds:?}");
    }

    #[test]
    fn damaged_records_are_refused_or_written_back_alike() {
        let mut random = Random::new(2);
        let (mut taken, mut refused) = (0, 0);
        for _ in 0..100_000 {
            let (first, second) = (record(&mut random), record(&mut random));
            let bytes = damaged(&mut random, &first, &second);
            match read_step(&bytes) {
                None => refused += 1,
                Some(step) => {
                    taken += 1;
                    assert_eq!(write_step(&step), Some(bytes));
                }
            }
            let first = verdict_record(&mut random);
            let bytes = damaged(&mut random, &first, &second);
            if let Some(verdict) = read_verdict(&bytes) {
                assert_eq!(write_verdict(&verdict), Some(bytes));
            }
        }
        assert!(taken > 1000 && refused > 10_000, "{taken} {refused}");
    }

    #[test]
    fn traces_end_whole_or_torn_and_their_counts_add_up() {
        let mut random = Random::new(3);
        let mut ends = [0; 2];
        for _ in 0..200 {
            let steps: Vec<Step> = (0..50).map(|_| step(&mut random)).collect();
            let trace = trace(&mut random, &steps);
            let done = run(&Ledger::fresh(), &trace, usize::MAX);
            match done.end {
                End::Whole => assert_eq!(done.read, trace.len()),
                End::Torn => assert_eq!(next_record(&trace[done.read..]), Next::Torn),
                End::Full => panic!("the room is unbounded"),
            }
            ends[usize::from(done.end == End::Torn)] += 1;
            assert_eq!(done.written, done.output.len());
        }
        assert!(ends.iter().all(|&times| times > 20), "{ends:?}");
    }
}
