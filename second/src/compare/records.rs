//! Comparison of two record codecs, given as functions: document 01, "Records
//! and names".
//!
//! Both sides keep the calling convention of the proved library's C calls:
//! a step or a verdict is some numbers with the places of its list beside
//! them. So also what a refusal leaves untouched is compared.

use crate::compare::{Answers, MARGIN};
use crate::generate::{self, damaged, loose, number};
use crate::limits::{LONGEST_VERDICT, NAMES, PLACES};
use crate::random::Random;
use crate::records::{self, Kind, Next, Role, Step, Verdict, LAST_CODE};

/// How many numbers a step and a verdict have.
pub const STEP: usize = 11;
pub const VERDICT: usize = 3;
/// The longest verdict, and some bytes more.
const LONGEST_ROOM: usize = LONGEST_VERDICT + 8;
/// Numbers on both sides of a limit, of the last code, and of a byte, also
/// with the last code in a byte's last bits.
const EDGES: [u64; 16] = [
    9,
    10,
    LAST_CODE as u64 - 1,
    LAST_CODE as u64,
    LAST_CODE as u64 + 1,
    NAMES as u64 - 1,
    NAMES as u64,
    NAMES as u64 + 1,
    PLACES as u64 - 1,
    PLACES as u64,
    PLACES as u64 + 1,
    0xFF,
    0x100,
    0x100 + LAST_CODE as u64,
    999,
    1000,
];
/// In the counts of answers, any length.
pub const LENGTH: u64 = 4;

/// 0 at the end; 1 torn; else the record's length.
pub fn next_record(trace: &[u8]) -> u64 {
    match records::next_record(trace) {
        Next::End => 0,
        Next::Torn => 1,
        Next::Record(length) => length as u64,
    }
}

/// 0 read, with the numbers and the places of the list; 2 malformed; 3 where
/// too few are lent.
pub fn read_step(record: &[u8], numbers: &mut [u64], list: &mut [u64]) -> u64 {
    if numbers.len() < STEP || list.len() < NAMES {
        return 3;
    }
    let Some(step) = records::read_step(record) else {
        return 2;
    };
    numbers[..STEP].copy_from_slice(&step_numbers(&step));
    list[..NAMES].fill(0);
    list[..step.list.len()].copy_from_slice(&step.list);
    0
}

/// Kind, time, role, epoch, slot, object, currency, hold, manifest, expiry
/// and the list's length.
pub fn step_numbers(step: &Step) -> [u64; STEP] {
    let (time, length) = (step.time, step.list.len() as u64);
    let role_number = |role: Role| u64::from(role == Role::Compactor);
    match step.kind {
        Kind::Fence { role, slot } => [0, time, role_number(role), 0, slot, 0, 0, 0, 0, 0, length],
        Kind::Put { role, epoch, object, currency } => {
            let (role, currency) = (role_number(role), currency.into());
            [1, time, role, epoch, 0, object, currency, 0, 0, 0, length]
        }
        Kind::Commit { epoch, slot } => [2, time, 0, epoch, slot, 0, 0, 0, 0, 0, length],
        Kind::Compact { epoch, slot, object } => {
            [3, time, 0, epoch, slot, object, 0, 0, 0, 0, length]
        }
        Kind::Hold { hold, manifest, expiry } => {
            [4, time, 0, 0, 0, 0, 0, hold, manifest, expiry, length]
        }
        Kind::Renew { hold, expiry } => [5, time, 0, 0, 0, 0, 0, hold, 0, expiry, length],
        Kind::Release { hold } => [6, time, 0, 0, 0, 0, 0, hold, 0, 0, length],
        Kind::List { hold } => [7, time, 0, 0, 0, 0, 0, hold, 0, 0, length],
        Kind::Look { currency, hold } => [8, time, 0, 0, 0, 0, currency.into(), hold, 0, 0, length],
        Kind::Collect => [9, time, 0, 0, 0, 0, 0, 0, 0, 0, length],
    }
}

/// The length written; 2 for what no reader takes; 0 where the room is short;
/// 3 where too few numbers or places are lent.
pub fn write_step(numbers: &[u64], list: &[u64], out: &mut [u8]) -> u64 {
    if numbers.len() < STEP || list.len() < NAMES {
        return 3;
    }
    let step = step_of(numbers, &list[..NAMES]);
    put(step.and_then(|step| records::write_step(&step)), out)
}

fn step_of(numbers: &[u64], places: &[u64]) -> Option<Step> {
    let (kind, list) = (kind_of(numbers)?, list_of(numbers[10], places)?);
    Some(Step { time: numbers[1], kind, list })
}

/// `None` where the numbers say no kind, no role or no 16-bit currency; those
/// that the kind does not have play no part.
pub fn kind_of(numbers: &[u64]) -> Option<Kind> {
    let role = || match numbers[2] {
        0 => Some(Role::Writer),
        1 => Some(Role::Compactor),
        _ => None,
    };
    let currency = || u16::try_from(numbers[6]).ok();
    let (epoch, slot, object) = (numbers[3], numbers[4], numbers[5]);
    let (hold, manifest, expiry) = (numbers[7], numbers[8], numbers[9]);
    Some(match numbers[0] {
        0 => Kind::Fence { role: role()?, slot },
        1 => Kind::Put { role: role()?, epoch, object, currency: currency()? },
        2 => Kind::Commit { epoch, slot },
        3 => Kind::Compact { epoch, slot, object },
        4 => Kind::Hold { hold, manifest, expiry },
        5 => Kind::Renew { hold, expiry },
        6 => Kind::Release { hold },
        7 => Kind::List { hold },
        8 => Kind::Look { currency: currency()?, hold },
        9 => Kind::Collect,
        _ => return None,
    })
}

/// The first places, if there are so many and the others are 0.
pub fn list_of(length: u64, places: &[u64]) -> Option<Vec<u64>> {
    let (list, unused) = places.split_at_checked(usize::try_from(length).ok()?)?;
    unused.iter().all(|place| *place == 0).then(|| list.to_vec())
}

/// The length written; 2 where nothing is; 0 where the room is short.
pub fn put(written: Option<Vec<u8>>, out: &mut [u8]) -> u64 {
    let Some(bytes) = written else {
        return 2;
    };
    match out.get_mut(..bytes.len()) {
        None => 0,
        Some(room) => {
            room.copy_from_slice(&bytes);
            bytes.len() as u64
        }
    }
}

/// As `read_step`.
pub fn read_verdict(record: &[u8], numbers: &mut [u64], list: &mut [u64]) -> u64 {
    if numbers.len() < VERDICT || list.len() < PLACES {
        return 3;
    }
    let Some(verdict) = records::read_verdict(record) else {
        return 2;
    };
    put_verdict(verdict, numbers, list);
    0
}

/// Lays the verdict's case, value and list length, and the places of its
/// list, over the start of the slices.
pub fn put_verdict(verdict: Verdict, numbers: &mut [u64], list: &mut [u64]) {
    let (case, value, names) = match verdict {
        Verdict::Refused(code) => (0, code.into(), Vec::new()),
        Verdict::Done => (1, 0, Vec::new()),
        Verdict::Epoch(epoch) => (2, epoch, Vec::new()),
        Verdict::Listed { manifest, list } => (3, manifest, list),
        Verdict::Found(object) => (4, object, Vec::new()),
        Verdict::Collected(list) => (5, 0, list),
    };
    numbers[..VERDICT].copy_from_slice(&[case, value, names.len() as u64]);
    list[..PLACES].fill(0);
    list[..names.len()].copy_from_slice(&names);
}

/// As `write_step`.
pub fn write_verdict(numbers: &[u64], list: &[u64], out: &mut [u8]) -> u64 {
    if numbers.len() < VERDICT || list.len() < PLACES {
        return 3;
    }
    let verdict = verdict_of(numbers, &list[..PLACES]);
    put(verdict.and_then(|verdict| records::write_verdict(&verdict)), out)
}

/// `None` where the numbers say no case, no 8-bit code or no list, or a list
/// beside a case that has none.
fn verdict_of(numbers: &[u64], places: &[u64]) -> Option<Verdict> {
    let (value, list) = (numbers[1], list_of(numbers[2], places)?);
    let verdict = match numbers[0] {
        0 => Verdict::Refused(value.try_into().ok()?),
        1 => Verdict::Done,
        2 => Verdict::Epoch(value),
        3 => return Some(Verdict::Listed { manifest: value, list }),
        4 => Verdict::Found(value),
        5 => return Some(Verdict::Collected(list)),
        _ => return None,
    };
    list.is_empty().then_some(verdict)
}

pub type NextRecord = fn(&[u8]) -> u64;
pub type Read = fn(&[u8], &mut [u64], &mut [u64]) -> u64;
pub type Write = fn(&[u64], &[u64], &mut [u8]) -> u64;

/// One side's calls on steps or on verdicts.
#[derive(Clone, Copy)]
pub struct Codec {
    pub next: NextRecord,
    pub read: Read,
    pub write: Write,
}

/// Steps or verdicts: how many numbers and places one has, and its records.
#[derive(Clone, Copy)]
pub struct Records {
    numbers: usize,
    places: usize,
    well_formed: fn(&mut Random) -> Vec<u8>,
    loose: fn(&mut Random) -> Vec<u8>,
    codec: Codec,
}

pub const STEPS: Records = Records {
    numbers: STEP,
    places: NAMES,
    well_formed: generate::record,
    loose: loose::step,
    codec: Codec { next: next_record, read: read_step, write: write_step },
};
pub const VERDICTS: Records = Records {
    numbers: VERDICT,
    places: PLACES,
    well_formed: generate::verdict_record,
    loose: loose::verdict,
    codec: Codec { next: next_record, read: read_verdict, write: write_verdict },
};

/// How often each answer was given by each call.
#[derive(Debug, Default)]
pub struct Counts {
    pub next: Answers,
    pub reads: Answers,
    pub writes: Answers,
}

fn count(answers: &mut Answers, answer: u64) {
    *answers.entry(answer.min(LENGTH)).or_default() += 1;
}

impl Records {
    /// Well formed, damaged, spliced, or of the other family.
    fn record(&self, random: &mut Random) -> Vec<u8> {
        let record = (self.well_formed)(random);
        match random.below(8) {
            0 | 1 => record,
            2 | 3 => (self.loose)(random),
            4 | 5 => {
                let other = (self.well_formed)(random);
                damaged(random, &record, &other)
            }
            6 => {
                let other = (self.loose)(random);
                damaged(random, &other, &record)
            }
            _ => {
                let other = match random.below(2) {
                    0 => generate::record(random),
                    _ => generate::verdict_record(random),
                };
                damaged(random, &other, &record)
            }
        }
    }

    /// The numbers and the places of a record, some of them replaced.
    fn numbers(&self, random: &mut Random) -> (Vec<u64>, Vec<u64>) {
        let record = match random.below(2) {
            0 => (self.well_formed)(random),
            _ => (self.loose)(random),
        };
        // A malformed record leaves all of them 0.
        let (mut numbers, mut list) = (vec![0; self.numbers], vec![0; self.places]);
        (self.codec.read)(&record, &mut numbers, &mut list);
        for _ in 0..random.below(3) {
            let place = random.index(self.numbers);
            numbers[place] = replacement(random, numbers[1], numbers[self.numbers - 1]);
        }
        for _ in 0..random.below(8).saturating_sub(5) {
            list[random.index(self.places)] = number(random);
        }
        if random.once_in(20) {
            numbers.fill_with(|| number(random));
        }
        (numbers, list)
    }
}

/// A value at an edge of a width, of the table of refusals or of a currency,
/// or near the time or the list's length.
pub fn replacement(random: &mut Random, time: u64, length: u64) -> u64 {
    match random.below(4) {
        0 => random.pick(&EDGES),
        1 => random.pick(&[0, 1, 2, 65_535, 65_536, 66_514, 1 << 32, 1 << 61, u64::MAX]),
        2 => random.pick(&[time, length]).wrapping_add(random.below(3)).wrapping_sub(1),
        _ => number(random),
    }
}

/// Mostly the count itself, else one more or fewer.
pub fn lent(random: &mut Random, count: usize) -> usize {
    match random.below(12) {
        0 => count - 1,
        1 => count + 1,
        2 => random.index(count + 3),
        _ => count,
    }
}

/// Compares two codecs on `count` records: where the next record ends, what is
/// read and, where a record is read, what is written of it. The error
/// describes the first difference.
pub fn compare_reads(
    random: &mut Random,
    records: &Records,
    count_of_records: usize,
    first: Codec,
    second: Codec,
) -> Result<Counts, String> {
    let mut counts = Counts::default();
    for _ in 0..count_of_records {
        let record = records.record(random);
        let (one, other) = ((first.next)(&record), (second.next)(&record));
        if one != other {
            return Err(format!("next record of {record:02X?}: first {one}, second {other}"));
        }
        // An empty record has three bytes.
        count(&mut counts.next, if one < 3 { one } else { LENGTH });
        let (answer, numbers, list) = compare_read(random, records, &record, first, second)?;
        count(&mut counts.reads, answer);
        if answer == 0 {
            let written = compare_write(random, &numbers, &list, record.len(), first, second)?;
            count(&mut counts.writes, written.0);
            if written.0 != 0 && written.1 != record {
                return Err(format!("{record:02X?} was read, and written as {:02X?}", written.1));
            }
        }
    }
    Ok(counts)
}

/// The answer, and what is left in the numbers and the list.
type Answered = (u64, Vec<u64>, Vec<u64>);

fn compare_read(
    random: &mut Random,
    records: &Records,
    record: &[u8],
    first: Codec,
    second: Codec,
) -> Result<Answered, String> {
    let (count, places) = (lent(random, records.numbers), lent(random, records.places));
    let pattern = random.any();
    let call = |read: Read| {
        let mut numbers = vec![pattern; count + 2 * MARGIN];
        let mut list = vec![pattern; places + 2 * MARGIN];
        let inner = &mut numbers[MARGIN..MARGIN + count];
        let answer = read(record, inner, &mut list[MARGIN..MARGIN + places]);
        (answer, numbers, list)
    };
    let (one, other) = (call(first.read), call(second.read));
    if one != other {
        return Err(format!(
            "record {record:02X?}, {count} numbers and {places} places filled with {pattern}: \
             first {one:?}, second {other:?}"
        ));
    }
    let (answer, numbers, list) = one;
    let numbers = numbers[MARGIN..MARGIN + count].to_vec();
    Ok((answer, numbers, list[MARGIN..MARGIN + places].to_vec()))
}

/// Compares two writers on `count` steps or verdicts, sayable or not; the
/// error describes the first difference.
pub fn compare_writes(
    random: &mut Random,
    records: &Records,
    count_of_writes: usize,
    first: Codec,
    second: Codec,
) -> Result<Answers, String> {
    let mut answers = Answers::new();
    for _ in 0..count_of_writes {
        let (mut numbers, mut list) = records.numbers(random);
        let mut out = [0; LONGEST_ROOM];
        let length = (records.codec.write)(&numbers, &list, &mut out);
        numbers.resize(lent(random, records.numbers), random.any());
        list.resize(lent(random, records.places), random.any());
        let written = compare_write(random, &numbers, &list, length as usize, first, second)?;
        count(&mut answers, written.0);
    }
    Ok(answers)
}

/// Compares two writers in one room: none, exact, one byte less or more, or
/// any. Gives the answer and the bytes written.
fn compare_write(
    random: &mut Random,
    numbers: &[u64],
    list: &[u64],
    length: usize,
    first: Codec,
    second: Codec,
) -> Result<(u64, Vec<u8>), String> {
    let room = match random.below(8) {
        0 => 0,
        1 => length.saturating_sub(1),
        2 => random.index(length + 1),
        3 => length + 1,
        4 => random.index(LONGEST_ROOM),
        5 => LONGEST_ROOM,
        _ => length,
    };
    let pattern = random.any() as u8;
    let call = |write: Write| {
        let mut bytes = vec![pattern; room + 2 * MARGIN];
        let answer = write(numbers, list, &mut bytes[MARGIN..MARGIN + room]);
        (answer, bytes)
    };
    let (one, other) = (call(first.write), call(second.write));
    if one != other {
        return Err(format!(
            "numbers {numbers:?}, list {list:?}, room {room} filled with {pattern:02X}: \
             first {one:02X?}, second {other:02X?}"
        ));
    }
    let (answer, bytes) = one;
    let written = bytes[MARGIN..].iter().take(answer as usize).copied().collect();
    Ok((answer, written))
}

#[cfg(test)]
mod tests;
