//! Refused steps struck from a trace: document 02, request 13, "strike any
//! refused steps from a trace that ends whole, and the others' verdicts and the
//! last ledger are unchanged, room sufficing".

pub mod steps;

use crate::compare::ledgers::{damage, Course};
use crate::compare::sides::{ledger_of, numbers_of, split, Calls, Left, FULL, WHOLE};
use crate::compare::{add, count, Answers, MARGIN};
use crate::generate::guided::Guide;
use crate::generate::whole;
use crate::ledger::Ledger;
use crate::limits::LONGEST_VERDICT;
use crate::random::Random;
use crate::records::{read_step, read_verdict};

/// The most records of a trace, of most traces and of all.
const FEW: usize = 30;
const MOST: usize = 150;
/// The most bytes lent beyond the verdicts.
const MORE: usize = 100;
/// The outer tags of the steps.
const TAGS: std::ops::RangeInclusive<u8> = 0x10..=0x19;

/// What was struck, and how often.
#[derive(Debug, Default, PartialEq, Eq)]
pub struct Counts {
    /// Traces or sequences of steps, and how often some of their refused steps
    /// were struck, none and all of them too.
    pub traces: usize,
    pub strikes: usize,
    /// Steps that were struck and steps that stayed, by what each was answered,
    /// 0 for accepted.
    pub struck: Answers,
    pub stayed: Answers,
    /// Struck ones that are no step: no reader takes them, or no record says
    /// them. Of the records, those whose kind is unknown.
    pub malformed: usize,
    pub unknown: usize,
    /// Traces on a ledger that is not sound, without a refusal, and with
    /// nothing else.
    pub unsound: usize,
    pub unrefused: usize,
    pub all_refused: usize,
    /// Runs with one byte too few for the verdicts that are left.
    pub full: usize,
}

impl Counts {
    pub fn add(&mut self, other: Counts) {
        self.traces += other.traces;
        self.strikes += other.strikes;
        self.malformed += other.malformed;
        self.unknown += other.unknown;
        self.unsound += other.unsound;
        self.unrefused += other.unrefused;
        self.all_refused += other.all_refused;
        self.full += other.full;
        add(&mut self.struck, other.struck);
        add(&mut self.stayed, other.stayed);
    }

    /// A trace or a sequence with those codes.
    fn add_trace(&mut self, start: &[u64], codes: &[u64]) {
        let refused = refused(codes).len();
        self.traces += 1;
        self.unsound += usize::from(ledger_of(start).is_none());
        self.unrefused += usize::from(refused == 0);
        self.all_refused += usize::from(refused == codes.len() && refused > 0);
    }
}

/// The places of the refused ones.
fn refused(codes: &[u64]) -> Vec<usize> {
    let places = codes.iter().enumerate().filter(|(_, code)| **code != 0);
    places.map(|(place, _)| place).collect()
}

/// None of the refused ones, all, one, and any. The places rise.
fn choices(random: &mut Random, refused: &[usize]) -> Vec<Vec<usize>> {
    if refused.is_empty() {
        return vec![vec![]];
    }
    let any = refused.iter().copied().filter(|_| random.once_in(2)).collect();
    vec![vec![], refused.to_vec(), vec![random.pick(refused)], any]
}

/// Those that are not struck.
fn stayed<'a, T>(all: &'a [T], struck: &[usize]) -> Vec<&'a T> {
    let places = all.iter().enumerate();
    let stayed = places.filter(|(place, _)| struck.binary_search(place).is_err());
    stayed.map(|(_, one)| one).collect()
}

/// The numbers of a ledger to begin with, and the ledger that guides the steps.
/// The numbers of a damaged one are most often no sound ledger.
fn start(random: &mut Random, course: Course) -> (Vec<u64>, Ledger) {
    let ledger = course.start(random);
    let mut numbers = numbers_of(&ledger);
    if course == Course::Damaged {
        damage(random, &mut numbers);
    }
    (numbers, ledger)
}

fn length(random: &mut Random) -> usize {
    match random.below(20) {
        0 => random.index(MOST + 1),
        1..=5 => random.index(4),
        _ => random.index(FEW + 1),
    }
}

/// A trace that ended whole: its records, what each was answered, also as
/// codes, and the last ledger.
struct Whole<'a> {
    side: Calls,
    start: &'a [u64],
    records: &'a [Vec<u8>],
    verdicts: Vec<Vec<u8>>,
    codes: Vec<u64>,
    last: Vec<u64>,
}

impl<'a> Whole<'a> {
    /// The run with room for the longest verdict of each record. The error is a
    /// run that does not end whole, with a verdict for each.
    fn new(side: Calls, start: &'a [u64], records: &'a [Vec<u8>]) -> Result<Self, String> {
        let trace = records.concat();
        let left = side.run(start, &trace, records.len() * LONGEST_VERDICT, 0);
        let [read, written] = left.counts.map(|bytes| bytes as usize);
        if left.answer != WHOLE || read != trace.len() {
            let (answer, all) = (left.answer, trace.len());
            return Err(format!("the run ends with {answer}, {read} of {all} bytes read"));
        }
        let out = left.out[MARGIN..].get(..written).ok_or("more is written than has room")?;
        let verdicts: Vec<Vec<u8>> = split(out).into_iter().map(Vec::from).collect();
        if verdicts.len() != records.len() || verdicts.concat() != out {
            return Err(format!("{} verdicts for {} records", verdicts.len(), records.len()));
        }
        let codes = verdicts.iter().map(|verdict| Some(read_verdict(verdict)?.code().into()));
        let codes = codes.collect::<Option<_>>().ok_or("a verdict is malformed")?;
        Ok(Whole { side, start, records, verdicts, codes, last: left.ledger })
    }

    /// Without those records the run ends whole in the room of the others'
    /// verdicts and in more, with these verdicts, with no other byte written,
    /// and with the last ledger. With one byte less it is full.
    fn strike(
        &self,
        random: &mut Random,
        struck: &[usize],
        counts: &mut Counts,
    ) -> Result<(), String> {
        let trace = joined(stayed(self.records, struck));
        let verdicts = joined(stayed(&self.verdicts, struck));
        let exact = verdicts.len();
        for room in [exact, exact + 1 + random.index(MORE)] {
            let pattern = random.any() as u8;
            let left = self.side.run(self.start, &trace, room, pattern);
            self.check(&left, trace.len(), &verdicts, &framed(&verdicts, room, pattern))?;
        }
        if let Some(less) = exact.checked_sub(1) {
            let answer = self.side.run(self.start, &trace, less, 0).answer;
            if answer != FULL {
                return Err(format!("the run ends with {answer} in one byte too few"));
            }
            counts.full += 1;
        }
        Ok(())
    }

    fn check(&self, left: &Left, read: usize, verdicts: &[u8], out: &[u8]) -> Result<(), String> {
        let (answer, counts) = (left.answer, left.counts.map(|bytes| bytes as usize));
        if answer != WHOLE || counts[0] != read {
            return Err(format!("the run ends with {answer}, {} of {read} bytes read", counts[0]));
        }
        if let Some(place) = differs(&left.out, out) {
            return Err(format!("another output, at {}", place as i64 - MARGIN as i64));
        }
        if counts[1] != verdicts.len() {
            return Err(format!("another output, {} of {} bytes", counts[1], verdicts.len()));
        }
        match differs(&left.ledger, &self.last) {
            None => Ok(()),
            Some(place) => Err(format!("another last ledger, at {place}")),
        }
    }

    fn count(&self, struck: &[usize], counts: &mut Counts) {
        counts.strikes += 1;
        for place in struck {
            let record = &self.records[*place];
            count(&mut counts.struck, self.codes[*place]);
            counts.malformed += usize::from(read_step(record).is_none());
            counts.unknown += usize::from(!TAGS.contains(&record[0]));
        }
        for code in stayed(&self.codes, struck) {
            count(&mut counts.stayed, *code);
        }
    }
}

fn joined(records: Vec<&Vec<u8>>) -> Vec<u8> {
    records.into_iter().flatten().copied().collect()
}

/// The first place where the two differ, of those that both have.
fn differs<T: PartialEq>(one: &[T], other: &[T]) -> Option<usize> {
    one.iter().zip(other).position(|(one, other)| one != other)
}

/// The output with those verdicts at its start, margins too.
fn framed(verdicts: &[u8], room: usize, pattern: u8) -> Vec<u8> {
    let mut out = vec![pattern; room + 2 * MARGIN];
    out[MARGIN..MARGIN + verdicts.len()].copy_from_slice(verdicts);
    out
}

/// Checks a side on one trace of whole records, and that no refusal is left once
/// all are struck.
pub fn check_trace(
    random: &mut Random,
    side: Calls,
    start: &[u64],
    records: &[Vec<u8>],
    counts: &mut Counts,
) -> Result<(), String> {
    let whole = Whole::new(side, start, records)?;
    let refused = refused(&whole.codes);
    counts.add_trace(start, &whole.codes);
    for struck in choices(random, &refused) {
        let tell = |told| format!("struck {struck:?}: {told}");
        whole.strike(random, &struck, counts).map_err(tell)?;
        whole.count(&struck, counts);
    }
    let accepted: Vec<Vec<u8>> = stayed(records, &refused).into_iter().cloned().collect();
    let codes = Whole::new(side, start, &accepted)?.codes;
    match codes.iter().all(|code| *code == 0) {
        true => Ok(()),
        false => Err(format!("all refusals are struck, and the others give {codes:?}")),
    }
}

/// Checks a side on that many traces that end whole.
pub fn check_traces(
    random: &mut Random,
    guide: &mut Guide,
    course: Course,
    traces: usize,
    side: Calls,
) -> Result<Counts, String> {
    let mut counts = Counts::default();
    for _ in 0..traces {
        let (start, ledger) = start(random, course);
        let length = length(random);
        let records = whole::records(random, guide, &ledger, length);
        let tell = |told| format!("{told}\nrecords {records:02X?}\nledger before {start:?}");
        check_trace(random, side, &start, &records, &mut counts).map_err(tell)?;
    }
    Ok(counts)
}

#[cfg(test)]
mod tests;
