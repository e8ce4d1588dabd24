//! Comparison of two checkers of logs, given as functions: document 02, request
//! 12.
//!
//! Both sides keep the calling convention of the proved library's C call: an
//! image of no bytes is none, and the index goes into the first of the numbers
//! lent, of which also those behind and beside it are compared.

pub mod week;

use std::collections::BTreeMap;

use crate::compare::{count, Answers, MARGIN};
use crate::generate::logs::{Asked, Sort, Source};
use crate::image;
use crate::ledger::Ledger;
use crate::log_check::{check, Checked};
use crate::random::Random;
use crate::raw::from_raw;
use crate::records::{next_record, Next};
use crate::run::{run, End, Run};

/// The answers: all agree, the image's refusals, no number is lent, and a
/// difference, whose index is in the first number.
pub const AGREE: u64 = 0;
pub const UNSOUND: u64 = 1;
pub const MALFORMED: u64 = 2;
pub const SHORT: u64 = 3;
pub const DIFFERS: u64 = 4;

/// How many numbers are lent.
const LENT: [usize; 6] = [0, 1, 2, 3, 8, 40];

pub type CheckCall = fn(&[u8], &[u8], &[u8], &mut [u64]) -> u64;

pub const SECOND: CheckCall = check_log;

pub fn check_log(image: &[u8], trace: &[u8], log: &[u8], at: &mut [u64]) -> u64 {
    let Some(first) = at.first_mut() else {
        return SHORT;
    };
    let image = (!image.is_empty()).then_some(image);
    match check(image, trace, log) {
        Err(refused) => refused.code(),
        Ok(Checked::Agree) => AGREE,
        Ok(Checked::Differs(index)) => {
            *first = index;
            DIFFERS
        }
    }
}

/// Where among the records a difference was.
#[derive(Debug, Clone, Copy, PartialEq, Eq, PartialOrd, Ord)]
pub enum Place {
    First,
    Middle,
    /// At the last whole record, which is not the first.
    Last,
    /// Behind all whole records: one too many, or torn.
    Behind,
}

/// What was asked, and how often.
#[derive(Debug, Clone, Default)]
pub struct Counts {
    pub asked: usize,
    pub answers: Answers,
    /// By how image, trace and log were made, and by the answer, where a number
    /// is lent.
    pub sorts: BTreeMap<(Sort, u64), usize>,
    /// Differences by their index, and by where that is.
    pub indices: Answers,
    pub places: BTreeMap<Place, usize>,
    /// By how many numbers were lent.
    pub lent: BTreeMap<usize, usize>,
    /// Whole records in all traces.
    pub records: usize,
}

/// Compares two sides on so many traces and logs, and checks what the answer
/// says of them; the error describes the first difference.
pub fn compare_logs(
    random: &mut Random,
    source: &mut Source,
    times: usize,
    first: CheckCall,
    second: CheckCall,
) -> Result<Counts, String> {
    let mut counts = Counts::default();
    let mut ran = Ran::default();
    for _ in 0..times {
        let (sort, asked) = source.asked(random);
        let lent = if random.once_in(8) { random.pick(&LENT) } else { 1 };
        let tell = |told| {
            let Asked { image, trace, log } = &asked;
            let told = format!("{sort:?}: {told}\nimage {image:02X?}\ntrace {trace:02X?}");
            format!("{told}\nlog {log:02X?}")
        };
        let (answer, index) = compare_one(random, &asked, lent, first, second).map_err(tell)?;
        if !ran.is_of(&asked) {
            ran = Ran::new(&asked);
        }
        if answer != SHORT {
            ran.bears_out(&asked.log, answer, index).map_err(tell)?;
            *counts.sorts.entry((sort, answer)).or_default() += 1;
        }
        counts.asked += 1;
        count(&mut counts.answers, answer);
        *counts.lent.entry(lent).or_default() += 1;
        counts.records += ran.ends.len();
        if answer == DIFFERS {
            count(&mut counts.indices, index as u64);
            *counts.places.entry(place(index, ran.ends.len())).or_default() += 1;
        }
    }
    Ok(counts)
}

/// The answer, and the index that it comes with, or else 0. All other numbers
/// stay.
fn compare_one(
    random: &mut Random,
    asked: &Asked,
    lent: usize,
    first: CheckCall,
    second: CheckCall,
) -> Result<(u64, usize), String> {
    let pattern = random.any();
    let call = |check: CheckCall| {
        let mut numbers = vec![pattern; lent + 2 * MARGIN];
        let at = &mut numbers[MARGIN..MARGIN + lent];
        (check(&asked.image, &asked.trace, &asked.log, at), numbers)
    };
    let (one, other) = (call(first), call(second));
    if one != other {
        let [one, other] = [one, other].map(|(answer, numbers)| left(answer, &numbers, pattern));
        return Err(format!("{lent} numbers filled with {pattern}: first {one}, second {other}"));
    }
    let (answer, mut numbers) = one;
    if (answer == SHORT) != (lent == 0) {
        return Err(format!("both answer {answer} where {lent} numbers are lent"));
    }
    let index = if answer == DIFFERS { numbers[MARGIN] } else { 0 };
    if answer == DIFFERS {
        numbers[MARGIN] = pattern;
    }
    match numbers.iter().all(|number| *number == pattern) {
        true => Ok((answer, index as usize)),
        false => Err(format!("both leave {} of {pattern}", left(answer, &numbers, pattern))),
    }
}

/// The answer, and the numbers that it did not leave as they were, margins too.
fn left(answer: u64, numbers: &[u64], pattern: u64) -> String {
    let changed = numbers.iter().enumerate().filter(|(_, number)| **number != pattern);
    let told = changed
        .map(|(place, number)| format!(" [{}] {number}", place as i64 - MARGIN as i64))
        .collect::<String>();
    format!("{answer}{told}")
}

/// The second program's run, in which no checker has a part; else the image's
/// refusal.
fn run_of(image: &[u8], trace: &[u8]) -> Result<Run<Ledger>, u64> {
    let start = match image {
        [] => Some(Ledger::fresh()),
        image => from_raw(&image::read(image).map_err(image::Refused::code)?),
    };
    Ok(run(&start.expect("a ledger that is read is sound"), trace, usize::MAX))
}

/// A run that is kept, for many logs are made of one trace.
#[derive(Default)]
struct Ran {
    image: Vec<u8>,
    trace: Vec<u8>,
    refusal: Option<u64>,
    torn: bool,
    output: Vec<u8>,
    /// Where each verdict of the output ends.
    ends: Vec<usize>,
}

impl Ran {
    fn new(asked: &Asked) -> Self {
        let (image, trace) = (asked.image.clone(), asked.trace.clone());
        match run_of(&image, &trace) {
            Err(refusal) => Ran { image, trace, refusal: Some(refusal), ..Ran::default() },
            Ok(done) => {
                let (torn, ends) = (done.end == End::Torn, ends(&done.output));
                Ran { image, trace, refusal: None, torn, output: done.output, ends }
            }
        }
    }

    fn is_of(&self, asked: &Asked) -> bool {
        self.image == asked.image && self.trace == asked.trace
    }

    /// Whether the log begins with so many of the run's verdicts.
    fn begins(&self, log: &[u8], verdicts: usize) -> bool {
        let end = verdicts.checked_sub(1).map_or(0, |last| self.ends[last]);
        log.starts_with(&self.output[..end])
    }

    /// What an answer says of the run: with an index, that the log begins with
    /// so many of its verdicts, and not with one more, or that there is no more.
    fn bears_out(&self, log: &[u8], answer: u64, index: usize) -> Result<(), String> {
        let more = log.len() > self.output.len() || self.torn;
        let holds = match (self.refusal, answer) {
            (Some(refusal), answer) => answer == refusal,
            (None, AGREE) => log == self.output && !self.torn,
            (None, DIFFERS) if index < self.ends.len() => {
                self.begins(log, index) && !self.begins(log, index + 1)
            }
            (None, DIFFERS) => index == self.ends.len() && self.begins(log, index) && more,
            _ => false,
        };
        match holds {
            true => Ok(()),
            false => Err(format!(
                "both answer {answer}, {index}; refusal {:?}, torn {}, {:02X?} is right",
                self.refusal, self.torn, self.output
            )),
        }
    }
}

/// Where each verdict of an output ends.
fn ends(output: &[u8]) -> Vec<usize> {
    let (mut ends, mut end) = (Vec::new(), 0);
    while let Next::Record(length) = next_record(&output[end..]) {
        end += length;
        ends.push(end);
    }
    ends
}

fn place(index: usize, records: usize) -> Place {
    match index {
        _ if index == records => Place::Behind,
        0 => Place::First,
        _ if index + 1 == records => Place::Last,
        _ => Place::Middle,
    }
}

#[cfg(test)]
mod tests;
