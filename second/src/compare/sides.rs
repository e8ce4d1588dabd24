//! A side that judges single steps and runs traces, for the comparisons of what
//! a side says with what it says elsewhere: document 02, request 13.
//!
//! It keeps the calling convention of the proved library's C calls: a ledger is
//! `LEDGER` numbers, a step and a verdict are as in the record calls.

use crate::compare::ledgers::{self, ledger_numbers, raw_of, StepCall};
use crate::compare::records::{step_numbers, STEP, VERDICT};
use crate::compare::traces::{self, RunOnCall, COUNTS};
use crate::compare::MARGIN;
use crate::ledger::Ledger;
use crate::limits::{NAMES, PLACES};
use crate::raw::{from_raw, raw};
use crate::records::{next_record, Next, Step};

/// How a run ends, told as its answer.
pub const WHOLE: u64 = 0;
pub const FULL: u64 = 2;

/// One side's calls.
#[derive(Clone, Copy)]
pub struct Calls {
    pub step: StepCall,
    pub run_on: RunOnCall,
}

pub const SECOND: Calls = Calls { step: ledgers::step, run_on: traces::run_on };

/// A step's numbers and the places of its list.
pub type Asked = ([u64; STEP], [u64; NAMES]);
/// A verdict's numbers and the places of its list.
pub type Answered = ([u64; VERDICT], [u64; PLACES]);

/// A list that is too long is cut, and its length still told: no record says
/// that.
pub fn asked(step: &Step) -> Asked {
    let mut list = [0; NAMES];
    list.iter_mut().zip(&step.list).for_each(|(place, name)| *place = *name);
    (step_numbers(step), list)
}

/// The refusal's number, 0 for an acceptance.
pub fn code(answered: &Answered) -> u64 {
    match answered.0 {
        [0, code, _] => code,
        _ => 0,
    }
}

/// What a run leaves.
pub struct Left {
    pub answer: u64,
    pub counts: [u64; COUNTS],
    /// The bytes lent and a margin on either side.
    pub out: Vec<u8>,
    pub ledger: Vec<u64>,
}

impl Calls {
    /// One step; the numbers become those of the next ledger.
    pub fn answer(self, ledger: &mut [u64], asked: &Asked) -> Result<Answered, String> {
        let (mut verdict, mut objects) = ([0; VERDICT], [0; PLACES]);
        match (self.step)(ledger, &asked.0, &asked.1, &mut verdict, &mut objects) {
            0 => Ok((verdict, objects)),
            answer => Err(format!("the step call answers {answer}")),
        }
    }

    /// A run on a copy of the ledger, in so many bytes filled with the pattern.
    pub fn run(self, ledger: &[u64], trace: &[u8], room: usize, pattern: u8) -> Left {
        let (mut ledger, mut counts) = (ledger.to_vec(), [0; COUNTS]);
        let mut out = vec![pattern; room + 2 * MARGIN];
        let lent = &mut out[MARGIN..MARGIN + room];
        let answer = (self.run_on)(&mut ledger, trace, lent, &mut counts);
        Left { answer, counts, out, ledger }
    }
}

/// The whole records from the first byte on.
pub fn split(mut bytes: &[u8]) -> Vec<&[u8]> {
    let mut records = Vec::new();
    while let Next::Record(length) = next_record(bytes) {
        let (record, rest) = bytes.split_at(length);
        records.push(record);
        bytes = rest;
    }
    records
}

pub fn numbers_of(ledger: &Ledger) -> Vec<u64> {
    ledger_numbers(&raw(ledger))
}

/// `None` for numbers that are no sound ledger.
pub fn ledger_of(numbers: &[u64]) -> Option<Ledger> {
    from_raw(&raw_of(numbers))
}

#[cfg(test)]
pub(crate) mod wrong;
