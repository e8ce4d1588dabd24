//! The check of another maker's log, and the program that makes it: document
//! 02, request 12.

use crate::image::{self, Refused};
use crate::ledger::Ledger;
use crate::raw::from_raw;
use crate::records::{next_record, Next};
use crate::run::{run, End};

/// The longest trace and the longest log that the program reads.
pub const LONGEST_FILE: usize = 32_768;

/// What the check says of a log.
#[derive(Debug, Clone, Copy, PartialEq, Eq)]
pub enum Checked {
    Agree,
    /// The index from 0 of the first record whose verdict differs, is missing
    /// or is one too many, or that is torn on either side.
    Differs(u64),
}

/// Checks a log from the ledger of an image, or from the fresh one. A refused
/// image goes before all that trace and log say.
pub fn check(image: Option<&[u8]>, trace: &[u8], log: &[u8]) -> Result<Checked, Refused> {
    let start = match image {
        None => Ledger::fresh(),
        Some(bytes) => from_raw(&image::read(bytes)?).expect("a ledger that is read is sound"),
    };
    Ok(check_from(&start, trace, log))
}

/// Our own log of the trace beside the other one, piece by piece.
pub fn check_from(start: &Ledger, trace: &[u8], log: &[u8]) -> Checked {
    let done = run(start, trace, usize::MAX);
    let (mut ours, theirs) = (pieces(&done.output), pieces(log));
    if done.end == End::Torn {
        // No verdict is right for a torn record, and none at all isn't either.
        ours.push(None);
    }
    let longer = ours.len().max(theirs.len());
    match (0..longer).find(|index| ours.get(*index) != theirs.get(*index)) {
        None => Checked::Agree,
        Some(index) => Checked::Differs(index as u64),
    }
}

/// The records of a log, and what is torn behind them as one piece more: it is
/// shorter than the record that it begins, so it equals none.
fn pieces(mut log: &[u8]) -> Vec<Option<&[u8]>> {
    let mut pieces = Vec::new();
    loop {
        let length = match next_record(log) {
            Next::End => return pieces,
            Next::Torn => log.len(),
            Next::Record(length) => length,
        };
        let (piece, rest) = log.split_at(length);
        pieces.push(Some(piece));
        log = rest;
    }
}

/// What the program prints for the bytes of its two files, `None` for one that
/// there isn't.
pub fn check_log(trace: Option<&[u8]>, log: Option<&[u8]>) -> String {
    let (Some(trace), Some(log)) = (trace, log) else {
        return "no file\n".to_string();
    };
    if trace.len() > LONGEST_FILE || log.len() > LONGEST_FILE {
        return "too long\n".to_string();
    }
    match check_from(&Ledger::fresh(), trace, log) {
        Checked::Agree => "agree\n".to_string(),
        Checked::Differs(index) => format!("differs at {index}\n"),
    }
}

#[cfg(test)]
mod tests;
