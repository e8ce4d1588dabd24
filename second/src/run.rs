//! The run over a trace, and the program: document 01, "Records and names",
//! the paragraphs that begin "The record is torn if" and "The program runs".

use crate::ledger::Ledger;
use crate::raw::{from_raw, raw, Raw};
use crate::records::{next_record, read_step, write_verdict, Next, Verdict};

/// The longest trace that the program runs.
pub const LONGEST_TRACE: usize = 65_536;

#[derive(Debug, Clone, Copy, PartialEq, Eq)]
pub enum End {
    Whole,
    Torn,
    Full,
}

/// How a run ended, and the last ledger.
#[derive(Debug, Clone, PartialEq, Eq)]
pub struct Run<L> {
    pub end: End,
    /// Bytes of the records whose verdicts are in the output.
    pub read: usize,
    /// Bytes written: the length of the output.
    pub written: usize,
    pub output: Vec<u8>,
    pub ledger: L,
}

/// Runs a trace on a sound ledger with room for that many bytes of output.
pub fn run(ledger: &Ledger, trace: &[u8], room: usize) -> Run<Ledger> {
    run_by(ledger.clone(), trace, room, |ledger, record| {
        let mut next = ledger.clone();
        let verdict = match read_step(record) {
            None => Verdict::Refused(2),
            Some(step) => next.step(&step),
        };
        (verdict, next)
    })
}

/// Runs a trace on any ledger; one that is not sound gives 1 to each record.
pub fn run_raw(before: &Raw, trace: &[u8], room: usize) -> Run<Raw> {
    let Some(ledger) = from_raw(before) else {
        return run_by(before.clone(), trace, room, |before, _| {
            (Verdict::Refused(1), before.clone())
        });
    };
    let done = run(&ledger, trace, room);
    Run {
        end: done.end,
        read: done.read,
        written: done.written,
        output: done.output,
        ledger: raw(&done.ledger),
    }
}

/// The run, given how one record is answered. The next ledger is taken only
/// once its verdict has found room.
fn run_by<L>(
    mut ledger: L,
    trace: &[u8],
    room: usize,
    answer: impl Fn(&L, &[u8]) -> (Verdict, L),
) -> Run<L> {
    let mut read = 0;
    let mut output = Vec::new();
    let end = loop {
        let length = match next_record(&trace[read..]) {
            Next::End => break End::Whole,
            Next::Torn => break End::Torn,
            Next::Record(length) => length,
        };
        let (verdict, next) = answer(&ledger, &trace[read..read + length]);
        let bytes = write_verdict(&verdict).expect("a step's verdict is well formed");
        if bytes.len() > room - output.len() {
            break End::Full;
        }
        output.extend(bytes);
        read += length;
        ledger = next;
    };
    Run { end, read, written: output.len(), output, ledger }
}

/// What the program prints for that input.
pub fn judge(input: &[u8]) -> String {
    if input.len() > LONGEST_TRACE {
        return "too long\n".to_string();
    }
    let done = run(&Ledger::fresh(), input, usize::MAX);
    let mut printed = String::new();
    let mut rest = &done.output[..];
    while let Next::Record(length) = next_record(rest) {
        // The code's one byte follows two headers of three bytes.
        printed.push_str(&format!("{}\n", rest[6]));
        rest = &rest[length..];
    }
    printed + &format!("rest {}\n", input.len() - done.read)
}

#[cfg(test)]
mod tests;
