//! Sides made of one step that may be wrong, so that the run is wrong in the
//! same respect.

use crate::compare::ledgers::StepCall;
use crate::compare::records::{read_step, write_verdict, STEP, VERDICT};
use crate::limits::{NAMES, PLACES};
use crate::records::{next_record, Next};

/// A run whose records are each answered by that step.
pub fn run_by(
    step: StepCall,
    ledger: &mut [u64],
    trace: &[u8],
    out: &mut [u8],
    counts: &mut [u64],
) -> u64 {
    let (mut read, mut written) = (0, 0);
    let end = loop {
        let length = match next_record(&trace[read..]) {
            Next::End => break 0,
            Next::Torn => break 1,
            Next::Record(length) => length,
        };
        let (mut numbers, mut list) = ([0; STEP], [0; NAMES]);
        if read_step(&trace[read..read + length], &mut numbers, &mut list) != 0 {
            // No kind has this number, so the step is malformed too.
            numbers[0] = u64::MAX;
        }
        let (mut verdict, mut objects) = ([0; VERDICT], [0; PLACES]);
        let mut next = ledger.to_vec();
        step(&mut next, &numbers, &list, &mut verdict, &mut objects);
        match write_verdict(&verdict, &objects, &mut out[written..]) {
            0 => break 2,
            bytes => written += bytes as usize,
        }
        read += length;
        ledger.copy_from_slice(&next);
    };
    counts.copy_from_slice(&[read as u64, written as u64]);
    end
}

/// The calls of a side with that step. A call is a function, so the step cannot
/// be taken along by a closure. Items of a macro are seen in what is given to
/// it: no step may name `wrong_step`.
macro_rules! side {
    ($step:expr) => {{
        fn wrong_step(
            ledger: &mut [u64],
            numbers: &[u64],
            list: &[u64],
            verdict: &mut [u64],
            objects: &mut [u64],
        ) -> u64 {
            let step: crate::compare::ledgers::StepCall = $step;
            step(ledger, numbers, list, verdict, objects)
        }
        crate::compare::sides::Calls {
            step: wrong_step,
            run_on: |ledger, trace, out, counts| {
                crate::compare::sides::wrong::run_by(wrong_step, ledger, trace, out, counts)
            },
        }
    }};
}

pub(crate) use side;
