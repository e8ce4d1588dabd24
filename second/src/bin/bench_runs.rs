//! Nanoseconds per step of a run over one trace of guided steps from fresh, and
//! of the check of its log: by the proved library's C calls, and by the second
//! program.
//!
//! The proved calls judge at every step whether the ledger is sound; the second
//! program knows that the fresh one is, and does not ask again.

use std::hint::black_box;
use std::time::Instant;

use second::generate::guided::Guide;
use second::ledger::Ledger;
use second::limits::LONGEST_VERDICT;
use second::log_check::{check_from, Checked};
use second::proved;
use second::records::write_step;
use second::run::run;

const STEPS: u32 = 100_000;
const ROUNDS: usize = 11;

/// A trace of that many steps, and how many of them are accepted.
fn trace() -> (Vec<u8>, u32) {
    let (mut guide, mut ledger) = (Guide::new(20_240_671), Ledger::fresh());
    let (mut trace, mut steps, mut accepted) = (Vec::new(), 0, 0);
    while steps < STEPS {
        let step = guide.next(&ledger);
        if let Some(bytes) = write_step(&step) {
            trace.extend(bytes);
            steps += 1;
            accepted += u32::from(ledger.step(&step).code() == 0);
        }
    }
    (trace, accepted)
}

/// The nanoseconds of one step in each round, in rising order.
fn rounds(mut call: impl FnMut()) -> Vec<f64> {
    let round = |_| {
        let start = Instant::now();
        call();
        start.elapsed().as_nanos() as f64 / f64::from(STEPS)
    };
    let mut times: Vec<f64> = (0..ROUNDS).map(round).collect();
    times.sort_by(f64::total_cmp);
    times
}

fn main() {
    let (trace, accepted) = trace();
    let mut out = vec![0; STEPS as usize * LONGEST_VERDICT];
    let mut counts = [0; 2];
    let expected = run(&Ledger::fresh(), &trace, out.len());
    assert_eq!(proved::run(&trace, &mut out, &mut counts), 0);
    assert_eq!(counts, [trace.len() as u64, expected.written as u64]);
    assert!(out[..expected.written] == expected.output, "the runs differ");

    let proved = rounds(|| {
        black_box(proved::run(black_box(&trace), &mut out, &mut counts));
    });
    let room = out.len();
    let second = rounds(|| {
        black_box(run(black_box(&Ledger::fresh()), black_box(&trace), room));
    });
    let (log, mut at) = (&expected.output[..], [0]);
    assert_eq!(proved::check_log(&[], &trace, log, &mut at), 0);
    assert_eq!(check_from(&Ledger::fresh(), &trace, log), Checked::Agree);
    let proved_check = rounds(|| {
        black_box(proved::check_log(&[], black_box(&trace), black_box(log), &mut at));
    });
    let second_check = rounds(|| {
        black_box(check_from(black_box(&Ledger::fresh()), black_box(&trace), black_box(log)));
    });
    println!("{STEPS} steps, {accepted} accepted; nanoseconds per step, median of {ROUNDS} rounds (least to most)");
    for (side, times) in [
        ("run, proved", &proved),
        ("run, second", &second),
        ("log check, proved", &proved_check),
        ("log check, second", &second_check),
    ] {
        let (median, least, most) = (times[ROUNDS / 2], times[0], times[ROUNDS - 1]);
        println!("{side:17}  {median:8.0} ({least:.0} to {most:.0})");
    }
}
