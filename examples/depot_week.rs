//! Runs a trace file on the fresh ledger and prints each verdict in words: depot_week TRACE
//!
//!     tools/archives exports
//!     rustc --edition 2021 -O examples/depot_week.rs -L target/staticlib -l static=exports
//!     ./depot_week examples/depot_week.trace                # prints examples/depot_week.out

use std::process::ExitCode;

/// No list is longer, and no verdict record.
const PLACES: usize = 256;
const LONGEST_VERDICT: usize = 10 + 8 * PLACES;

/// The table of refusals, from row 1.
const ROWS: [&str; 17] = [
    "ledger not sound",
    "malformed record",
    "time below the clock",
    "epoch 0 or above the role's epoch",
    "epoch below the role's epoch",
    "slot at most the current number",
    "slot above current plus one",
    "a named object isn't stored",
    "number is stored",
    "number at most the highest collected and not stored",
    "256 objects stored",
    "a live hold has this number",
    "manifest not active",
    "8 live holds",
    "hold not live",
    "no object of that currency in that manifest",
    "no object of that currency in the current manifest",
];

/// How a run ends.
const ENDS: [&str; 3] = ["whole", "torn", "full"];

/// The calls of include/cuudhaqil.h that are used here.
mod ffi {
    extern "C" {
        pub fn cuudhaqil_next_record(trace: *const u8, trace_len: usize) -> u64;
        pub fn cuudhaqil_read_verdict(
            record: *const u8,
            record_len: usize,
            numbers: *mut u64,
            numbers_len: usize,
            list: *mut u64,
            list_len: usize,
        ) -> u64;
        pub fn cuudhaqil_run(
            trace: *const u8,
            trace_len: usize,
            out: *mut u8,
            out_len: usize,
            counts: *mut u64,
            counts_len: usize,
        ) -> u64;
    }
}

/// The length of the first record, if there is a whole one.
fn next_record(trace: &[u8]) -> Option<usize> {
    // SAFETY: the pointer comes from a slice of the length given.
    let next = unsafe { ffi::cuudhaqil_next_record(trace.as_ptr(), trace.len()) };
    // 0 is the end of the trace, 1 a torn record.
    (next > 1).then_some(next as usize)
}

/// The three numbers of a verdict and the places of its list.
fn read_verdict(record: &[u8]) -> ([u64; 3], [u64; PLACES]) {
    let (mut numbers, mut list) = ([0; 3], [0; PLACES]);
    let (numbers_at, list_at) = (numbers.as_mut_ptr(), list.as_mut_ptr());
    // SAFETY: the pointers come from slices of the lengths given, which do not
    // overlap.
    unsafe {
        let (at, length) = (record.as_ptr(), record.len());
        ffi::cuudhaqil_read_verdict(at, length, numbers_at, 3, list_at, PLACES)
    };
    (numbers, list)
}

/// How the run ended, and the bytes read and written.
fn run(trace: &[u8], out: &mut [u8]) -> (usize, [u64; 2]) {
    let mut counts = [0; 2];
    let (out_at, room, counts_at) = (out.as_mut_ptr(), out.len(), counts.as_mut_ptr());
    // SAFETY: the pointers come from slices of the lengths given, which do not
    // overlap.
    let end =
        unsafe { ffi::cuudhaqil_run(trace.as_ptr(), trace.len(), out_at, room, counts_at, 2) };
    (end as usize, counts)
}

/// The number of whole records at the front of a trace.
fn count_records(mut trace: &[u8]) -> usize {
    let mut count = 0;
    while let Some(length) = next_record(trace) {
        count += 1;
        trace = &trace[length..];
    }
    count
}

fn words(list: &[u64]) -> String {
    match list {
        [] => " nothing".to_string(),
        _ => list.iter().map(|number| format!(" {number}")).collect(),
    }
}

fn verdict_words(record: &[u8]) -> String {
    let ([case, value, length], places) = read_verdict(record);
    let list = &places[..length as usize];
    match case {
        0 => format!("refused {value}: {}", ROWS[value as usize - 1]),
        1 => "accepted".to_string(),
        2 => format!("accepted: epoch {value}"),
        3 => format!("accepted: manifest {value} lists{}", words(list)),
        4 => format!("accepted: object {value}"),
        _ => format!("collected:{}", words(list)),
    }
}

fn main() -> ExitCode {
    let arguments: Vec<String> = std::env::args().collect();
    let [_, path] = &arguments[..] else {
        eprintln!("usage: depot_week TRACE");
        return ExitCode::FAILURE;
    };
    let Ok(trace) = std::fs::read(path) else {
        eprintln!("cannot read {path}");
        return ExitCode::FAILURE;
    };
    let mut out = vec![0; count_records(&trace) * LONGEST_VERDICT];
    let (end, [read, written]) = run(&trace, &mut out);
    let mut verdicts = &out[..written as usize];
    while let Some(length) = next_record(verdicts) {
        println!("{}", verdict_words(&verdicts[..length]));
        verdicts = &verdicts[length..];
    }
    println!("{}: {read} bytes read, {written} written", ENDS[end]);
    ExitCode::SUCCESS
}
