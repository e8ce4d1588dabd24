//! Nanoseconds per read and per write of a PUT and of a COMMIT of 16 and of 64
//! names, by the proved library's C calls and by the second program's functions.

use std::hint::black_box;
use std::time::Instant;

use second::compare::records::STEP;
use second::limits::{Limits, LONGEST_STEP, NAMES};
use second::proved;
use second::records::{read_step, write_step, Kind, Role, Step};

const ROUNDS: usize = 21;
const CALLS: u32 = 200_000;

/// The nanoseconds of one call in each round, in rising order.
fn rounds(mut call: impl FnMut()) -> Vec<f64> {
    let round = |_| {
        let start = Instant::now();
        (0..CALLS).for_each(|_| call());
        start.elapsed().as_nanos() as f64 / f64::from(CALLS)
    };
    let mut times: Vec<f64> = (0..ROUNDS).map(round).collect();
    times.sort_by(f64::total_cmp);
    times
}

fn print(label: &str, proved: Vec<f64>, second: Vec<f64>) {
    let median = |times: &[f64]| times[ROUNDS / 2];
    let (one, other) = (median(&proved), median(&second));
    println!(
        "{label:<18} proved {one:6.1} ({:.1} to {:.1})  second {other:6.1} ({:.1} to {:.1})  \
         ratio {:.2}",
        proved[0],
        proved[ROUNDS - 1],
        second[0],
        second[ROUNDS - 1],
        one / other
    );
}

fn measure(label: &str, step: &Step) {
    let record = write_step(step).expect("the step is well formed");
    let (mut numbers, mut list, mut out) = ([0; STEP], [0; NAMES], [0; LONGEST_STEP]);
    assert_eq!(proved::read_step(&record, &mut numbers, &mut list), 0);
    assert_eq!(read_step(&record).as_ref(), Some(step));
    assert_eq!(proved::write_step(&numbers, &list, &mut out), record.len() as u64);
    assert_eq!(out[..record.len()], record);

    let (mut read_numbers, mut read_list) = (numbers, list);
    let proved_reads = rounds(|| {
        black_box(proved::read_step(black_box(&record), &mut read_numbers, &mut read_list));
        black_box((&read_numbers, &read_list));
    });
    let second_reads = rounds(|| {
        black_box(read_step(black_box(&record)));
    });
    print(&format!("read {label}"), proved_reads, second_reads);

    let proved_writes = rounds(|| {
        black_box(proved::write_step(black_box(&numbers), black_box(&list), &mut out));
        black_box(&out);
    });
    let second_writes = rounds(|| {
        black_box(write_step(black_box(step)));
    });
    print(&format!("write {label}"), proved_writes, second_writes);
}

fn main() {
    let time = 1_700_000_000;
    let put = Kind::Put { role: Role::Writer, epoch: 3, object: 12_345, currency: 978 };
    let commit = Kind::Commit { epoch: 3, slot: 12_345 };
    println!("nanoseconds per call, median of {ROUNDS} rounds of {CALLS} calls (least to most)");
    measure("PUT", &Step { time, kind: put, list: Vec::new() });
    for names in [Limits::OLD.names, NAMES] {
        let list = (1001..).take(names).collect();
        measure(&format!("COMMIT of {names}"), &Step { time, kind: commit, list });
    }
}
