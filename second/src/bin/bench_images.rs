//! Nanoseconds to write and to read an image: the longest, and that of a ledger
//! of 32 objects, 4 manifests and 4 holds; by the proved library's C calls, and
//! by the second program through the same calls.
//!
//! Both judge each time whether the ledger is sound.

use std::hint::black_box;
use std::time::Instant;

use second::compare::images::{read_image, write_image, ReadCall, WriteCall, READ};
use second::compare::ledgers::{ledger_numbers, LEDGER};
use second::generate::measured::{full, sample};
use second::ledger::Ledger;
use second::limits::{Limits, LONGEST_IMAGE};
use second::proved;
use second::raw::raw;

const ROUNDS: usize = 21;
const CALLS: u32 = 1_000;

/// The nanoseconds of one call in one round.
fn round(mut call: impl FnMut()) -> f64 {
    let start = Instant::now();
    (0..CALLS).for_each(|_| call());
    start.elapsed().as_nanos() as f64 / f64::from(CALLS)
}

/// The rounds of two calls, one of each in turn, both in rising order.
fn rounds(mut one: impl FnMut(), mut other: impl FnMut()) -> [Vec<f64>; 2] {
    let (mut first, mut second) = (Vec::new(), Vec::new());
    for _ in 0..ROUNDS {
        first.push(round(&mut one));
        second.push(round(&mut other));
    }
    first.sort_by(f64::total_cmp);
    second.sort_by(f64::total_cmp);
    [first, second]
}

fn print(label: &str, [proved, second]: [Vec<f64>; 2]) {
    let (one, other) = (proved[ROUNDS / 2], second[ROUNDS / 2]);
    println!(
        "{label:<24} {one:8.0} ({:.0} to {:.0})  {other:8.0} ({:.0} to {:.0})  {:6.2}",
        proved[0],
        proved[ROUNDS - 1],
        second[0],
        second[ROUNDS - 1],
        one / other
    );
}

/// What the writer writes.
fn written(write: WriteCall, numbers: &[u64]) -> Vec<u8> {
    let mut out = vec![0; LONGEST_IMAGE];
    let length = write(numbers, &mut out) as usize;
    out.truncate(length);
    out
}

/// What the reader reads.
fn loaded(read: ReadCall, image: &[u8]) -> Vec<u64> {
    let mut numbers = vec![0; LEDGER];
    assert_eq!(read(image, &mut numbers), READ);
    numbers
}

fn measure(label: &str, ledger: &Ledger) {
    let numbers = ledger_numbers(&raw(ledger));
    let image = written(write_image, &numbers);
    assert_eq!(written(proved::write_image, &numbers), image);
    assert_eq!(loaded(read_image, &image), numbers);
    assert_eq!(loaded(proved::read_image, &image), numbers);

    let writing = |write: WriteCall| {
        let (numbers, mut out) = (&numbers, vec![0; LONGEST_IMAGE]);
        move || {
            black_box(write(black_box(numbers), &mut out));
            black_box(&out);
        }
    };
    let times = rounds(writing(proved::write_image), writing(write_image));
    print(&format!("write {label}, {}", image.len()), times);

    let reading = |read: ReadCall| {
        let (image, mut ledger) = (&image, vec![0; LEDGER]);
        move || {
            black_box(read(black_box(image), &mut ledger));
            black_box(&ledger);
        }
    };
    let times = rounds(reading(proved::read_image), reading(read_image));
    print(&format!("read {label}, {}", image.len()), times);
}

fn main() {
    println!("nanoseconds per image, median of {ROUNDS} rounds of {CALLS} (least to most)");
    println!("{:<24}   proved  second, same call  proved to second", "image and its bytes");
    let longest = full(Limits::NOW, [756, 978]);
    assert_eq!(written(write_image, &ledger_numbers(&raw(&longest))).len(), LONGEST_IMAGE);
    measure("the longest", &longest);
    measure("a small one", &sample());
}
