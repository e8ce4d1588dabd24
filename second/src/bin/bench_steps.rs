//! Nanoseconds per accepted step of each kind, on a ledger of 32 objects, 4
//! manifests and 4 holds: by the proved library's C call, by the second
//! program through the same call, and by the second program's ledger alone.
//! Then a COLLECT on a ledger that was full at the old limits; a COLLECT, a
//! LOOK and a COMMIT on one that is full now; and a sale and a route card on the
//! first ledger, the last two by the first two ways.
//!
//! The first two judge each time whether the ledger is sound, and the copy of
//! the ledger before each call is in all three.

use std::hint::black_box;
use std::time::Instant;

use second::compare::desk::{self, FillCall, SellCall, ENTRY, SALE};
use second::compare::ledgers::{self, ledger_numbers, StepCall, LEDGER};
use second::compare::records::{put_verdict, step_numbers, STEP, VERDICT};
use second::desk::{write_sheet, Sheet};
use second::generate::measured::{at, full, sample, FIRST, TIME};
use second::ledger::Ledger;
use second::limits::{Limits, NAMES, PLACES};
use second::proved;
use second::raw::raw;
use second::records::{Kind, Role, Step, Verdict};

const ROUNDS: usize = 21;
const CALLS: u32 = 1_000;

/// The nanoseconds of one call in each round, in rising order.
fn rounds(mut call: impl FnMut()) -> Vec<f64> {
    let round = |_| {
        let start = Instant::now();
        (0..CALLS).for_each(|_| call());
        start.elapsed().as_nanos() as f64 / f64::from(CALLS)
    };
    let mut times: Vec<f64> = (0..ROUNDS).map(round).collect();
    times.sort_by(f64::total_cmp);
    times
}

fn call(step: StepCall, ledger: &[u64], asked: &Step) -> Vec<f64> {
    let numbers: [u64; STEP] = step_numbers(asked);
    let mut list = asked.list.clone();
    list.resize(NAMES, 0);
    let (mut next, mut verdict, mut objects) = (ledger.to_vec(), [0; VERDICT], [0; PLACES]);
    rounds(|| {
        next.copy_from_slice(black_box(ledger));
        let (numbers, list) = (black_box(&numbers), black_box(&list));
        black_box(step(&mut next, numbers, list, &mut verdict, &mut objects));
        black_box((&next, &verdict, &objects));
    })
}

fn measure(label: &str, ledger: &Ledger, asked: &Step) {
    let numbers = ledger_numbers(&raw(ledger));
    let mut next = ledger.clone();
    let expected: Verdict = next.step(asked);
    assert_eq!(expected.code(), 0, "{label}");
    check(&numbers, asked, &next, expected);

    let proved = call(proved::step, &numbers, asked);
    let second = call(ledgers::step, &numbers, asked);
    let alone = rounds(|| {
        let mut next = black_box(ledger).clone();
        black_box(next.step(black_box(asked)));
        black_box(next);
    });
    print(label, &proved, &second, &format!("{:.0}", alone[ROUNDS / 2]));
}

fn print(label: &str, proved: &[f64], second: &[f64], alone: &str) {
    let (one, other) = (proved[ROUNDS / 2], second[ROUNDS / 2]);
    println!(
        "{label:<38} {one:8.0} ({:.0} to {:.0})  {other:8.0} ({:.0} to {:.0})  {alone:>8}  {:6.2}",
        proved[0],
        proved[ROUNDS - 1],
        second[0],
        second[ROUNDS - 1],
        one / other
    );
}

/// A sale by the sheet in force, which charges.
fn sale(sell: SellCall, ledger: &[u64], sheet: &[u8]) -> Vec<f64> {
    let (mut next, mut sale) = (ledger.to_vec(), [0; SALE]);
    let times = rounds(|| {
        next.copy_from_slice(black_box(ledger));
        let sheet = black_box(sheet);
        black_box(sell(&mut next, TIME, sheet, 978, 0, black_box(250), &mut sale));
        black_box((&next, &sale));
    });
    assert_eq!(sale, [0, 275]);
    times
}

/// A card of 16 currencies, four of which have a sheet in force.
fn card(fill: FillCall, ledger: &[u64]) -> Vec<f64> {
    let asked: Vec<u64> =
        (0..16).flat_map(|i| [[756, 840, 978, 985][i % 4] + (i as u64) / 4, 9, 9]).collect();
    let (mut next, mut card) = (ledger.to_vec(), asked.clone());
    let times = rounds(|| {
        next.copy_from_slice(black_box(ledger));
        card.copy_from_slice(black_box(&asked));
        black_box(fill(&mut next, TIME, 0, 16, &mut card));
        black_box((&next, &card));
    });
    assert_eq!(card.chunks(ENTRY).filter(|entry| entry[1] == 0).count(), 4);
    times
}

fn measure_desk(numbers: &[u64]) {
    // The current manifest names objects 7 to 18; 18 is the highest of currency 978.
    let rate = Sheet { object: 18, currency: 978, numerator: 11, denominator: 10 };
    let sheet = write_sheet(&rate).expect("it is well formed");
    let proved = sale(proved::sell, numbers, &sheet);
    print("a sale", &proved, &sale(desk::sell, numbers, &sheet), "-");
    let proved = card(proved::fill_card, numbers);
    print("a card of 16", &proved, &card(desk::fill_card, numbers), "-");
}

/// The proved call gives the same next ledger and verdict.
fn check(ledger: &[u64], asked: &Step, next: &Ledger, expected: Verdict) {
    let mut list = asked.list.clone();
    list.resize(NAMES, 0);
    let (mut left, mut verdict, mut objects) = (ledger.to_vec(), [0; VERDICT], [0; PLACES]);
    let numbers = step_numbers(asked);
    assert_eq!(proved::step(&mut left, &numbers, &list, &mut verdict, &mut objects), 0);
    let (mut wanted, mut places) = ([0; VERDICT], [0; PLACES]);
    put_verdict(expected, &mut wanted, &mut places);
    assert_eq!((verdict, objects), (wanted, places));
    assert_eq!(left, ledger_numbers(&raw(next)));
}

fn main() {
    let ledger = sample();
    let numbers = ledger_numbers(&raw(&ledger));
    let mut next = vec![0; LEDGER];
    let copies = rounds(|| {
        next.copy_from_slice(black_box(&numbers));
        black_box(&next);
    });
    println!("nanoseconds per step, median of {ROUNDS} rounds of {CALLS} (least to most)");
    println!("a copy of the ledger's {LEDGER} numbers alone: {:.0}", copies[ROUNDS / 2]);
    println!("{:<38}   proved  second, same call  second, ledger alone  proved to second", "kind");
    let names: Vec<u64> = (17..33).collect();
    let put = Kind::Put { role: Role::Writer, epoch: 2, object: 33, currency: 978 };
    let look = Kind::Look { currency: 978, hold: 5 };
    let hold = Kind::Hold { hold: 9, manifest: 7, expiry: TIME + 60 };
    measure("FENCE", &ledger, &at(Kind::Fence { role: Role::Writer, slot: 8 }, &[]));
    measure("PUT", &ledger, &at(put, &[]));
    measure("COMMIT of 16", &ledger, &at(Kind::Commit { epoch: 2, slot: 8 }, &names));
    measure("COMPACT", &ledger, &at(Kind::Compact { epoch: 1, slot: 8, object: 32 }, &[]));
    measure("HOLD", &ledger, &at(hold, &[]));
    measure("RENEW", &ledger, &at(Kind::Renew { hold: 5, expiry: TIME + 60 }, &[]));
    measure("RELEASE", &ledger, &at(Kind::Release { hold: 5 }, &[]));
    measure("LIST", &ledger, &at(Kind::List { hold: 5 }, &[]));
    measure("LOOK", &ledger, &at(look, &[]));
    measure("COLLECT", &ledger, &at(Kind::Collect, &[]));
    let old = full(Limits::OLD, [978, 978]);
    measure("COLLECT, 64 objects, 9 manifests of 16", &old, &at(Kind::Collect, &[]));
    measure_full();
    measure_desk(&numbers);
}

/// On the ledger that is full now: the look goes through a whole list, and the
/// commit names the objects that were dead.
fn measure_full() {
    let ledger = full(Limits::NOW, [756, 978]);
    let look = Kind::Look { currency: 756, hold: FIRST };
    let slot = ledger.current().0 + 1;
    let names: Vec<u64> = (1..=PLACES as u64).rev().take(NAMES).collect();
    let rising: Vec<u64> = names.into_iter().rev().collect();
    measure("COLLECT, full", &ledger, &at(Kind::Collect, &[]));
    measure("LOOK, full", &ledger, &at(look, &[]));
    measure("COMMIT, full", &ledger, &at(Kind::Commit { epoch: 2, slot }, &rising));
}
