//! Comparison of two sale desks, given as functions: document 02, request 2.
//!
//! Both sides keep the calling convention of the proved library's C calls: a
//! ledger is `LEDGER` numbers, a rate sheet four beside its bytes, a sale two,
//! and an entry of a route card three.

pub mod cards;
pub mod sales;
pub mod sheets;
mod walk;

use crate::compare::ledgers::{ledger_numbers, raw_of, LEDGER};
use crate::compare::records::put;
use crate::compare::MARGIN;
use crate::depot;
use crate::desk::{self, Entry, Sale, Sheet};
use crate::ledger::Ledger;
use crate::raw;
use crate::run::run;

/// How many numbers a sheet, a sale and an entry of a card have.
pub const SHEET: usize = 4;
pub const SALE: usize = 2;
pub const ENTRY: usize = 3;
/// The most entries of a card that is lent, a limit of its own.
pub const ENTRIES: usize = 64;
/// The answers where the call is done, where it says 2, and where too few
/// elements are lent or too many entries.
const DONE: u64 = 0;
const MALFORMED: u64 = 2;
const SHORT: u64 = 3;

/// Lengths of a ledger's slice around the least that is asked for.
const SIZES: [usize; 7] = [0, 1, LEDGER - 2, LEDGER - 1, LEDGER, LEDGER + 1, LEDGER + 7];

/// A currency above 65,535 is taken as 65,535, which no sheet has.
fn cut(currency: u64) -> u16 {
    u16::try_from(currency).unwrap_or(u16::MAX)
}

/// 0 read, with the four numbers; 2 malformed; 3 where too few are lent.
pub fn read_sheet(record: &[u8], numbers: &mut [u64]) -> u64 {
    let Some(room) = numbers.get_mut(..SHEET) else {
        return SHORT;
    };
    let Some(sheet) = desk::read_sheet(record) else {
        return MALFORMED;
    };
    let Sheet { object, currency, numerator, denominator } = sheet;
    room.copy_from_slice(&[object, currency.into(), numerator, denominator]);
    DONE
}

/// The length written; 2 for what no reader takes; 0 where the room is short;
/// 3 where too few numbers are lent.
pub fn write_sheet(numbers: &[u64], out: &mut [u8]) -> u64 {
    let [object, currency, numerator, denominator, ..] = *numbers else {
        return SHORT;
    };
    let sheet = Sheet { object, currency: cut(currency), numerator, denominator };
    put(desk::write_sheet(&sheet), out)
}

/// 0 with the sale's code and charge and the ledger behind it in place; 3 where
/// too few numbers are lent.
pub fn sell(
    ledger: &mut [u64],
    time: u64,
    sheet: &[u8],
    currency: u64,
    hold: u64,
    fare: u64,
    sale: &mut [u64],
) -> u64 {
    if ledger.len() < LEDGER || sale.len() < SALE {
        return SHORT;
    }
    let (sold, next) = desk::sell(&raw_of(ledger), time, sheet, cut(currency), hold, fare);
    ledger[..LEDGER].copy_from_slice(&ledger_numbers(&next));
    sale[..SALE].copy_from_slice(&match sold {
        Sale::Charged(charge) => [0, charge],
        Sale::Refused(code) => [code.into(), 0],
    });
    DONE
}

/// 0 with the first entries filled in and the ledger behind the last look in
/// place; 2 for a count above the card's entries; 3 where too few numbers of a
/// ledger are lent or too many entries. Both leave all as it was.
pub fn fill_card(ledger: &mut [u64], time: u64, hold: u64, count: u64, card: &mut [u64]) -> u64 {
    if ledger.len() < LEDGER || card.len() / ENTRY > ENTRIES {
        return SHORT;
    }
    let before = raw_of(ledger);
    let asked = |entry: &[u64]| Entry { currency: cut(entry[0]), code: 0, object: 0 };
    let mut entries: Vec<Entry> = card.chunks_exact(ENTRY).map(asked).collect();
    let Some(next) = desk::fill_card(&before, time, hold, count, &mut entries) else {
        return MALFORMED;
    };
    ledger[..LEDGER].copy_from_slice(&ledger_numbers(&next));
    for (room, entry) in card.chunks_exact_mut(ENTRY).zip(entries).take(count as usize) {
        room[1..].copy_from_slice(&[entry.code.into(), entry.object]);
    }
    DONE
}

pub type ReadCall = fn(&[u8], &mut [u64]) -> u64;
pub type WriteCall = fn(&[u64], &mut [u8]) -> u64;
/// Ledger, time, sheet, currency, hold, fare and sale.
pub type SellCall = fn(&mut [u64], u64, &[u8], u64, u64, u64, &mut [u64]) -> u64;
/// Ledger, time, hold, count and card.
pub type FillCall = fn(&mut [u64], u64, u64, u64, &mut [u64]) -> u64;

/// One side's calls.
#[derive(Clone, Copy)]
pub struct Calls {
    pub read: ReadCall,
    pub write: WriteCall,
    pub sell: SellCall,
    pub fill: FillCall,
}

pub const SECOND: Calls = Calls { read: read_sheet, write: write_sheet, sell, fill: fill_card };

/// What a call leaves: its answer, the ledger, and the sale or the card,
/// margins too.
#[derive(PartialEq, Eq)]
struct Left {
    answer: u64,
    ledger: Vec<u64>,
    answered: Vec<u64>,
}

impl Left {
    /// A call with the numbers between margins that are filled with the
    /// pattern.
    fn new(
        ledger: &[u64],
        lent: &[u64],
        pattern: u64,
        call: impl Fn(&mut [u64], &mut [u64]) -> u64,
    ) -> Self {
        let (mut ledger, mut answered) = (framed(ledger, pattern), framed(lent, pattern));
        let answer = call(inner(&mut ledger), inner(&mut answered));
        Left { answer, ledger, answered }
    }

    /// Either side's, where they are the same; the error names differences.
    fn agreed(self, other: Left) -> Result<Left, String> {
        if self == other {
            return Ok(self);
        }
        let mut told = format!("answers {} and {}", self.answer, other.answer);
        let pairs =
            [("answered", self.answered, other.answered), ("ledger", self.ledger, other.ledger)];
        for (name, one, other) in pairs {
            let places = one.iter().zip(other).enumerate();
            for (place, (one, other)) in places.filter(|(_, (one, other))| *one != other).take(8) {
                let place = place as i64 - MARGIN as i64;
                told += &format!("; {name}[{place}] first {one}, second {other}");
            }
        }
        Err(told)
    }
}

/// The ledger behind the depot's week, at clock 22, whose list has object 2 of
/// currency 756 and object 5 of 978; the same with marks that no ledger has; and
/// another that is not sound.
fn week() -> [Vec<u64>; 3] {
    let week = run(&Ledger::fresh(), &depot::trace(), usize::MAX).ledger;
    let numbers = ledger_numbers(&raw::raw(&week));
    let (mut marked, mut unsound) = (raw_of(&numbers), raw_of(&numbers));
    marked.objects.iter_mut().for_each(|object| object.named *= 9);
    unsound.hold_count = 1;
    [numbers, ledger_numbers(&marked), ledger_numbers(&unsound)]
}

fn resized(numbers: &[u64], size: usize, pattern: u64) -> Vec<u64> {
    let mut numbers = numbers.to_vec();
    numbers.resize(size, pattern);
    numbers
}

fn framed(numbers: &[u64], pattern: u64) -> Vec<u64> {
    let margin = [pattern; MARGIN];
    [&margin, numbers, &margin].concat()
}

/// What stands between the margins.
fn inner(framed: &mut [u64]) -> &mut [u64] {
    let end = framed.len() - MARGIN;
    &mut framed[MARGIN..end]
}

#[cfg(test)]
mod tests;
