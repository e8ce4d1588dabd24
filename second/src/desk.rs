//! The sale desk above the ledger: document 02, request 2.

use crate::raw::{self, Raw};
use crate::records::{field, long, short, split_record, Kind, Step, Verdict, CURRENCY, OBJECT};

/// The largest fare, in home units.
pub const LARGEST_FARE: u64 = 1_000_000;
/// The largest numerator and the largest denominator.
pub const LARGEST_PART: u64 = 1_000_000_000;
/// The refusal of a malformed sheet or fare, which goes first.
pub const MALFORMED: u8 = 2;
/// The refusal of a sheet of another object or currency; no verdict has it.
pub const OTHER_SHEET: u8 = 30;

const SHEET: u8 = 0x50;
const NUMERATOR: u8 = 0x0C;
const DENOMINATOR: u8 = 0x0D;

/// A rate sheet: a home unit is numerator / denominator of its currency.
#[derive(Debug, Clone, Copy, PartialEq, Eq)]
pub struct Sheet {
    pub object: u64,
    pub currency: u16,
    pub numerator: u64,
    pub denominator: u64,
}

#[derive(Debug, Clone, Copy, PartialEq, Eq)]
pub enum Sale {
    Charged(u64),
    Refused(u8),
}

/// An entry of a route card: what is asked, and room for the look's code and
/// object.
#[derive(Debug, Clone, Copy, PartialEq, Eq)]
pub struct Entry {
    pub currency: u16,
    pub code: u8,
    pub object: u64,
}

impl Sheet {
    pub fn well_formed(&self) -> bool {
        let part = |value: u64| (1..=LARGEST_PART).contains(&value);
        self.object != 0
            && (1..=999).contains(&self.currency)
            && part(self.numerator)
            && part(self.denominator)
    }

    /// "the smallest whole number that, times the denominator, is at least
    /// fare times numerator", for a well-formed sheet and fare: the quotient,
    /// and one more where it falls short.
    pub fn charge(&self, fare: u64) -> u64 {
        let price = u128::from(fare) * u128::from(self.numerator);
        let denominator = u128::from(self.denominator);
        let quotient = price / denominator;
        let charge = if quotient * denominator < price { quotient + 1 } else { quotient };
        u64::try_from(charge).expect("at most 10^15")
    }
}

/// Reads all the bytes as one rate sheet; `None` is malformed.
pub fn read_sheet(bytes: &[u8]) -> Option<Sheet> {
    let (SHEET, fields) = split_record(bytes)? else {
        return None;
    };
    let [(OBJECT, object), (CURRENCY, currency), (NUMERATOR, over), (DENOMINATOR, under)] =
        fields[..]
    else {
        return None;
    };
    let sheet = Sheet {
        object: long(object)?,
        currency: short(currency)?,
        numerator: long(over)?,
        denominator: long(under)?,
    };
    sheet.well_formed().then_some(sheet)
}

/// Writes a rate sheet; `None` is the answer 2, for what no reader takes.
pub fn write_sheet(sheet: &Sheet) -> Option<Vec<u8>> {
    if !sheet.well_formed() {
        return None;
    }
    let inner = [
        field(OBJECT, &sheet.object.to_be_bytes()),
        field(CURRENCY, &sheet.currency.to_be_bytes()),
        field(NUMERATOR, &sheet.numerator.to_be_bytes()),
        field(DENOMINATOR, &sheet.denominator.to_be_bytes()),
    ];
    Some(field(SHEET, &inner.concat()))
}

fn look(before: &Raw, time: u64, currency: u16, hold: u64) -> (Verdict, Raw) {
    raw::step(before, &Step { time, kind: Kind::Look { currency, hold }, list: vec![] })
}

/// A sale on any ledger. A malformed sheet or fare goes before the look, so
/// that a ledger that is not sound gives 2 then, too.
pub fn sell(
    before: &Raw,
    time: u64,
    sheet: &[u8],
    currency: u16,
    hold: u64,
    fare: u64,
) -> (Sale, Raw) {
    let refused = |code: u8| (Sale::Refused(code), before.clone());
    let sheet = match read_sheet(sheet) {
        Some(sheet) if fare <= LARGEST_FARE => sheet,
        _ => return refused(MALFORMED),
    };
    match look(before, time, currency, hold) {
        (Verdict::Found(object), after) => {
            if (sheet.object, sheet.currency) != (object, currency) {
                // The look was accepted, but the sale is not.
                return refused(OTHER_SHEET);
            }
            (Sale::Charged(sheet.charge(fare)), after)
        }
        (refusal, _) => refused(refusal.code()),
    }
}

/// Fills in the first `count` entries of a route card, each by a look on the
/// ledger that the one before left, and gives the last ledger. `None` is the
/// answer 2, for a count above the card's length.
pub fn fill_card(
    before: &Raw,
    time: u64,
    hold: u64,
    count: u64,
    card: &mut [Entry],
) -> Option<Raw> {
    let entries = card.get_mut(..usize::try_from(count).ok()?)?;
    let mut ledger = before.clone();
    for entry in entries {
        let (verdict, next) = look(&ledger, time, entry.currency, hold);
        (entry.code, entry.object) = match verdict {
            Verdict::Found(object) => (0, object),
            refusal => (refusal.code(), 0),
        };
        ledger = next;
    }
    Some(ledger)
}

#[cfg(test)]
mod tests;
