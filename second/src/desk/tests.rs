//! Rate sheets both ways, each refusal of a sale and their order, and route
//! cards, with the ledger on each path.

use super::*;
use crate::ledger::Ledger;
use crate::raw::{from_raw, raw};
use crate::records::{Field, Role};

const LAST: u64 = LARGEST_PART;

fn sheet(object: u64, currency: u16, numerator: u64, denominator: u64) -> Sheet {
    Sheet { object, currency, numerator, denominator }
}

fn written(object: u64, currency: u16) -> Vec<u8> {
    write_sheet(&sheet(object, currency, 11, 10)).unwrap()
}

/// Object 4 of currency 978 at 11/10, written by hand.
fn sample() -> Vec<u8> {
    let mut bytes = vec![0x50, 0, 38];
    bytes.extend([0x05, 0, 8, 0, 0, 0, 0, 0, 0, 0, 4]);
    bytes.extend([0x06, 0, 2, 3, 0xD2]);
    bytes.extend([0x0C, 0, 8, 0, 0, 0, 0, 0, 0, 0, 11]);
    bytes.extend([0x0D, 0, 8, 0, 0, 0, 0, 0, 0, 0, 10]);
    bytes
}

/// At clock 12 the current list is [1, 2], of 978 and 756, and that of hold 7
/// is [1, 2, 3], of which 3 is of 978 too. Hold 7 expires at 20.
fn depot() -> Raw {
    let role = Role::Writer;
    let put = |object, currency| Kind::Put { role, epoch: 1, object, currency };
    let commit = |slot| Kind::Commit { epoch: 1, slot };
    let mut ledger = Ledger::fresh();
    for (time, kind, list) in [
        (10, Kind::Fence { role, slot: 1 }, vec![]),
        (10, put(1, 978), vec![]),
        (10, put(2, 756), vec![]),
        (10, put(3, 978), vec![]),
        (11, commit(2), vec![1, 2, 3]),
        (12, Kind::Hold { hold: 7, manifest: 2, expiry: 20 }, vec![]),
        (12, commit(3), vec![1, 2]),
    ] {
        assert_eq!(ledger.step(&Step { time, kind, list }).code(), 0, "{kind:?}");
    }
    raw(&ledger)
}

/// The same with a hold too many counted, which is not sound.
fn unsound() -> Raw {
    let mut ledger = depot();
    ledger.hold_count += 1;
    assert_eq!(from_raw(&ledger), None);
    ledger
}

#[track_caller]
fn charged(time: u64, sheet: &[u8], currency: u16, hold: u64, fare: u64, charge: u64) -> Raw {
    let (sale, after) = sell(&depot(), time, sheet, currency, hold, fare);
    assert_eq!(sale, Sale::Charged(charge));
    let (verdict, looked) = look(&depot(), time, currency, hold);
    assert!(matches!(verdict, Verdict::Found(_)));
    assert_eq!(after, looked);
    after
}

/// A refusal leaves the ledger as it was.
#[track_caller]
fn refused(before: &Raw, time: u64, sheet: &[u8], asked: (u16, u64, u64), code: u8) {
    let (currency, hold, fare) = asked;
    let (sale, after) = sell(before, time, sheet, currency, hold, fare);
    assert_eq!(sale, Sale::Refused(code));
    assert_eq!(&after, before);
}

#[test]
fn a_sheet_is_read_and_written() {
    assert_eq!(sample().len(), 41);
    let read = sheet(4, 978, 11, 10);
    assert_eq!(read_sheet(&sample()), Some(read));
    assert_eq!(write_sheet(&read), Some(sample()));
}

#[test]
fn values_have_limits_both_ways() {
    for (values, good) in [
        (sheet(1, 1, 1, 1), true),
        (sheet(u64::MAX, 999, LAST, LAST), true),
        (sheet(0, 978, 1, 1), false),
        (sheet(1, 0, 1, 1), false),
        (sheet(1, 1000, 1, 1), false),
        (sheet(1, u16::MAX, 1, 1), false),
        (sheet(1, 978, 0, 1), false),
        (sheet(1, 978, LAST + 1, 1), false),
        (sheet(1, 978, u64::MAX, 1), false),
        (sheet(1, 978, 1, 0), false),
        (sheet(1, 978, 1, LAST + 1), false),
        (sheet(1, 978, 1, u64::MAX), false),
    ] {
        let mut bytes = sample();
        bytes[6..14].copy_from_slice(&values.object.to_be_bytes());
        bytes[17..19].copy_from_slice(&values.currency.to_be_bytes());
        bytes[22..30].copy_from_slice(&values.numerator.to_be_bytes());
        bytes[33..41].copy_from_slice(&values.denominator.to_be_bytes());
        assert_eq!(read_sheet(&bytes), good.then_some(values), "{values:?}");
        assert_eq!(write_sheet(&values), good.then_some(bytes), "{values:?}");
    }
}

#[test]
fn a_changed_byte_is_malformed_or_another_value() {
    // Where the values stand; all other bytes are tags and lengths.
    let value = |place: usize| [6..14, 17..19, 22..30, 33..41].iter().any(|v| v.contains(&place));
    for place in 0..41 {
        for change in 1..=255 {
            let mut bytes = sample();
            bytes[place] ^= change;
            match read_sheet(&bytes) {
                None => {}
                Some(read) => {
                    assert!(value(place), "byte {place}");
                    assert_eq!(write_sheet(&read), Some(bytes));
                }
            }
        }
    }
}

#[test]
fn torn_and_lengthened_sheets_are_malformed() {
    for cut in 0..41 {
        assert_eq!(read_sheet(&sample()[..cut]), None, "{cut}");
        assert_eq!(read_sheet(&sample()[41 - cut..]), None, "{cut}");
    }
    let longer = [&sample()[..], &[0]].concat();
    assert_eq!(read_sheet(&longer), None);
    // The same byte within the outer length.
    let mut claimed = longer.clone();
    claimed[2] += 1;
    assert_eq!(read_sheet(&claimed), None);
    assert_eq!(read_sheet(&sample().repeat(2)), None);
}

/// The inner fields missing, doubled, exchanged, of another tag or of another
/// width, with an outer length that agrees.
#[test]
fn other_fields_or_orders_are_malformed() {
    let bytes = sample();
    let (tag, fields) = split_record(&bytes).unwrap();
    let refuse = |fields: &[Field]| {
        let inner: Vec<u8> = fields.iter().flat_map(|(t, v)| field(*t, v)).collect();
        assert_eq!(read_sheet(&field(tag, &inner)), None, "{fields:?}");
    };
    for index in 0..fields.len() {
        let (mut missing, mut doubled) = (fields.clone(), fields.clone());
        missing.remove(index);
        refuse(&missing);
        doubled.insert(index, fields[index]);
        refuse(&doubled);
        for other in index + 1..fields.len() {
            let mut exchanged = fields.clone();
            exchanged.swap(index, other);
            refuse(&exchanged);
        }
        let value = fields[index].1;
        let wider = [&[0], value].concat();
        for value in [&wider, &value[1..]] {
            let mut resized = fields.clone();
            resized[index].1 = value;
            refuse(&resized);
        }
    }
}

#[test]
fn the_papers_charges() {
    let at = |numerator, denominator, fare| sheet(1, 1, numerator, denominator).charge(fare);
    assert_eq!(at(11, 10, 250), 275);
    assert_eq!(at(1, 3, 100), 34);
    assert_eq!(at(1, 3, 99), 33);
    for (numerator, denominator) in [(1, 1), (LAST, 1), (1, LAST), (LAST, LAST)] {
        assert_eq!(at(numerator, denominator, 0), 0);
    }
    assert_eq!(at(LAST, 1, LARGEST_FARE), 1_000_000_000_000_000);
    assert_eq!(at(LAST, LAST, LARGEST_FARE), LARGEST_FARE);
    assert_eq!(at(1, LAST, 1), 1);
    assert_eq!(at(1, LAST, LARGEST_FARE), 1);
    assert_eq!(at(LAST, LAST - 1, LARGEST_FARE), LARGEST_FARE + 1);
    assert_eq!(at(LAST - 1, LAST, LARGEST_FARE), LARGEST_FARE);
}

#[test]
fn a_charge_suffices_and_one_less_does_not() {
    let parts = [1, 2, 3, 7, 10, 11, 999_983, LAST - 1, LAST];
    for numerator in parts {
        for denominator in parts {
            for fare in (0..=40).chain([249, 250, 999_999, LARGEST_FARE]) {
                let charge = sheet(1, 1, numerator, denominator).charge(fare);
                let asked = i128::from(fare) * i128::from(numerator);
                let paid = |charge: i128| charge * i128::from(denominator);
                assert!(paid(charge.into()) >= asked, "{fare} at {numerator}/{denominator}");
                // Of 0 there is no smaller whole number.
                let less = i128::from(charge) - 1;
                assert!(less < 0 || paid(less) < asked, "{fare} at {numerator}/{denominator}");
            }
        }
    }
}

#[test]
fn a_charged_sale_leaves_the_ledger_after_the_look() {
    let after = charged(12, &written(1, 978), 978, 0, 250, 275);
    assert_eq!(after, depot());
    let after = charged(20, &written(3, 978), 978, 7, 250, 275);
    assert_eq!((after.clock, after.hold_count, after.manifest_count), (20, 1, 2));
    // Behind the expiry the hold and its manifest are gone.
    let after = charged(21, &written(2, 756), 756, 0, 0, 0);
    assert_eq!((after.clock, after.hold_count, after.manifest_count), (21, 0, 1));
    let third = write_sheet(&sheet(1, 978, 1, 3)).unwrap();
    charged(12, &third, 978, 0, 100, 34);
    let dearest = write_sheet(&sheet(1, 978, LAST, 1)).unwrap();
    charged(u64::MAX, &dearest, 978, 0, LARGEST_FARE, 1_000_000_000_000_000);
}

#[test]
fn each_refusal_leaves_the_ledger() {
    let good = written(1, 978);
    refused(&unsound(), 12, &good, (978, 0, 1), 1);
    refused(&depot(), 12, &good[..40], (978, 0, 1), 2);
    refused(&depot(), 12, &[], (978, 0, 1), 2);
    refused(&depot(), 12, &good, (978, 0, LARGEST_FARE + 1), 2);
    refused(&depot(), 12, &good, (978, 0, u64::MAX), 2);
    for currency in [0, 1000, u16::MAX] {
        refused(&depot(), 12, &good, (currency, 0, 1), 2);
    }
    refused(&depot(), 11, &good, (978, 0, 1), 3);
    refused(&depot(), 12, &good, (978, 8, 1), 15);
    refused(&depot(), 21, &written(3, 978), (978, 7, 1), 15);
    refused(&depot(), 12, &written(1, 985), (985, 0, 1), 16);
    // The time of a sale refused with 30 is not taken, nor is the hold gone.
    for time in [12, 21, u64::MAX] {
        refused(&depot(), time, &written(2, 978), (978, 0, 1), 30);
        refused(&depot(), time, &written(1, 756), (978, 0, 1), 30);
        refused(&depot(), time, &written(2, 756), (978, 0, 1), 30);
    }
    // The sheet in force elsewhere.
    refused(&depot(), 12, &written(3, 978), (978, 0, 1), 30);
    refused(&depot(), 12, &written(1, 978), (978, 7, 1), 30);
}

#[test]
fn a_malformed_sheet_or_fare_goes_before_the_look() {
    let (good, bad) = (written(1, 978), &written(1, 978)[1..]);
    for (ledger, time, currency, hold) in [
        (unsound(), 12, 978, 0),
        (depot(), 12, 1000, 0),
        (depot(), 11, 978, 0),
        (depot(), 12, 978, 8),
        (depot(), 12, 985, 0),
        (depot(), 12, 756, 0),
    ] {
        refused(&ledger, time, bad, (currency, hold, 1), 2);
        refused(&ledger, time, &good, (currency, hold, LARGEST_FARE + 1), 2);
    }
}

#[test]
fn the_look_goes_before_another_sheet() {
    // Neither the object nor the currency of this sheet is asked for.
    let other = written(9, 1);
    refused(&unsound(), 12, &other, (978, 0, 1), 1);
    refused(&depot(), 12, &other, (0, 0, 1), 2);
    refused(&depot(), 11, &other, (978, 0, 1), 3);
    refused(&depot(), 12, &other, (978, 8, 1), 15);
    refused(&depot(), 12, &other, (985, 0, 1), 16);
    refused(&depot(), 12, &other, (978, 0, 1), 30);
    // The look is of the currency that is asked, not of the sheet's.
    refused(&depot(), 12, &written(1, 978), (985, 0, 1), 16);
}

/// An entry as it stands before, with junk in the room.
fn asked(currency: u16) -> Entry {
    Entry { currency, code: 99, object: 77 }
}

fn card(currencies: &[u16]) -> Vec<Entry> {
    currencies.iter().map(|currency| asked(*currency)).collect()
}

fn entries(filled: &[(u16, u8, u64)]) -> Vec<Entry> {
    let entry = |&(currency, code, object): &_| Entry { currency, code, object };
    filled.iter().map(entry).collect()
}

#[test]
fn a_card_goes_on_past_refused_looks() {
    let mut row = card(&[978, 985, 756, 0, 1000, 978, 999]);
    let after = fill_card(&depot(), 21, 0, 7, &mut row).unwrap();
    let looks = [(978, 0, 1), (985, 16, 0), (756, 0, 2), (0, 2, 0), (1000, 2, 0)];
    assert_eq!(row, [entries(&looks), entries(&[(978, 0, 1), (999, 16, 0)])].concat());
    // The last look was refused; the ledger is that of the accepted ones.
    assert_eq!(after, look(&depot(), 21, 978, 0).1);
    assert_eq!((after.clock, after.hold_count), (21, 0));

    let mut row = card(&[985, 978]);
    assert!(fill_card(&depot(), 20, 7, 2, &mut row).is_some());
    assert_eq!(row, entries(&[(985, 16, 0), (978, 0, 3)]));
}

#[test]
fn a_card_of_refused_looks_leaves_the_ledger() {
    for (ledger, time, hold, code) in
        [(unsound(), 12, 0, 1), (depot(), 11, 0, 3), (depot(), 21, 7, 15), (depot(), 12, 8, 15)]
    {
        let mut row = card(&[978, 756, 985]);
        assert_eq!(fill_card(&ledger, time, hold, 3, &mut row), Some(ledger));
        assert_eq!(row, entries(&[(978, code, 0), (756, code, 0), (985, code, 0)]));
    }
}

#[test]
fn a_count_up_to_the_length_is_filled_and_none_above() {
    let before = card(&[978, 756, 985]);
    let full = entries(&[(978, 0, 1), (756, 0, 2), (985, 16, 0)]);
    for count in 0..=3 {
        let mut row = before.clone();
        let after = fill_card(&depot(), 13, 0, count as u64, &mut row).unwrap();
        assert_eq!(row, [&full[..count], &before[count..]].concat());
        assert_eq!(after.clock, if count == 0 { 12 } else { 13 });
    }
    for count in [4, 5, 1 << 32, u64::MAX / 3 + 1, u64::MAX] {
        let mut row = before.clone();
        assert_eq!(fill_card(&depot(), 13, 0, count, &mut row), None);
        assert_eq!(row, before);
    }
    assert_eq!(fill_card(&depot(), 13, 0, 0, &mut []), Some(depot()));
    assert_eq!(fill_card(&depot(), 13, 0, 1, &mut []), None);
    // Also of a ledger that is not sound.
    assert_eq!(fill_card(&unsound(), 13, 0, 0, &mut card(&[978])), Some(unsound()));
    assert_eq!(fill_card(&unsound(), 13, 0, 2, &mut card(&[978])), None);
}
