//! The form of an image field by field, and on which side of the border each
//! fault is: 2 for the form, 1 for soundness.

use super::Refused::{Malformed, Unsound};
use super::*;
use crate::generate::images::{joined, split, Fields};
use crate::generate::measured;
use crate::ledger::Ledger;
use crate::limits::{Limits, LONGEST_IMAGE, PLACES};
use crate::raw::raw;

const FRESH: &str = "60 0035 61 0001 01 62 0008 0000000000000000 63 0008 0000000000000000 \
                     65 0018 0000000000000000 0000000000000000 0000000000000000";

/// Two objects with holes before and between them, manifests 2 and 5, the
/// first held by 7 and 9.
const SAMPLE: &str = "60 00BE 61 0001 01 62 0008 0000000000000064 63 0008 0000000000000023 \
                      64 0015 03 0000000000000028 01 0000000000000002 03E7 00 \
                      64 0015 FF 000000000000000A 00 0000000000000001 03D2 01 \
                      65 0020 0000000000000002 0000000000000001 0000000000000001 000000000000000A \
                      65 0018 0000000000000005 0000000000000003 0000000000000002 \
                      66 0018 0000000000000007 0000000000000002 0000000000000064 \
                      66 0018 0000000000000009 0000000000000002 0000000000000000";

fn bytes(text: &str) -> Vec<u8> {
    let digits: String = text.split_whitespace().collect();
    let pairs = (0..digits.len()).step_by(2).map(|at| &digits[at..at + 2]);
    pairs.map(|pair| u8::from_str_radix(pair, 16).unwrap()).collect()
}

/// The ledger of the sample.
fn sample() -> Raw {
    let mut ledger = Raw::unused(100, 35);
    ledger.occupancy = [1 << 3, 0, 0, 1 << 63];
    ledger.objects[3] = RawObject { number: 40, role: 1, epoch: 2, currency: 999, named: 0 };
    ledger.objects[255] = RawObject { number: 10, role: 0, epoch: 1, currency: 978, named: 1 };
    ledger.manifest_count = 2;
    let mut names = vec![0; NAMES];
    ledger.manifests[1] =
        RawManifest { number: 5, writer: 3, compactor: 2, length: 0, names: names.clone() };
    names[0] = 10;
    ledger.manifests[0] = RawManifest { number: 2, writer: 1, compactor: 1, length: 1, names };
    ledger.hold_count = 2;
    ledger.holds[0] = RawHold { number: 7, manifest: 2, expiry: 100 };
    ledger.holds[1] = RawHold { number: 9, manifest: 2, expiry: 0 };
    ledger
}

#[test]
fn the_fresh_ledger_s_image() {
    let fresh = raw(&Ledger::fresh());
    assert_eq!(write(&fresh), Some(bytes(FRESH)));
    assert_eq!(read(&bytes(FRESH)), Ok(fresh));
}

/// Holes keep their places, and an object that no list has its mark.
#[test]
fn a_ledger_with_holes() {
    assert_eq!(write(&sample()), Some(bytes(SAMPLE)));
    assert_eq!(read(&bytes(SAMPLE)), Ok(sample()));
    let mut marked = sample();
    marked.objects[3].named = 1;
    let image = write(&marked).unwrap();
    assert_ne!(image, bytes(SAMPLE));
    assert_eq!(read(&image), Ok(marked));
}

#[test]
fn the_longest_image() {
    let full = raw(&measured::full(Limits::NOW, [756, 978]));
    let image = write(&full).unwrap();
    assert_eq!(image.len(), LONGEST_IMAGE);
    assert_eq!(image[..3], [0x60, 0x2B, 0xE5]);
    assert_eq!(read(&image), Ok(full));
}

#[test]
fn no_unsound_ledger_is_written() {
    for change in [
        |raw: &mut Raw| raw.clock = 101,
        |raw: &mut Raw| raw.occupancy[0] = 0,
        |raw: &mut Raw| raw.objects[3].role = 7,
        |raw: &mut Raw| raw.objects[3].currency = 66_514,
        |raw: &mut Raw| raw.objects[3].named = 256,
        |raw: &mut Raw| raw.objects[4].epoch = 1,
        |raw: &mut Raw| raw.manifests[1].names[0] = 10,
        |raw: &mut Raw| raw.manifests[8].number = 9,
        |raw: &mut Raw| raw.holds[7].expiry = 100,
        |raw: &mut Raw| raw.manifest_count = u64::MAX,
        |raw: &mut Raw| raw.hold_count = u64::MAX,
        |raw: &mut Raw| raw.manifests[0].length = u64::MAX,
    ] {
        let mut ledger = sample();
        change(&mut ledger);
        assert_eq!(write(&ledger), None, "{ledger:?}");
    }
}

/// What the sample's image with other fields is refused with.
#[track_caller]
fn refused(expected: Refused, change: impl Fn(&mut Fields)) {
    let mut fields = split(&bytes(SAMPLE));
    change(&mut fields);
    assert_eq!(read(&joined(&fields)), Err(expected));
}

/// The sample's fields: edition, clock, highest number collected, two objects,
/// two manifests, two holds.
const ONE: usize = 3;
const TWO: usize = 4;
const OLD: usize = 5;
const NOW: usize = 6;
const HELD: usize = 7;

#[test]
fn the_outer_field() {
    let image = bytes(SAMPLE);
    for end in 0..image.len() {
        assert_eq!(read(&image[..end]), Err(Malformed), "cut at {end}");
    }
    assert_eq!(read(&[&image[..], &[0]].concat()), Err(Malformed));
    assert_eq!(read(&[&image[..], &image].concat()), Err(Malformed));
    for (place, value) in [(0, 0x61), (0, 0), (1, 1), (2, 0xBD), (2, 0xBF)] {
        let mut other = image.clone();
        other[place] = value;
        assert_eq!(read(&other), Err(Malformed), "byte {place} is {value}");
    }
    assert_eq!(read(&[OUTER, 0, 0]), Err(Malformed));
}

#[test]
fn fields_that_are_missing_doubled_or_out_of_order() {
    for head in 0..ONE {
        refused(Malformed, |fields| drop(fields.remove(head)));
        refused(Malformed, |fields| fields.insert(head, fields[head].clone()));
        refused(Malformed, |fields| fields.swap(head, head + 1));
    }
    for (one, two) in [(TWO, OLD), (NOW, HELD), (ONE, HELD), (2, OLD)] {
        refused(Malformed, |fields| fields.swap(one, two));
    }
    for tag in [0x00, 0x5F, OUTER, EDITION, 0x67, 0xFF] {
        refused(Malformed, |fields| fields[HELD].0 = tag);
        refused(Malformed, |fields| fields.push((tag, vec![])));
    }
    // A doubled object has the same place; other doubled entries don't rise.
    refused(Malformed, |fields| fields.insert(ONE, fields[ONE].clone()));
    refused(Unsound, |fields| fields.insert(OLD, fields[OLD].clone()));
    refused(Unsound, |fields| fields.insert(HELD, fields[HELD].clone()));
    refused(Unsound, |fields| fields.swap(OLD, NOW));
    refused(Unsound, |fields| fields.swap(HELD, HELD + 1));
}

#[test]
fn inner_lengths() {
    for place in 0..=HELD {
        for length in [0, 1, 7, 8, 9, 20, 21, 22, 23, 24, 25, 31, 33] {
            let right = match place {
                0 => length == 1,
                1 | 2 => length == 8,
                ONE | TWO => length == 21,
                OLD | NOW => length == 24,
                _ => length == 24,
            };
            if !right {
                refused(Malformed, |fields| fields[place].1.resize(length, 0));
            }
        }
    }
    // A list of a name more has the form, and so has none.
    refused(Unsound, |fields| fields[NOW].1.extend([0; 8]));
    let mut fields = split(&bytes(SAMPLE));
    fields[OLD].1.truncate(24);
    assert!(read(&joined(&fields)).is_ok());
}

#[test]
fn values_of_the_form() {
    for edition in [0, 2, 255] {
        refused(Malformed, |fields| fields[0].1 = vec![edition]);
    }
    for value in [2, 255] {
        refused(Malformed, |fields| fields[ONE].1[9] = value);
        refused(Malformed, |fields| fields[ONE].1[20] = value);
    }
    refused(Malformed, |fields| fields[TWO].1[0] = 3);
    refused(Malformed, |fields| fields[TWO].1[0] = 2);
    refused(Malformed, |fields| fields.swap(ONE, TWO));
}

#[test]
fn values_of_soundness() {
    refused(Unsound, |fields| fields[1].1[7] = 101);
    refused(Unsound, |fields| fields[ONE].1[18..20].copy_from_slice(&[0x03, 0xE8]));
    refused(Unsound, |fields| fields[ONE].1[18..20].copy_from_slice(&[0xFF, 0xFF]));
    for entry in [ONE, TWO] {
        refused(Unsound, |fields| fields[entry].1[1..9].fill(0));
        refused(Unsound, |fields| fields[entry].1[10..18].fill(0));
    }
    // Two objects of one number, a listed one that is not marked, or not stored.
    refused(Unsound, |fields| fields[ONE].1[8] = 10);
    refused(Unsound, |fields| fields[TWO].1[20] = 0);
    refused(Unsound, |fields| fields[TWO].1[8] = 11);
    refused(Unsound, |fields| fields[OLD].1[24..].fill(0));
    refused(Unsound, |fields| fields[OLD].1.extend(10_u64.to_be_bytes()));
    refused(Unsound, |fields| fields[HELD].1[..8].fill(0));
    refused(Unsound, |fields| fields[HELD].1[15] = 3);
    refused(Unsound, |fields| fields[HELD].1[23] = 99);
    refused(Unsound, |fields| drop(fields.drain(OLD..=NOW)));
    refused(Unsound, |fields| drop(fields.drain(HELD..)));
}

/// An entry that is all zero takes its place, and is no object.
#[test]
fn entries_that_are_all_zero() {
    for place in [0_u8, 2] {
        let mut value = vec![0; OBJECT_VALUE];
        value[0] = place;
        refused(Unsound, |fields| fields.insert(ONE, (OBJECT, value.clone())));
    }
    refused(Unsound, |fields| fields[ONE].1[1..].fill(0));
    refused(Unsound, |fields| fields.insert(OLD, (MANIFEST, vec![0; MANIFEST_VALUE])));
    refused(Unsound, |fields| fields.insert(HELD, (HOLD, vec![0; HOLD_VALUE])));
    let mut fields = split(&bytes(FRESH));
    fields.insert(ONE, (OBJECT, vec![0; OBJECT_VALUE]));
    assert_eq!(read(&joined(&fields)), Err(Unsound));
}

#[test]
fn as_many_entries_as_places_and_one_more() {
    let zero = |length: usize| vec![0; length];
    for (tag, at, has, most) in [(MANIFEST, OLD, 2, MANIFESTS), (HOLD, HELD, 2, HOLDS)] {
        for (expected, entries) in [(Unsound, most), (Malformed, most + 1)] {
            refused(expected, |fields| {
                let more = std::iter::repeat_n((tag, zero(24)), entries - has);
                fields.splice(at..at, more);
            });
        }
    }
    refused(Unsound, |fields| fields[OLD].1.resize(MANIFEST_VALUE + NAME * NAMES, 0));
    refused(Malformed, |fields| fields[OLD].1.resize(MANIFEST_VALUE + NAME * (NAMES + 1), 0));
    // As many objects as places; a further one has no place above.
    let all = |fields: &mut Fields| {
        let object = |place: usize| (OBJECT, [&[place as u8], &zero(20)[..]].concat());
        fields.splice(ONE..=TWO, (0..PLACES).map(object));
    };
    refused(Unsound, all);
    refused(Malformed, |fields| {
        all(fields);
        let last = fields[ONE + PLACES - 1].clone();
        fields.insert(ONE + PLACES, last);
    });
}

#[test]
fn the_whole_form_goes_before_soundness() {
    let unsound = |fields: &mut Fields| fields[ONE].1[1..9].fill(0);
    refused(Unsound, unsound);
    refused(Malformed, |fields| {
        unsound(fields);
        fields[HELD].1.push(0);
    });
    refused(Malformed, |fields| {
        unsound(fields);
        fields.push((HOLD, vec![]));
    });
    let mut fields = split(&bytes(SAMPLE));
    unsound(&mut fields);
    let image = joined(&fields);
    assert_eq!(read(&image[..image.len() - 1]), Err(Malformed));
    assert_eq!(read(&[&image[..], &[0]].concat()), Err(Malformed));
}
