//! Records with the fields of a step or a verdict, whose values may be any,
//! so that each condition on a value is met and missed: document 01, row 2 of
//! "When a step is turned away" and "Records and names".

use crate::generate::{number, with_length};
use crate::limits::{NAMES, PLACES};
use crate::random::Random;
use crate::records::field;

/// The outer tag of each kind and the tags of its fields.
const STEPS: [(u8, &[u8]); 10] = [
    (0x10, &[0x01, 0x02, 0x04]),
    (0x11, &[0x01, 0x02, 0x03, 0x05, 0x06]),
    (0x12, &[0x01, 0x03, 0x04, 0x07]),
    (0x13, &[0x01, 0x03, 0x04, 0x05]),
    (0x14, &[0x01, 0x08, 0x09, 0x0A]),
    (0x15, &[0x01, 0x08, 0x0A]),
    (0x16, &[0x01, 0x08]),
    (0x17, &[0x01, 0x08]),
    (0x18, &[0x01, 0x06, 0x08]),
    (0x19, &[0x01]),
];
const VERDICTS: [(u8, &[u8]); 5] = [
    (0x40, &[0x00]),
    (0x40, &[0x00, 0x03]),
    (0x40, &[0x00, 0x07, 0x09]),
    (0x40, &[0x00, 0x05]),
    (0x40, &[0x00, 0x07]),
];

/// A step's fields with any values.
pub fn step(random: &mut Random) -> Vec<u8> {
    let (tag, fields) = random.pick(&STEPS);
    record(random, tag, fields, NAMES)
}

/// A verdict's fields with any values.
pub fn verdict(random: &mut Random) -> Vec<u8> {
    let (tag, fields) = random.pick(&VERDICTS);
    let longest = random.pick(&[NAMES, PLACES]);
    record(random, tag, fields, longest)
}

/// A COMMIT of these values, whether a reader takes its list or not.
pub fn commit(time: u64, epoch: u64, slot: u64, list: &[u64]) -> Vec<u8> {
    let numbers = [(0x01, time), (0x03, epoch), (0x04, slot)];
    let numbers = numbers.map(|(tag, value)| field(tag, &value.to_be_bytes()));
    let names: Vec<u8> = list.iter().flat_map(|name| name.to_be_bytes()).collect();
    field(0x12, &[numbers.concat(), field(0x07, &names)].concat())
}

/// At times a field is missing, stands twice, or stands in another place.
fn record(random: &mut Random, tag: u8, fields: &[u8], longest: usize) -> Vec<u8> {
    let mut tags = fields.to_vec();
    let place = random.index(tags.len());
    match random.below(30) {
        0 => {
            tags.remove(place);
        }
        1 => tags.insert(place, tags[place]),
        2 => tags.rotate_left(place),
        3 => tags.push(random.below(0x0C) as u8),
        _ => (),
    }
    let mut bytes = vec![tag, 0, 0];
    for tag in tags {
        let value = value(random, tag, longest);
        bytes.push(tag);
        bytes.extend((value.len() as u16).to_be_bytes());
        bytes.extend(value);
    }
    with_length(&bytes)
}

/// At times one byte too short or too long.
fn value(random: &mut Random, tag: u8, longest: usize) -> Vec<u8> {
    let mut value = match tag {
        0x00 => vec![random.pick(&[0, 0, 0, 0, 0, 1, 16, 17, 18, 255])],
        0x02 => vec![random.pick(&[0, 0, 0, 1, 1, 1, 2, 255])],
        0x06 => currency(random).to_be_bytes().to_vec(),
        0x07 => list(random, longest).iter().flat_map(|name| name.to_be_bytes()).collect(),
        // Small, so that an expiry is often one below, at or above the time.
        0x01 | 0x0A if random.once_in(2) => random.below(4).to_be_bytes().to_vec(),
        _ => number(random).to_be_bytes().to_vec(),
    };
    if random.once_in(100) {
        value.pop();
    }
    if random.once_in(100) {
        value.push(random.any() as u8);
    }
    value
}

fn currency(random: &mut Random) -> u16 {
    match random.below(3) {
        0 => random.any() as u16,
        1 => random.below(1000) as u16,
        _ => random.pick(&[0, 1, 978, 999, 1000, u16::MAX]),
    }
}

/// A rising list around the longest allowed or of any length below, at times
/// with one number replaced.
fn list(random: &mut Random, longest: usize) -> Vec<u64> {
    let length = match random.below(2) {
        0 => random.index(longest),
        _ => longest - 1 + random.index(3),
    };
    let first = random.below(2) + 1;
    let mut list: Vec<u64> = (first..).step_by(1 + random.index(3)).take(length).collect();
    if random.once_in(4) && !list.is_empty() {
        let place = random.index(list.len());
        list[place] = number(random);
    }
    list
}

#[cfg(test)]
mod tests {
    use super::*;
    use crate::records::{read_step, read_verdict};

    #[test]
    fn both_well_formed_and_malformed_records_are_generated() {
        let mut random = Random::new(1);
        let mut taken = [0; 2];
        for _ in 0..20_000 {
            taken[0] += usize::from(read_step(&step(&mut random)).is_some());
            taken[1] += usize::from(read_verdict(&verdict(&mut random)).is_some());
        }
        assert!(taken.iter().all(|times| (2000..18_000).contains(times)), "{taken:?}");
    }
}
