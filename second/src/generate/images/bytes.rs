//! Images damaged byte by byte, whatever the bytes say.

use super::Sort;
use crate::generate::with_length;
use crate::image::OUTER;
use crate::limits::HEADER;
use crate::random::Random;

pub fn of_sort(random: &mut Random, sort: Sort, image: &[u8]) -> Vec<u8> {
    let mut bytes = image.to_vec();
    match sort {
        Sort::ByteChanged => change(random, &mut bytes),
        Sort::Cut => bytes.truncate(random.index(image.len())),
        Sort::CutMended => return cut_mended(random, bytes),
        // At times by as much as no length can tell.
        Sort::Lengthened if random.once_in(100) => bytes.resize(image.len() + 0x1_0000, 0),
        Sort::Lengthened => bytes.extend(more(random)),
        Sort::LengthenedMended => {
            bytes.extend(more(random));
            return with_length(&bytes);
        }
        Sort::OuterTag => bytes[0] = other(random, &[0x10, 0x40, 0x50, 0x61, 0xE0], OUTER),
        Sort::OuterLength => outer_length(random, &mut bytes),
        Sort::InnerLength => inner_length(random, &mut bytes),
        Sort::Short => return short(random),
        _ => bytes.iter_mut().skip(HEADER).for_each(|byte| *byte = random.any() as u8),
    }
    bytes
}

/// One of these or any byte, but not the one that is right.
fn other(random: &mut Random, bytes: &[u8], right: u8) -> u8 {
    let byte = if random.once_in(2) { random.pick(bytes) } else { random.any() as u8 };
    if byte == right {
        !right
    } else {
        byte
    }
}

/// Where the fields begin.
fn starts(image: &[u8]) -> Vec<usize> {
    let (mut starts, mut at) = (Vec::new(), HEADER);
    while at < image.len() {
        starts.push(at);
        let length = u16::from_be_bytes([image[at + 1], image[at + 2]]);
        at += HEADER + usize::from(length);
    }
    starts
}

fn change(random: &mut Random, bytes: &mut [u8]) {
    let start = random.pick(&starts(bytes));
    // Every byte, and more often one of the few behind a field's start.
    let place = match random.below(2) {
        0 => random.index(bytes.len()),
        _ => (start + random.index(HEADER + 8)).min(bytes.len() - 1),
    };
    match random.below(3) {
        0 => bytes[place] = other(random, &[0, 1, 2, 255], bytes[place]),
        _ => bytes[place] ^= 1 << random.below(8),
    }
}

/// Often between two fields.
fn cut_mended(random: &mut Random, mut bytes: Vec<u8>) -> Vec<u8> {
    let starts = starts(&bytes);
    let end = match random.below(3) {
        0 => random.index(bytes.len()),
        // The last fields are of most interest: without some of the holds a
        // ledger may be sound.
        1 => starts[starts.len() - 1 - random.index(starts.len().min(4))],
        _ => random.pick(&starts),
    };
    bytes.truncate(end);
    with_length(&bytes)
}

/// Fewer bytes than any entry has, or those of an empty one under another tag.
fn more(random: &mut Random) -> Vec<u8> {
    match random.below(3) {
        0 => vec![0; 1 + random.index(20)],
        1 => vec![random.any() as u8],
        _ => [&[0x67, 0, 24], [0; 24].as_slice()].concat(),
    }
}

fn outer_length(random: &mut Random, bytes: &mut [u8]) {
    let length = u16::from_be_bytes([bytes[1], bytes[2]]);
    let near = length.wrapping_add(random.pick(&[1, 2, 3, 8, 27]));
    let below = length.wrapping_sub(random.pick(&[1, 2, 3, 8, 27]));
    let turned = length.swap_bytes();
    let other = random.pick(&[near, below, turned, 0, u16::MAX]);
    let other = if other == length { !length } else { other };
    bytes[1..HEADER].copy_from_slice(&other.to_be_bytes());
}

/// An inner length that its bytes do not agree with, off by one or by eight.
fn inner_length(random: &mut Random, bytes: &mut [u8]) {
    let at = random.pick(&starts(bytes)) + 1;
    let length = u16::from_be_bytes([bytes[at], bytes[at + 1]]);
    let other = match random.below(6) {
        0 => length + 1,
        1 => length - 1,
        2 => length + 8,
        3 => length.wrapping_sub(8),
        4 => length ^ 0x8000,
        _ => length.swap_bytes(),
    };
    bytes[at..at + 2].copy_from_slice(&other.to_be_bytes());
}

/// At most a header and a few bytes, the length at times true.
fn short(random: &mut Random) -> Vec<u8> {
    let length = random.below(6) as u8;
    let mut bytes = vec![OUTER, 0, length];
    bytes.extend([0x61, 0, 1, 1, 0x62].into_iter().take(length.into()));
    bytes.truncate(random.index(bytes.len() + 1));
    bytes
}
