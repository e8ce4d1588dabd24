//! Comparison of two image codecs, given as functions: document 02, request 6.
//!
//! Both sides keep the calling convention of the proved library's C calls: a
//! ledger is `LEDGER` numbers, of which also those beyond and beside them are
//! compared, as are the bytes beyond and beside an image.

pub mod loads;

use std::collections::BTreeMap;
use std::fmt::Display;

use crate::compare::ledgers::{fresh, ledger_numbers, raw_of, LEDGER};
use crate::compare::records::lent;
use crate::compare::{count, Answers, MARGIN};
use crate::generate::images::ledgers::Damage;
use crate::generate::images::{Sort, Source};
use crate::image;
use crate::limits::LONGEST_IMAGE;
use crate::random::Random;

/// The answers where an image is read, and where the room is short; where a
/// ledger is not sound, where the form is broken, and where too few numbers are
/// lent.
pub const READ: u64 = 0;
pub const FULL: u64 = 0;
pub const UNSOUND: u64 = 1;
pub const MALFORMED: u64 = 2;
pub const SHORT: u64 = 3;

/// Lengths of a ledger's slice around the least that is asked for.
const SIZES: [usize; 10] =
    [0, 1, 2, 3, LEDGER - 2, LEDGER - 1, LEDGER, LEDGER + 1, LEDGER + 2, LEDGER + 9];

/// 0 with the ledger's numbers over the start; 1 or 2 refused, with the fresh
/// ledger's; 3 where too few are lent.
pub fn read_image(bytes: &[u8], ledger: &mut [u64]) -> u64 {
    let Some(room) = ledger.get_mut(..LEDGER) else {
        return SHORT;
    };
    match image::read(bytes) {
        Ok(raw) => {
            room.copy_from_slice(&ledger_numbers(&raw));
            READ
        }
        Err(refused) => {
            fresh(room);
            refused.code()
        }
    }
}

/// The length written; 1 for a ledger that is not sound; 0 where the room is
/// short; 3 where too few numbers are lent.
pub fn write_image(ledger: &[u64], out: &mut [u8]) -> u64 {
    let Some(numbers) = ledger.get(..LEDGER) else {
        return SHORT;
    };
    let Some(bytes) = image::write(&raw_of(numbers)) else {
        return UNSOUND;
    };
    match out.get_mut(..bytes.len()) {
        None => FULL,
        Some(room) => {
            room.copy_from_slice(&bytes);
            bytes.len() as u64
        }
    }
}

pub type ReadCall = fn(&[u8], &mut [u64]) -> u64;
pub type WriteCall = fn(&[u64], &mut [u8]) -> u64;

/// One side's calls.
#[derive(Clone, Copy)]
pub struct Calls {
    pub read: ReadCall,
    pub write: WriteCall,
}

pub const SECOND: Calls = Calls { read: read_image, write: write_image };

/// The length of what was written; `None` where nothing was.
fn length(answer: u64) -> Option<usize> {
    (![FULL, UNSOUND, SHORT].contains(&answer)).then_some(answer as usize)
}

/// How much room a sound ledger's image was lent beside what it needs.
#[derive(Debug, Clone, Copy, PartialEq, Eq, PartialOrd, Ord)]
pub enum Room {
    None,
    Less,
    OneLess,
    Exact,
    More,
}

impl Room {
    fn of(room: usize, length: usize) -> Self {
        match room {
            0 => Room::None,
            _ if room + 1 == length => Room::OneLess,
            _ if room < length => Room::Less,
            _ if room == length => Room::Exact,
            _ => Room::More,
        }
    }
}

/// What was written, and in which room.
#[derive(Debug, Clone, Default)]
pub struct Writes {
    pub ledgers: usize,
    /// Where there is room for every image, by how the ledger was made: the
    /// answer 1 or 3, and `None` for a length.
    pub damages: BTreeMap<(Damage, Option<u64>), usize>,
    /// Written images by their length.
    pub lengths: Answers,
    pub rooms: BTreeMap<Room, usize>,
}

/// Compares two writers on so many ledgers, each in room enough and in another;
/// the error describes the first difference.
pub fn compare_writes(
    random: &mut Random,
    source: &mut Source,
    ledgers: usize,
    first: WriteCall,
    second: WriteCall,
) -> Result<Writes, String> {
    let mut counts = Writes::default();
    for _ in 0..ledgers {
        let (damage, mut numbers) = source.numbers(random);
        if random.once_in(40) {
            numbers.resize(lent(random, LEDGER), random.any());
        }
        let room = LONGEST_IMAGE + random.index(3);
        let (answer, _) = compare_write(random, &numbers, room, first, second)
            .map_err(|difference| format!("{damage:?}: {difference}"))?;
        counts.ledgers += 1;
        let written = length(answer);
        let told = if written.is_some() { None } else { Some(answer) };
        *counts.damages.entry((damage, told)).or_default() += 1;
        let room = match written {
            None => random.pick(&[0, 1, 55, 56]),
            Some(length) => {
                count(&mut counts.lengths, answer);
                let less = random.index(length);
                random.pick(&[0, less, length - 1, length - 1, length, length + 1, length + 9])
            }
        };
        compare_write(random, &numbers, room, first, second)
            .map_err(|difference| format!("{damage:?}: {difference}"))?;
        if let Some(length) = written {
            *counts.rooms.entry(Room::of(room, length)).or_default() += 1;
        }
    }
    Ok(counts)
}

/// The answer and the bytes written.
fn compare_write(
    random: &mut Random,
    numbers: &[u64],
    room: usize,
    first: WriteCall,
    second: WriteCall,
) -> Result<(u64, Vec<u8>), String> {
    let pattern = random.any() as u8;
    let call = |write: WriteCall| {
        let mut bytes = vec![pattern; room + 2 * MARGIN];
        let answer = write(numbers, &mut bytes[MARGIN..MARGIN + room]);
        (answer, bytes)
    };
    let (one, other) = (call(first), call(second));
    if one != other {
        return Err(format!(
            "written in {room} bytes filled with {pattern}: first {}, second {}{}\n\
             ledger {numbers:?}",
            one.0,
            other.0,
            differences(&one.1, &other.1)
        ));
    }
    let length = length(one.0).unwrap_or(0).min(room);
    Ok((one.0, one.1[MARGIN..MARGIN + length].to_vec()))
}

/// The first places in which what the sides left differs, margins too.
fn differences<T: PartialEq + Display>(one: &[T], other: &[T]) -> String {
    let places = one.iter().zip(other).enumerate();
    let different = places.filter(|(_, (one, other))| one != other).take(8);
    let told = different.map(|(place, (one, other))| {
        format!("; [{}] first {one}, second {other}", place as i64 - MARGIN as i64)
    });
    told.collect()
}

/// What was read.
#[derive(Debug, Clone, Default)]
pub struct Reads {
    pub images: usize,
    pub answers: Answers,
    /// By how the image was made, and by the answer.
    pub sorts: BTreeMap<(Sort, u64), usize>,
}

/// Compares two readers on so many images, and checks that what is read is
/// written as it was: a ledger has one image. The error describes the first
/// difference.
pub fn compare_reads(
    random: &mut Random,
    source: &mut Source,
    images: usize,
    first: Calls,
    second: Calls,
) -> Result<Reads, String> {
    let mut counts = Reads::default();
    for _ in 0..images {
        let (sort, image) = source.image(random);
        let size = if random.once_in(40) { lent(random, LEDGER) } else { LEDGER };
        let (answer, numbers) = compare_read(random, &image, size, first.read, second.read)
            .map_err(|difference| format!("{sort:?}: {difference}"))?;
        counts.images += 1;
        count(&mut counts.answers, answer);
        *counts.sorts.entry((sort, answer)).or_default() += 1;
        if answer == READ {
            let room = image.len() + random.index(3);
            let (_, written) = compare_write(random, &numbers, room, first.write, second.write)?;
            if written != image {
                return Err(format!("{image:02X?} was read, and written as {written:02X?}"));
            }
        }
    }
    Ok(counts)
}

/// The answer and the numbers lent.
fn compare_read(
    random: &mut Random,
    image: &[u8],
    size: usize,
    first: ReadCall,
    second: ReadCall,
) -> Result<(u64, Vec<u64>), String> {
    let pattern = random.any();
    let call = |read: ReadCall| {
        let mut numbers = vec![pattern; size + 2 * MARGIN];
        let answer = read(image, &mut numbers[MARGIN..MARGIN + size]);
        (answer, numbers)
    };
    let (one, other) = (call(first), call(second));
    if one != other {
        return Err(format!(
            "read into {size} numbers filled with {pattern}: first {}, second {}{}\n\
             image {image:02X?}",
            one.0,
            other.0,
            differences(&one.1, &other.1)
        ));
    }
    Ok((one.0, one.1[MARGIN..MARGIN + size].to_vec()))
}

/// Sound ledgers written by one side and read by the other, both ways; how
/// many bytes there were. The error describes the first difference.
pub fn compare_rounds(
    random: &mut Random,
    source: &mut Source,
    ledgers: usize,
    first: Calls,
    second: Calls,
) -> Result<usize, String> {
    let mut bytes = 0;
    for _ in 0..ledgers {
        let numbers = ledger_numbers(&source.ledger(random));
        let (one, other) =
            (round(random, &numbers, first, second)?, round(random, &numbers, second, first)?);
        if one != other {
            return Err(format!("first {one:02X?}, second {other:02X?}\nledger {numbers:?}"));
        }
        bytes += one.len();
    }
    Ok(bytes)
}

/// The image, which is read as the same ledger.
fn round(
    random: &mut Random,
    numbers: &[u64],
    writer: Calls,
    reader: Calls,
) -> Result<Vec<u8>, String> {
    let (mut image, mut ledger) = (vec![0; LONGEST_IMAGE], vec![random.any(); LEDGER]);
    let answer = (writer.write)(numbers, &mut image);
    let Some(length) = length(answer).filter(|length| *length <= LONGEST_IMAGE) else {
        return Err(format!("a sound ledger is answered {answer}: {numbers:?}"));
    };
    image.truncate(length);
    let answer = (reader.read)(&image, &mut ledger);
    if (answer, &ledger[..]) != (READ, numbers) {
        return Err(format!(
            "{image:02X?} of {numbers:?} is answered {answer} and read as {ledger:?}"
        ));
    }
    Ok(image)
}

/// Compares two sides on ledgers that are sound and not, and on images of every
/// answer, in slices of lengths around those that are asked for.
pub fn compare_lent(
    random: &mut Random,
    source: &mut Source,
    first: Calls,
    second: Calls,
) -> Result<Answers, String> {
    let mut answers = Answers::new();
    for _ in 0..40 {
        let (_, numbers) = source.numbers(random);
        let image = image::write(&raw_of(&numbers)).unwrap_or_default();
        let exact = image.len();
        for size in SIZES {
            let mut ledger = numbers.clone();
            ledger.resize(size, random.any());
            for room in [0, 1, 2, 3, exact.saturating_sub(1), exact, exact + 1, exact + 9] {
                let (answer, _) = compare_write(random, &ledger, room, first.write, second.write)?;
                count(&mut answers, answer.min(SHORT + 1));
            }
            let (_, damaged) = source.image(random);
            let starts = (0..=4).map(|end| &image[..exact.min(end)]);
            for bytes in starts.chain([&image[..], &damaged]) {
                let (answer, _) = compare_read(random, bytes, size, first.read, second.read)?;
                count(&mut answers, answer);
            }
        }
    }
    Ok(answers)
}

#[cfg(test)]
mod tests;
