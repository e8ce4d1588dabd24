//! Comparison of two name codecs, given as closures: document 01, the
//! paragraph that begins "A manifest's name is", with the folders of document
//! 02, request 5.
//!
//! Both sides keep the calling convention of the proved library's C calls,
//! so that also what a refusal leaves untouched is compared.

pub mod compaction;
pub mod desk;
pub mod images;
pub mod ledgers;
pub mod listing;
pub mod logs;
pub mod records;
pub mod sides;
pub mod struck;
pub mod traces;

use std::collections::BTreeMap;

use crate::generate::names;
use crate::names::{read, write, Name};
use crate::random::Random;

/// How often each answer was given.
pub type Answers = BTreeMap<u64, usize>;

fn count(answers: &mut Answers, answer: u64) {
    *answers.entry(answer).or_default() += 1;
}

fn add(sum: &mut Answers, other: Answers) {
    for (answer, times) in other {
        *sum.entry(answer).or_default() += times;
    }
}

/// Bytes or numbers on either side of the lent ones, which no call may touch.
const MARGIN: usize = 8;
/// Some bytes more than the longest name, which has 38.
const LONGEST_ROOM: usize = 48;

/// 0 a manifest, 1 an object, with its number in the first place lent; 2
/// malformed; 3 where no place is lent.
pub fn read_name(name: &[u8], number: &mut [u64]) -> u64 {
    let Some(place) = number.first_mut() else {
        return 3;
    };
    let (answer, value) = match read(name) {
        None => return 2,
        Some(Name::Manifest(value)) => (0, value),
        Some(Name::Object(value)) => (1, value),
    };
    *place = value;
    answer
}

/// The count written; 2 for what no reader takes; 0 where the room is short.
pub fn write_name(kind: u64, value: u64, out: &mut [u8]) -> u64 {
    let written = match kind {
        0 => write(Name::Manifest(value)),
        1 => write(Name::Object(value)),
        _ => None,
    };
    let Some(name) = written else {
        return 2;
    };
    match out.get_mut(..name.len()) {
        None => 0,
        Some(room) => {
            room.copy_from_slice(&name);
            name.len() as u64
        }
    }
}

/// Compares two readers on the fixed names and on `count` random ones; the
/// error describes the first difference.
pub fn compare_reads(
    random: &mut Random,
    count: usize,
    first: impl Fn(&[u8], &mut [u64]) -> u64,
    second: impl Fn(&[u8], &mut [u64]) -> u64,
) -> Result<Answers, String> {
    let mut answers = Answers::new();
    let fixed = names::fixed();
    for index in 0..fixed.len() + count {
        let name = match fixed.get(index) {
            Some(name) => name.clone(),
            None => names::random(random),
        };
        let lent = random.pick(&[0, 1, 1, 1, 2, 5]);
        let pattern = random.any();
        let call = |side: &dyn Fn(&[u8], &mut [u64]) -> u64| {
            let mut numbers = vec![pattern; lent + 2 * MARGIN];
            let answer = side(&name, &mut numbers[MARGIN..MARGIN + lent]);
            (answer, numbers)
        };
        let (one, other) = (call(&first), call(&second));
        if one != other {
            return Err(format!(
                "name {name:02X?} ({}), {lent} numbers filled with {pattern}: \
                 first {one:?}, second {other:?}",
                name.escape_ascii()
            ));
        }
        *answers.entry(one.0).or_default() += 1;
    }
    Ok(answers)
}

/// Compares two writers on the edge values and on `count` random ones, each
/// with several kinds and every room up to 48; the error describes the first
/// difference.
pub fn compare_writes(
    random: &mut Random,
    count: usize,
    first: impl Fn(u64, u64, &mut [u8]) -> u64,
    second: impl Fn(u64, u64, &mut [u8]) -> u64,
) -> Result<Answers, String> {
    let mut answers = Answers::new();
    let mut values = names::edge_values();
    values.extend((0..count).map(|_| random.magnitude()));
    for value in values {
        for kind in [0, 1, 2, 3, random.any(), random.magnitude()] {
            for room in 0..=LONGEST_ROOM {
                let pattern = random.any() as u8;
                let call = |side: &dyn Fn(u64, u64, &mut [u8]) -> u64| {
                    let mut bytes = vec![pattern; room + 2 * MARGIN];
                    let answer = side(kind, value, &mut bytes[MARGIN..MARGIN + room]);
                    (answer, bytes)
                };
                let (one, other) = (call(&first), call(&second));
                if one != other {
                    return Err(format!(
                        "kind {kind}, value {value}, room {room} filled with {pattern:02X}: \
                         first {one:02X?}, second {other:02X?}"
                    ));
                }
                *answers.entry(one.0).or_default() += 1;
            }
        }
    }
    Ok(answers)
}

#[cfg(test)]
mod tests {
    use super::*;

    #[test]
    fn a_side_agrees_with_itself_and_gives_every_answer() {
        let reads = compare_reads(&mut Random::new(5), 20_000, read_name, read_name).unwrap();
        assert_eq!(reads.keys().copied().collect::<Vec<_>>(), [0, 1, 2, 3]);
        let writes = compare_writes(&mut Random::new(6), 20, write_name, write_name).unwrap();
        assert_eq!(writes.keys().copied().collect::<Vec<_>>(), [0, 2, 28, 38]);
    }

    /// Each wrong reader differs from the right one in one respect only.
    #[test]
    fn wrong_readers_are_reported() {
        type Reader = fn(&[u8], &mut [u64]) -> u64;
        let wrong: [Reader; 9] = [
            |_, _| 2,
            |name, number| match name {
                b"wal/00000000000000000000.sst" if !number.is_empty() => 1,
                _ => read_name(name, number),
            },
            |name, number| match name {
                // One above the largest value, taken modulo 2^64.
                b"manifest/18446744073709551616.manifest" if !number.is_empty() => {
                    number[0] = 0;
                    0
                }
                _ => read_name(name, number),
            },
            |name, number| {
                let answer = read_name(name, number);
                if answer == 2 && !number.is_empty() {
                    number[0] = 0;
                }
                answer
            },
            |name, number| {
                let answer = read_name(name, number);
                number.iter_mut().skip(1).for_each(|place| *place = 0);
                answer
            },
            // A bare name is taken; a crossed folder, which names the kind.
            |name, number| match name.len() {
                24 => read_name(&[b"wal/".as_slice(), name].concat(), number),
                _ => read_name(name, number),
            },
            |name, number| match name.strip_prefix(b"manifest/") {
                Some(rest) if rest.ends_with(b".sst") => {
                    let digits = &rest[..rest.len() - 4];
                    read_name(&[b"manifest/".as_slice(), digits, b".manifest"].concat(), number)
                }
                _ => read_name(name, number),
            },
            // The folder's case, or its last byte, plays no part.
            |name, number| match name.strip_prefix(b"WAL/") {
                Some(rest) => read_name(&[b"wal/".as_slice(), rest].concat(), number),
                None => read_name(name, number),
            },
            |name, number| match name.split_at_checked(9) {
                Some((b"manifest\\", rest)) => {
                    read_name(&[b"manifest/".as_slice(), rest].concat(), number)
                }
                _ => read_name(name, number),
            },
        ];
        for (index, side) in wrong.into_iter().enumerate() {
            let result = compare_reads(&mut Random::new(7), 20_000, side, read_name);
            let message = result.expect_err(&format!("reader {index} is wrong"));
            assert!(message.contains("first") && message.contains("second"));
        }
    }

    #[test]
    fn wrong_writers_are_reported() {
        type Writer = fn(u64, u64, &mut [u8]) -> u64;
        let wrong: [Writer; 6] = [
            |_, _, _| 2,
            // The bare name.
            |kind, value, out| {
                let answer = write_name(kind, value, out);
                match answer {
                    28 => out.copy_within(4..28, 0),
                    38 => out.copy_within(9..38, 0),
                    _ => {}
                }
                answer
            },
            // "Room is short" before 2.
            |kind, value, out| match write_name(kind, value, out) {
                2 if out.is_empty() => 0,
                answer => answer,
            },
            |kind, value, out| {
                let answer = write_name(kind, value, out);
                if answer == 0 {
                    out.fill(b'0');
                }
                answer
            },
            |kind, value, out| {
                let answer = write_name(kind, value, out);
                if answer > 2 {
                    out[answer as usize..].fill(0);
                }
                answer
            },
            |kind, value, out| write_name(kind % 3, value, out),
        ];
        for (index, side) in wrong.into_iter().enumerate() {
            let result = compare_writes(&mut Random::new(8), 100, side, write_name);
            result.expect_err(&format!("writer {index} is wrong"));
        }
    }
}
