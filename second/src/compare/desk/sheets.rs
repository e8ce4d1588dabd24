//! Comparison of two rate sheet codecs: document 02, request 2, the sentence
//! that begins "A rate sheet is a house record".

use super::{Calls, ReadCall, WriteCall, DONE, SHEET};
use crate::compare::records::lent;
use crate::compare::{count, Answers, MARGIN};
use crate::generate::sheets;
use crate::random::Random;

/// The largest room in which sheets are written; every smaller one is tried
/// too.
pub const LONGEST_ROOM: usize = 50;

/// Compares two readers on the fixed sheets and on `random_sheets` others, and
/// checks that what is read is written as it was; the error describes the
/// first difference.
pub fn compare_reads(
    random: &mut Random,
    random_sheets: usize,
    first: Calls,
    second: Calls,
) -> Result<Answers, String> {
    let mut answers = Answers::new();
    let fixed = sheets::fixed();
    for index in 0..fixed.len() + random_sheets {
        let sheet = match fixed.get(index) {
            Some(sheet) => sheet.clone(),
            None => sheets::random(random),
        };
        let (answer, numbers) = compare_read(random, &sheet, first.read, second.read)?;
        count(&mut answers, answer);
        if answer == DONE {
            let room = sheet.len() + random.index(3);
            let written = compare_write(random, &numbers, room, first.write, second.write)?;
            if written != (sheet.len() as u64, sheet.clone()) {
                return Err(format!("{sheet:02X?} was read, and written as {written:02X?}"));
            }
        }
    }
    Ok(answers)
}

/// The answer and the numbers lent.
fn compare_read(
    random: &mut Random,
    sheet: &[u8],
    first: ReadCall,
    second: ReadCall,
) -> Result<(u64, Vec<u64>), String> {
    let (lent, pattern) = (lent(random, SHEET), random.any());
    let call = |read: ReadCall| {
        let mut numbers = vec![pattern; lent + 2 * MARGIN];
        let answer = read(sheet, &mut numbers[MARGIN..MARGIN + lent]);
        (answer, numbers)
    };
    let (one, other) = (call(first), call(second));
    if one != other {
        return Err(format!(
            "sheet {sheet:02X?}, {lent} numbers filled with {pattern}: \
             first {one:?}, second {other:?}"
        ));
    }
    Ok((one.0, one.1[MARGIN..MARGIN + lent].to_vec()))
}

/// Compares two writers on the numbers at the limits and on `random_sheets`
/// others, each in every room up to 50; the error describes the first
/// difference.
pub fn compare_writes(
    random: &mut Random,
    random_sheets: usize,
    first: WriteCall,
    second: WriteCall,
) -> Result<Answers, String> {
    let mut answers = Answers::new();
    let edges = sheets::edges();
    for index in 0..edges.len() + random_sheets {
        let mut numbers = match edges.get(index) {
            Some(numbers) => numbers.to_vec(),
            None => {
                let mut numbers = sheets::loose(random).to_vec();
                numbers.resize(lent(random, SHEET), random.any());
                numbers
            }
        };
        if random.once_in(100) {
            numbers.truncate(random.index(SHEET));
        }
        for room in 0..=LONGEST_ROOM {
            let (answer, _) = compare_write(random, &numbers, room, first, second)?;
            count(&mut answers, answer);
        }
    }
    Ok(answers)
}

/// The answer and the bytes written.
fn compare_write(
    random: &mut Random,
    numbers: &[u64],
    room: usize,
    first: WriteCall,
    second: WriteCall,
) -> Result<(u64, Vec<u8>), String> {
    let pattern = random.any() as u8;
    let call = |write: WriteCall| {
        let mut bytes = [pattern; LONGEST_ROOM + 2 * MARGIN];
        let answer = write(numbers, &mut bytes[MARGIN..MARGIN + room]);
        (answer, bytes)
    };
    let (one, other) = (call(first), call(second));
    if one != other {
        return Err(format!(
            "numbers {numbers:?}, room {room} filled with {pattern:02X}: \
             first {one:02X?}, second {other:02X?}"
        ));
    }
    let written = one.1[MARGIN..].iter().take(one.0 as usize).copied().collect();
    Ok((one.0, written))
}
