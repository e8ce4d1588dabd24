//! Wrong rate sheet codecs.

use super::*;
use crate::desk::LARGEST_PART;

#[track_caller]
fn found(name: &str, random_sheets: usize, read: ReadCall) {
    let side = Calls { read, ..SECOND };
    let result = sheets::compare_reads(&mut Random::new(7), random_sheets, side, SECOND);
    result.expect_err(&format!("the reader is wrong: {name}"));
}

#[test]
fn readers_that_answer_or_write_wrongly_are_found() {
    found("all is malformed", 0, |_, _| MALFORMED);
    found("2 before 3", 0, |record, numbers| match desk::read_sheet(record) {
        None => MALFORMED,
        Some(_) => read_sheet(record, numbers),
    });
    found("a fifth number", 0, |record, numbers| {
        let answer = read_sheet(record, numbers);
        numbers.iter_mut().skip(SHEET).for_each(|number| *number = 0);
        answer
    });
    found("a number beside 2", 0, |record, numbers| {
        let answer = read_sheet(record, numbers);
        if answer == MALFORMED {
            numbers[0] = 0;
        }
        answer
    });
    found("numerator and denominator exchanged", 0, |record, numbers| {
        let answer = read_sheet(record, numbers);
        if answer == DONE {
            numbers.swap(2, 3);
        }
        answer
    });
}

#[test]
fn readers_that_pass_over_bytes_are_found() {
    found("bytes beyond", 0, |record, numbers| {
        read_sheet(&record[..record.len().min(41)], numbers)
    });
    found("a length modulo 2^16", 0, |record, numbers| match record.len() {
        65_577 => read_sheet(&record[..41], numbers),
        _ => read_sheet(record, numbers),
    });
    // The outer tag, an inner one, and a length's high byte.
    let passed: [ReadCall; 3] = [
        |record, numbers| read_sheet(&with(record, 0, 0x50), numbers),
        |record, numbers| read_sheet(&with(record, 30, 0x0D), numbers),
        |record, numbers| read_sheet(&with(record, 20, 0), numbers),
    ];
    for (index, read) in passed.into_iter().enumerate() {
        found(&format!("byte {index}"), 0, read);
    }
    // The order of the last two fields.
    found("order", 0, |record, numbers| match record.len() {
        41 if record[19] == 0x0D => {
            read_sheet(&[&record[..19], &record[30..], &record[19..30]].concat(), numbers)
        }
        _ => read_sheet(record, numbers),
    });
}

/// The record with that byte at that place.
fn with(record: &[u8], place: usize, byte: u8) -> Vec<u8> {
    let mut record = record.to_vec();
    record.iter_mut().skip(place).take(1).for_each(|old| *old = byte);
    record
}

/// Reads as if that value, which stands at that place and has that number,
/// were one that a reader takes.
fn taking(record: &[u8], numbers: &mut [u64], place: usize, number: usize, value: u64) -> u64 {
    let width = if number == 1 { 2 } else { 8 };
    let end = place + width;
    if record.get(place..end) != Some(&value.to_be_bytes()[8 - width..]) {
        return read_sheet(record, numbers);
    }
    let mut good = record.to_vec();
    good[place..end].copy_from_slice(&1_u64.to_be_bytes()[8 - width..]);
    let answer = read_sheet(&good, numbers);
    if answer == DONE {
        numbers[number] = value;
    }
    answer
}

#[test]
fn readers_without_a_limit_are_found() {
    let wrong: [ReadCall; 8] = [
        |record, numbers| taking(record, numbers, 6, 0, 0),
        |record, numbers| taking(record, numbers, 17, 1, 0),
        |record, numbers| taking(record, numbers, 17, 1, 1000),
        |record, numbers| taking(record, numbers, 17, 1, 65_535),
        |record, numbers| taking(record, numbers, 22, 2, 0),
        |record, numbers| taking(record, numbers, 22, 2, LARGEST_PART + 1),
        |record, numbers| taking(record, numbers, 33, 3, 0),
        |record, numbers| taking(record, numbers, 33, 3, LARGEST_PART + 1),
    ];
    for (index, read) in wrong.into_iter().enumerate() {
        found(&format!("limit {index}"), 0, read);
    }
}

/// Refuses a sheet whose number there is that value.
fn refusing(record: &[u8], numbers: &mut [u64], number: usize, value: u64) -> u64 {
    let mut read = [0; SHEET];
    match read_sheet(record, &mut read) {
        DONE if read[number] == value && numbers.len() >= SHEET => MALFORMED,
        _ => read_sheet(record, numbers),
    }
}

#[test]
fn readers_that_refuse_at_a_limit_are_found() {
    let wrong: [ReadCall; 8] = [
        |record, numbers| refusing(record, numbers, 0, 1),
        |record, numbers| refusing(record, numbers, 0, u64::MAX),
        |record, numbers| refusing(record, numbers, 1, 1),
        |record, numbers| refusing(record, numbers, 1, 999),
        |record, numbers| refusing(record, numbers, 2, 1),
        |record, numbers| refusing(record, numbers, 2, LARGEST_PART),
        |record, numbers| refusing(record, numbers, 3, 1),
        |record, numbers| refusing(record, numbers, 3, LARGEST_PART),
    ];
    for (index, read) in wrong.into_iter().enumerate() {
        found(&format!("limit {index}"), 0, read);
    }
}

#[track_caller]
fn wrong_writer(name: &str, write: WriteCall) {
    let result = sheets::compare_writes(&mut Random::new(9), 100, write, write_sheet);
    result.expect_err(&format!("the writer is wrong: {name}"));
}

#[test]
fn writers_that_answer_or_write_wrongly_are_found() {
    wrong_writer("nothing is written", |_, _| MALFORMED);
    wrong_writer("0 before 2", |numbers, out| match write_sheet(numbers, out) {
        MALFORMED if out.is_empty() => 0,
        answer => answer,
    });
    wrong_writer("2 before 3", |numbers, out| match numbers {
        [0, ..] => MALFORMED,
        _ => write_sheet(numbers, out),
    });
    wrong_writer("bytes beside 0", |numbers, out| {
        let answer = write_sheet(numbers, out);
        if answer == 0 {
            out.fill(0x50);
        }
        answer
    });
    wrong_writer("bytes beyond", |numbers, out| {
        let answer = write_sheet(numbers, out);
        out.iter_mut().skip(41).for_each(|byte| *byte = 0);
        answer
    });
}

#[test]
fn writers_of_other_numbers_are_found() {
    wrong_writer("a currency cut to 16 bits", |numbers, out| match *numbers {
        [a, currency, c, d, ..] => write_sheet(&[a, currency & 0xFFFF, c, d], out),
        _ => write_sheet(numbers, out),
    });
    wrong_writer("the largest part", |numbers, out| match numbers {
        [_, _, LARGEST_PART, _, ..] => MALFORMED,
        _ => write_sheet(numbers, out),
    });
    wrong_writer("one more than the largest", |numbers, out| match *numbers {
        [a, b, c, d, ..] if d == LARGEST_PART + 1 => write_sheet(&[a, b, c, d - 1], out),
        _ => write_sheet(numbers, out),
    });
}

/// Also where both sides write it alike.
#[test]
fn a_sheet_not_written_as_it_was_read_is_found() {
    let write: WriteCall = |numbers, out| {
        let answer = write_sheet(numbers, out);
        if answer == 41 {
            out[40] ^= 1;
        }
        answer
    };
    let side = Calls { write, ..SECOND };
    let result = sheets::compare_reads(&mut Random::new(7), 0, side, side);
    assert!(result.expect_err("both are wrong").contains("was read, and written as"));
}
