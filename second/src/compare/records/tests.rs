//! Each wrong codec differs from the right one in one respect only.

use super::*;
use crate::limits::{LONGEST_STEP, NAME};

fn steps(read: Read, write: Write) -> Result<Counts, String> {
    let wrong = Codec { next: next_record, read, write };
    compare_reads(&mut Random::new(9), &STEPS, 30_000, wrong, STEPS.codec)
}

#[test]
fn a_side_agrees_with_itself_and_gives_every_answer() {
    for records in [STEPS, VERDICTS] {
        let codec = records.codec;
        let counts = compare_reads(&mut Random::new(5), &records, 20_000, codec, codec).unwrap();
        let given = |answers: &Answers| answers.keys().copied().collect::<Vec<_>>();
        assert_eq!(given(&counts.next), [0, 1, LENGTH]);
        assert_eq!(given(&counts.reads), [0, 2, 3]);
        assert_eq!(given(&counts.writes), [0, LENGTH]);
        let answers = compare_writes(&mut Random::new(6), &records, 20_000, codec, codec).unwrap();
        assert_eq!(given(&answers), [0, 2, 3, LENGTH]);
    }
}

#[test]
fn wrong_step_readers_are_reported() {
    let wrong: [Read; 6] = [
        |_, _, _| 2,
        // 2 before 3.
        |record, numbers, list| match records::read_step(record) {
            None => 2,
            Some(_) => read_step(record, numbers, list),
        },
        // The places beyond the list stay.
        |record, numbers, list| {
            let before = list.to_vec();
            let answer = read_step(record, numbers, list);
            if answer == 0 {
                let length = numbers[10] as usize;
                list[length..].copy_from_slice(&before[length..]);
            }
            answer
        },
        // One element more is written.
        |record, numbers, list| {
            let answer = read_step(record, numbers, list);
            if answer == 0 {
                numbers[STEP..].fill(0);
            }
            answer
        },
        // Currency 1000 is taken.
        |record, numbers, list| match record {
            [0x18, .., 0x03, 0xE8, 0x08, _, _, _, _, _, _, _, _, _, _] if record.len() == 30 => 0,
            _ => read_step(record, numbers, list),
        },
        |record, numbers, list| match read_step(record, numbers, list) {
            2 if !numbers.is_empty() => {
                numbers[0] = 0;
                2
            }
            answer => answer,
        },
    ];
    for (index, read) in wrong.into_iter().enumerate() {
        steps(read, write_step).expect_err(&format!("reader {index} is wrong"));
    }
}

/// Each takes a list of one number more, or none of the longest.
#[test]
fn readers_and_writers_of_other_lists_are_reported() {
    let wrong: [(Records, Read); 3] = [
        (STEPS, |record, numbers, list| match record.len() {
            LONGEST_STEP if numbers.len() >= STEP && list.len() >= NAMES => 2,
            _ => read_step(record, numbers, list),
        }),
        (STEPS, |record, numbers, list| match record.len() {
            length if length == LONGEST_STEP + NAME && numbers.len() >= STEP => 0,
            _ => read_step(record, numbers, list),
        }),
        (VERDICTS, |record, numbers, list| match record.len() {
            LONGEST_VERDICT if numbers.len() >= VERDICT && list.len() >= PLACES => 2,
            _ => read_verdict(record, numbers, list),
        }),
    ];
    for (index, (records, read)) in wrong.into_iter().enumerate() {
        let side = Codec { read, ..records.codec };
        let result = compare_reads(&mut Random::new(9), &records, 30_000, side, records.codec);
        result.expect_err(&format!("reader {index} is wrong"));
    }
    let wrong: [(Records, Write); 2] = [
        (STEPS, |numbers, list, out| match write_step(numbers, list, out) {
            answer if answer == LONGEST_STEP as u64 => 2,
            answer => answer,
        }),
        (VERDICTS, |numbers, list, out| match write_verdict(numbers, list, out) {
            answer if answer == LONGEST_VERDICT as u64 => 2,
            answer => answer,
        }),
    ];
    for (index, (records, write)) in wrong.into_iter().enumerate() {
        let side = Codec { write, ..records.codec };
        let result = compare_writes(&mut Random::new(8), &records, 30_000, side, records.codec);
        result.expect_err(&format!("writer {index} is wrong"));
    }
}

#[test]
fn wrong_step_writers_are_reported() {
    let wrong: [Write; 4] = [
        |_, _, _| 2,
        |numbers, list, out| match write_step(numbers, list, out) {
            0 => {
                out.fill(0);
                0
            }
            answer => answer,
        },
        |numbers, list, out| {
            let answer = write_step(numbers, list, out);
            if answer > 3 {
                out[answer as usize..].fill(0);
            }
            answer
        },
        // The record is not the one that was read.
        |numbers, list, out| {
            let answer = write_step(numbers, list, out);
            if answer > 3 {
                out[answer as usize - 1] ^= 1;
            }
            answer
        },
    ];
    for (index, write) in wrong.into_iter().enumerate() {
        steps(read_step, write).expect_err(&format!("writer {index} is wrong"));
    }
}

#[test]
fn writers_of_what_no_reader_takes_are_reported() {
    let wrong: [Write; 3] = [
        // "Room is short" before 2.
        |numbers, list, out| match write_verdict(numbers, list, out) {
            2 if out.is_empty() => 0,
            answer => answer,
        },
        // The code is taken modulo 256.
        |numbers, list, out| match numbers {
            [0, code, 0] => write_verdict(&[0, code % 256, 0], list, out),
            _ => write_verdict(numbers, list, out),
        },
        // What stands beyond the list plays no part.
        |numbers, list, out| {
            let mut places = list.to_vec();
            if let [_, _, length] = numbers {
                places.iter_mut().skip(*length as usize).for_each(|place| *place = 0);
            }
            write_verdict(numbers, &places, out)
        },
    ];
    for (index, write) in wrong.into_iter().enumerate() {
        let side = Codec { write, ..VERDICTS.codec };
        let result = compare_writes(&mut Random::new(8), &VERDICTS, 30_000, side, VERDICTS.codec);
        result.expect_err(&format!("writer {index} is wrong"));
    }
}
