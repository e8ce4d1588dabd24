//! The comparison finds differences: each wrong side differs from the right
//! one in one respect only.

use super::*;
use crate::compare::ledgers::cut_objects;
use crate::limits::WORDS;
use crate::records::{read_verdict, Verdict};

fn sequences(course: Course, first: Calls) -> Result<Counts, String> {
    let (mut random, mut guide) = (Random::new(1), Guide::new(2));
    let mut counts = Counts::default();
    for _ in 0..20 {
        counts.add(compare_sequence(&mut random, &mut guide, course, 500, first, SECOND)?);
    }
    Ok(counts)
}

fn rooms(first: Calls) -> Result<Counts, String> {
    compare_rooms(&mut Random::new(3), &mut Guide::new(4), 3, first, SECOND)
}

fn slices(first: Calls) -> Result<Counts, String> {
    compare_lent(&mut Random::new(5), first, SECOND)
}

/// The error of a wrong run from the fresh ledger.
#[track_caller]
fn wrong_run(run: RunCall, told: &str) {
    let side = Calls { run, ..SECOND };
    for course in [Course::Fresh, Course::DamagedTraces] {
        if let Err(error) = sequences(course, side) {
            assert!(error.contains(told), "{error}");
            return;
        }
    }
    panic!("the run is wrong: {told}");
}

/// The error of a wrong run on a ledger.
#[track_caller]
fn wrong_run_on(course: Course, run_on: RunOnCall, told: &str) {
    let error = sequences(course, Calls { run_on, ..SECOND }).expect_err("the run is wrong");
    assert!(error.contains(told), "{error}");
}

#[test]
fn one_side_agrees_with_itself() {
    for course in COURSES {
        let counts = sequences(course, SECOND).unwrap();
        assert!(counts.steps > 3_000, "{course:?}: {counts:?}");
        assert!(counts.answers[&2] > 2, "{course:?}: {counts:?}");
        assert_eq!(counts.damaged_sound > 20, course == Course::DamagedLedgers, "{counts:?}");
        assert_eq!(counts.verdicts.contains_key(&1), course == Course::DamagedLedgers);
    }
}

#[test]
fn every_room_is_tried() {
    let counts = rooms(SECOND).unwrap();
    assert_eq!(counts.runs, fixed().len() * (LONGEST_ROOM + 1) + 3 * (SHORT_ROOM + 1));
    assert!(counts.exact >= fixed().len() && counts.one_less > 5, "{counts:?}");
    assert_eq!(counts.answers.keys().copied().collect::<Vec<_>>(), [0, 1, 2]);
}

#[test]
fn the_longest_verdict_is_among_the_fixed_traces() {
    let longest = Verdict::Collected((1..=PLACES as u64).collect());
    let first = |(ledger, trace): Short| {
        let (mut out, mut counts) = (vec![0; LONGEST_ROOM], [0; COUNTS]);
        run_on(&mut ledger?, &trace, &mut out, &mut counts);
        match next_record(&out[..counts[1] as usize]) {
            Next::Record(length) => read_verdict(&out[..length]),
            _ => None,
        }
    };
    let found = fixed().into_iter().filter_map(first).filter(|verdict| *verdict == longest);
    assert_eq!(found.count(), 2);
}

#[test]
fn short_slices_are_answered_3() {
    let counts = slices(SECOND).unwrap();
    assert_eq!(counts.answers.keys().copied().collect::<Vec<_>>(), [0, 1, 2, 3]);
}

#[test]
fn wrong_counts_are_found() {
    // The torn record is counted as read.
    wrong_run(
        |trace, out, counts| {
            let answer = run(trace, out, counts);
            if answer == 1 {
                counts[0] = trace.len() as u64;
            }
            answer
        },
        "counts[0]",
    );
    // The record whose verdict has no room is counted as read.
    wrong_run(
        |trace, out, counts| {
            let answer = run(trace, out, counts);
            if let (2, Next::Record(length)) = (answer, next_record(&trace[counts[0] as usize..])) {
                counts[0] += length as u64;
            }
            answer
        },
        "counts[0]",
    );
    // A full output is said to be written to its end.
    wrong_run(
        |trace, out, counts| {
            let answer = run(trace, out, counts);
            if answer == 2 {
                counts[1] = out.len() as u64;
            }
            answer
        },
        "counts[1]",
    );
}

#[test]
fn wrong_bytes_are_found() {
    // One byte behind the output.
    wrong_run(
        |trace, out, counts| {
            let answer = run(trace, out, counts);
            if let Some(byte) = out.get_mut(counts[1] as usize) {
                *byte = 0;
            }
            answer
        },
        "out[",
    );
    // The start of a verdict that has no room.
    wrong_run(
        |trace, out, counts| {
            let answer = run(trace, out, counts);
            if answer == 2 {
                out[counts[1] as usize..].fill(0x40);
            }
            answer
        },
        "out[",
    );
    // The last byte of the output.
    wrong_run(
        |trace, out, counts| {
            let answer = run(trace, out, counts);
            if counts[1] > 0 {
                out[counts[1] as usize - 1] ^= 1;
            }
            answer
        },
        "out[",
    );
}

#[test]
fn wrong_endings_are_found() {
    wrong_run(
        |trace, out, counts| match run(trace, out, counts) {
            1 => 0,
            answer => answer,
        },
        "answers 0 and 1",
    );
    wrong_run(
        |trace, out, counts| match run(trace, out, counts) {
            2 => 1,
            answer => answer,
        },
        "answers 1 and 2",
    );
    // Full although the last verdict fits exactly.
    wrong_run(
        |trace, out, counts| match run(trace, out, counts) {
            0 if !out.is_empty() && counts[1] == out.len() as u64 => 2,
            answer => answer,
        },
        "answers 2 and 0",
    );
    // Full before torn.
    let run: RunCall = |trace, out, counts| match run(trace, out, counts) {
        1 if counts[1] == out.len() as u64 => 2,
        answer => answer,
    };
    let error = rooms(Calls { run, ..SECOND }).unwrap_err();
    assert!(error.contains("answers 2 and 1"), "{error}");
}

#[test]
fn wrong_ledgers_are_found() {
    // The step whose verdict has no room is taken.
    wrong_run_on(
        Course::Pieces,
        |ledger, trace, out, counts| {
            let mut taken = ledger.to_vec();
            let answer = run_on(ledger, trace, out, counts);
            if answer == 2 {
                let mut room = vec![0; counts[1] as usize + LONGEST_VERDICT];
                run_on(&mut taken, &trace[..next_end(trace, counts[0])], &mut room, &mut [0; 2]);
                ledger.copy_from_slice(&taken);
            }
            answer
        },
        "answers 2 and 2; ledger[",
    );
    // A full run or a torn one keeps the ledger before it.
    let kept: [RunOnCall; 2] = [
        |ledger, trace, out, counts| kept_on(2, ledger, trace, out, counts),
        |ledger, trace, out, counts| kept_on(1, ledger, trace, out, counts),
    ];
    wrong_run_on(Course::Pieces, kept[0], "answers 2 and 2; ledger[");
    wrong_run_on(Course::DamagedTraces, kept[1], "answers 1 and 1; ledger[");
    // Roles and marks are cut to 0 and 1, currencies to 16 bits.
    wrong_run_on(
        Course::DamagedLedgers,
        |ledger, trace, out, counts| {
            if ledger.len() >= LEDGER {
                cut_objects(ledger);
            }
            run_on(ledger, trace, out, counts)
        },
        "; ledger[",
    );
    // An empty trace cuts them.
    let cutting: RunOnCall = |ledger, trace, out, counts| {
        let answer = run_on(ledger, trace, out, counts);
        if answer != SHORT && trace.is_empty() {
            cut_objects(ledger);
        }
        answer
    };
    let error = rooms(Calls { run_on: cutting, ..SECOND }).unwrap_err();
    // The mark of the object at place 0, behind the clock, the highest number
    // collected and the words.
    let told = format!("ledger[{}] first 1, second 7", 2 + WORDS + 4);
    assert!(error.contains(&told), "{error}");
    // The first record on a ledger that is not sound is answered 3.
    wrong_run_on(
        Course::DamagedLedgers,
        |ledger, trace, out, counts| {
            let answer = run_on(ledger, trace, out, counts);
            out.iter_mut().skip(6).take(1).filter(|code| **code == 1).for_each(|code| *code = 3);
            answer
        },
        "out[6] first 3, second 1",
    );
}

/// Where the record that begins at that place ends.
fn next_end(trace: &[u8], start: u64) -> usize {
    let start = start as usize;
    match next_record(&trace[start..]) {
        Next::Record(length) => start + length,
        _ => trace.len(),
    }
}

fn kept_on(kept: u64, ledger: &mut [u64], trace: &[u8], out: &mut [u8], counts: &mut [u64]) -> u64 {
    let before = ledger.to_vec();
    let answer = run_on(ledger, trace, out, counts);
    if answer == kept {
        ledger.copy_from_slice(&before);
    }
    answer
}

#[test]
fn writes_outside_what_is_promised_are_found() {
    let beyond: RunCall = |trace, out, counts| {
        let answer = run(trace, out, counts);
        counts.iter_mut().skip(COUNTS).for_each(|count| *count = 0);
        answer
    };
    slices(Calls { run: beyond, ..SECOND }).expect_err("a third count is written");
    let early: RunCall = |trace, out, counts| {
        counts.iter_mut().take(1).for_each(|count| *count = 0);
        run(trace, out, counts)
    };
    slices(Calls { run: early, ..SECOND }).expect_err("a count is written beside 3");
    let eager: RunCall = |trace, out, counts| match counts.len() {
        // The verdicts are written although the counts have no room.
        1 => {
            run(trace, out, &mut [0; COUNTS]);
            SHORT
        }
        _ => run(trace, out, counts),
    };
    slices(Calls { run: eager, ..SECOND }).expect_err("bytes are written beside 3");
    let wide: RunOnCall = |ledger, trace, out, counts| {
        let answer = run_on(ledger, trace, out, counts);
        ledger.iter_mut().skip(LEDGER).for_each(|number| *number = 0);
        answer
    };
    slices(Calls { run_on: wide, ..SECOND }).expect_err("one number more is written");
    let empty: RunCall = |trace, out, counts| match trace {
        // An empty trace goes before 3.
        [] => 0,
        _ => run(trace, out, counts),
    };
    slices(Calls { run: empty, ..SECOND }).expect_err("3 goes first");
}

#[test]
fn the_difference_is_told_on_few_records() {
    // The first COLLECT behind five other records is answered wrongly.
    let run: RunCall = |trace, out, counts| {
        let answer = run(trace, out, counts);
        let mut end = 0;
        for _ in 0..5 {
            end = next_end(trace, end as u64);
        }
        if trace.get(end) == Some(&0x19) && counts[1] > 0 {
            out[0] = 0;
        }
        answer
    };
    let trace = [depot::trace(), depot::trace()].concat();
    let collect = depot::record(9, Kind::Collect);
    let trace = [&trace[..next_end(&trace, 0)].repeat(5)[..], &collect, &trace].concat();
    let lent = Lent::new(&mut Random::new(1), None, &trace, 1000);
    let error = lent.compare(Calls { run, ..SECOND }, SECOND).err().expect("they differ");
    let told = format!("trace {:02X?}\n", &trace[..5 * 29 + collect.len()]);
    assert!(error.contains(&told), "{error}");
    assert!(error.contains("; out[0] first 0, second 64"), "{error}");
}
