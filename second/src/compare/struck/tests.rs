//! The check finds refusals that change something: each wrong side differs from
//! the right one in one respect only.

use super::steps::check_steps;
use super::*;
use crate::compare::ledgers::{cut_objects, step};
use crate::compare::records::put_verdict;
use crate::compare::sides::wrong::side;
use crate::compare::sides::SECOND;
use crate::compare::traces::{run_on, RunOnCall};
use crate::depot;
use crate::ledger::Object;
use crate::limits::PLACES;
use crate::records::{next_record, Kind, Next, Role, Verdict};

const COURSES: [Course; 4] = [Course::Fresh, Course::Stocked, Course::High, Course::Damaged];
/// The numbers of PUT, COMPACT, HOLD, RELEASE and COLLECT.
const PUT: u64 = 1;
const COMPACT: u64 = 3;
const HELD: u64 = 4;
const RELEASE: u64 = 6;
const COLLECT: u64 = 9;
/// Where a step's numbers have its time, object, currency, hold and expiry.
const TIME: usize = 1;
const OBJECT: usize = 5;
const CURRENCY: usize = 6;
const HOLD: usize = 7;
const EXPIRY: usize = 9;

fn traces(course: Course, traces: usize, side: Calls) -> Result<Counts, String> {
    check_traces(&mut Random::new(1), &mut Guide::new(2), course, traces, side)
}

fn steps(course: Course, sequences: usize, side: Calls) -> Result<Counts, String> {
    check_steps(&mut Random::new(3), &mut Guide::new(4), course, sequences, side)
}

/// The error of a wrong run.
#[track_caller]
fn found_run(course: Course, run_on: RunOnCall, told: &str) {
    let error = traces(course, 300, Calls { run_on, ..SECOND }).unwrap_err();
    assert!(error.contains(told), "{error}");
}

/// The error of a wrong run of single steps, and of the steps themselves.
#[track_caller]
fn found(course: Course, side: Calls) {
    found_run(course, side.run_on, ": another ");
    let error = steps(course, 300, Calls { step: side.step, ..SECOND }).unwrap_err();
    assert!(error.contains(": another "), "{error}");
}

/// A step that leaves what `change` makes of the ledger where it is refused,
/// given its numbers and the refusal's number too.
fn refused_so(
    ledger: &mut [u64],
    numbers: &[u64],
    list: &[u64],
    verdict: &mut [u64],
    objects: &mut [u64],
    change: fn(&mut Ledger, &[u64], u64),
) -> u64 {
    let answer = step(ledger, numbers, list, verdict, objects);
    if let (0, Some(mut next)) = (verdict[0], ledger_of(ledger)) {
        change(&mut next, numbers, verdict[1]);
        ledger.copy_from_slice(&numbers_of(&next));
    }
    answer
}

macro_rules! refusing {
    ($change:expr) => {
        side!(|ledger, numbers, list, verdict, objects| {
            refused_so(ledger, numbers, list, verdict, objects, $change)
        })
    };
}

#[track_caller]
fn given(answers: &Answers, expected: impl IntoIterator<Item = u64>, least: usize) {
    for answer in expected {
        assert!(answers.get(&answer) >= Some(&least), "{answer} of {answers:?}");
    }
}

#[test]
fn the_right_side_passes_and_much_is_seen() {
    let (mut runs, mut sequences) = (Counts::default(), Counts::default());
    // Also as a run of single steps.
    let same = side!(step);
    for course in COURSES {
        let counts = traces(course, 100, SECOND).unwrap();
        assert_eq!(traces(course, 100, same).as_ref(), Ok(&counts));
        assert_eq!(counts.unsound > 20, course == Course::Damaged);
        runs.add(counts);
        sequences.add(steps(course, 100, SECOND).unwrap());
    }
    for counts in [runs, sequences] {
        println!("{counts:?}");
        assert_eq!(counts.traces, 400);
        given(&counts.struck, 1..=17, 10);
        given(&counts.stayed, 0..=17, 10);
        assert_eq!(counts.struck.get(&0), None);
        assert!(counts.malformed > 200 && counts.unsound > 20, "{counts:?}");
        assert!(counts.unrefused > 50 && counts.all_refused > 20, "{counts:?}");
    }
}

#[test]
fn the_tables_without_their_refusals_keep_the_others_verdicts() {
    let start = numbers_of(&Ledger::fresh());
    for (table, refusals) in [(depot::week(), 6), (depot::out_of_order(), 8)] {
        let trace = depot::records(&table);
        let records: Vec<Vec<u8>> = split(&trace).into_iter().map(Vec::from).collect();
        let mut counts = Counts::default();
        check_trace(&mut Random::new(5), SECOND, &start, &records, &mut counts).unwrap();
        assert_eq!((counts.traces, counts.strikes, counts.full), (1, 4, 4));
        let whole = Whole::new(SECOND, &start, &records).unwrap();
        assert_eq!(refused(&whole.codes).len(), refusals);
    }
}

/// "An empty trace ends at once", and one without a refusal has nothing to
/// strike.
#[test]
fn a_trace_without_a_refusal_has_nothing_to_strike() {
    let (start, mut counts) = (numbers_of(&Ledger::fresh()), Counts::default());
    let fence = depot::record(0, Kind::Fence { role: Role::Writer, slot: 1 });
    for records in [vec![], vec![fence]] {
        check_trace(&mut Random::new(6), SECOND, &start, &records, &mut counts).unwrap();
    }
    assert_eq!((counts.traces, counts.strikes, counts.unrefused, counts.full), (2, 2, 2, 1));
    assert!(counts.struck.is_empty());
}

#[test]
fn refusals_that_pass_time_are_found() {
    // The clock is set.
    let clock = refusing!(|ledger, asked, _| ledger.clock = ledger.clock.max(asked[TIME]));
    // Holds that are expired at the refused step's time are removed, and then
    // the manifests that are no longer active.
    let expired = refusing!(|ledger, asked, _| {
        ledger.holds.retain(|_, hold| hold.live(asked[TIME]));
        let active = ledger.active(ledger.clock);
        ledger.manifests.retain(|number, _| active.contains(number));
    });
    for side in [clock, expired] {
        found(Course::Stocked, side);
    }
    found(Course::Fresh, clock);
}

#[test]
fn refused_puts_that_leave_something_are_found() {
    // The object takes the lowest free place although its number is spent.
    let place = refusing!(|ledger, asked, code| {
        let taken = |place: &usize| ledger.objects.values().any(|object| object.place == *place);
        let free = (0..PLACES).find(|place| !taken(place));
        if let (PUT, 10, Some(place)) = (asked[0], code, free) {
            let currency = asked[CURRENCY] as u16;
            let object = Object { place, role: Role::Writer, epoch: 1, currency, named: false };
            ledger.objects.insert(asked[OBJECT], object);
        }
    });
    // The number of an object that found no place is spent.
    let spent = refusing!(|ledger, asked, code| {
        if (asked[0], code) == (PUT, 11) {
            ledger.highest_collected = ledger.highest_collected.max(asked[OBJECT]);
        }
    });
    // A number that is stored takes the currency of a second put.
    let currency = refusing!(|ledger, asked, code| {
        if (asked[0], code) == (PUT, 9) {
            let object = ledger.objects.get_mut(&asked[OBJECT]).expect("row 9");
            object.currency = asked[CURRENCY] as u16;
        }
    });
    for side in [place, spent, currency] {
        found(Course::Stocked, side);
    }
}

#[test]
fn other_refused_steps_that_act_are_found() {
    // A COLLECT below the clock removes the dead objects.
    let collect = side!(|ledger, numbers, list, verdict, objects| {
        let answer = step(ledger, numbers, list, verdict, objects);
        if (numbers[0], &verdict[..2]) == (COLLECT, &[0, 3]) {
            let mut now = numbers.to_vec();
            now[TIME] = ledger[0];
            step(ledger, &now, list, verdict, objects);
            put_verdict(Verdict::Refused(3), verdict, objects);
        }
        answer
    });
    // A refused RELEASE releases.
    let release = refusing!(|ledger, asked, _| {
        if asked[0] == RELEASE {
            ledger.holds.remove(&asked[HOLD]);
            let active = ledger.active(ledger.clock);
            ledger.manifests.retain(|number, _| active.contains(number));
        }
    });
    // A COMPACT of a currency that isn't listed marks its object as named.
    let compact = refusing!(|ledger, asked, code| {
        if (asked[0], code) == (COMPACT, 17) {
            ledger.objects.get_mut(&asked[OBJECT]).expect("row 8").named = true;
        }
    });
    // A HOLD of a number that is live renews it.
    let renewed = refusing!(|ledger, asked, code| {
        if (asked[0], code) == (HELD, 12) {
            ledger.holds.get_mut(&asked[HOLD]).expect("row 12").expiry = asked[EXPIRY];
        }
    });
    for side in [collect, release, compact, renewed] {
        found(Course::Stocked, side);
    }
}

/// A refusal with that number alone counts up the highest number collected,
/// which leaves a sound ledger sound.
fn counted_up<const CODE: u64>(
    ledger: &mut [u64],
    numbers: &[u64],
    list: &[u64],
    verdict: &mut [u64],
    objects: &mut [u64],
) -> u64 {
    let answer = step(ledger, numbers, list, verdict, objects);
    if verdict[..2] == [0, CODE] {
        ledger[1] = ledger[1].wrapping_add(1);
    }
    answer
}

macro_rules! counting_up {
    ($($code:literal)*) => { [$((side!(counted_up::<$code>), $code)),*] };
}

#[test]
fn a_refusal_of_each_number_that_changes_something_is_found() {
    let wrong = counting_up!(1 2 3 4 5 6 7 8 9 10 11 12 13 14 15 16 17);
    for (side, code) in wrong {
        let course = if code == 1 { Course::Damaged } else { Course::Stocked };
        found(course, side);
    }
}

/// The first refusal makes of a ledger that is not sound the fresh one.
#[test]
fn unsound_ledgers_that_are_repaired_are_found() {
    let repaired = side!(|ledger, numbers, list, verdict, objects| {
        let answer = step(ledger, numbers, list, verdict, objects);
        if verdict[..2] == [0, 1] {
            ledger.copy_from_slice(&numbers_of(&Ledger::fresh()));
        }
        answer
    });
    found(Course::Damaged, repaired);
    assert!(traces(Course::Stocked, 50, repaired).is_ok());
    // Roles and marks are cut to 0 and 1, currencies to 16 bits.
    let cut = side!(|ledger, numbers, list, verdict, objects| {
        let answer = step(ledger, numbers, list, verdict, objects);
        if verdict[..2] == [0, 1] {
            cut_objects(ledger);
        }
        answer
    });
    found(Course::Damaged, cut);
}

/// How many bytes the first records have, up to the one with which that many are
/// refused.
fn until_refusal(trace: &[u8], out: &[u8], times: usize) -> Option<usize> {
    let (mut read, mut refusals) = (0, 0);
    for (record, verdict) in split(trace).into_iter().zip(split(out)) {
        read += record.len();
        refusals += usize::from(verdict[6] != 0);
        if refusals == times {
            return Some(read);
        }
    }
    None
}

/// The right run over these records alone.
fn run_until(
    times: usize,
    ledger: &mut [u64],
    trace: &[u8],
    out: &mut [u8],
    counts: &mut [u64],
) -> u64 {
    let mut room = out.to_vec();
    run_on(&mut ledger.to_vec(), trace, &mut room, counts);
    let end = until_refusal(trace, &room[..counts[1] as usize], times);
    run_on(ledger, &trace[..end.unwrap_or(trace.len())], out, counts)
}

#[test]
fn runs_that_stop_at_a_refusal_are_found() {
    let wrong: [RunOnCall; 2] = [
        |ledger, trace, out, counts| run_until(1, ledger, trace, out, counts),
        |ledger, trace, out, counts| run_until(5, ledger, trace, out, counts),
    ];
    for run in wrong {
        found_run(Course::Fresh, run, "the run ends with 0, ");
    }
    // It is told as read to the end: a verdict is missing.
    let told: RunOnCall = |ledger, trace, out, counts| {
        let answer = run_until(1, ledger, trace, out, counts);
        counts[0] = trace.len() as u64;
        answer
    };
    found_run(Course::Fresh, told, " verdicts for ");
}

#[test]
fn refusals_that_are_remembered_are_found() {
    // Behind the third, every record is refused with 2.
    let third: RunOnCall = |ledger, trace, out, counts| {
        let mut answer = run_until(3, ledger, trace, out, counts);
        let [mut read, mut written] = [counts[0] as usize, counts[1] as usize];
        while let (WHOLE, Next::Record(length)) = (answer, next_record(&trace[read..])) {
            match out.get_mut(written..written + 7) {
                None => answer = FULL,
                Some(room) => {
                    room.copy_from_slice(&[0x40, 0, 4, 0, 0, 1, 2]);
                    (read, written) = (read + length, written + 7);
                }
            }
        }
        counts.copy_from_slice(&[read as u64, written as u64]);
        answer
    };
    found_run(Course::Stocked, third, "the run ends with 2, ");
    // The ledger of a run with a refusal is the one before it.
    let undone: RunOnCall = |ledger, trace, out, counts| {
        let before = ledger.to_vec();
        let answer = run_on(ledger, trace, out, counts);
        if until_refusal(trace, &out[..counts[1] as usize], 1).is_some() {
            ledger.copy_from_slice(&before);
        }
        answer
    };
    found_run(Course::Fresh, undone, "another last ledger");
    // The last byte is another where two were refused.
    let last: RunOnCall = |ledger, trace, out, counts| {
        let answer = run_on(ledger, trace, out, counts);
        let written = counts[1] as usize;
        if until_refusal(trace, &out[..written], 2).is_some() && answer == WHOLE {
            out[written - 1] ^= 1;
        }
        answer
    };
    found_run(Course::Stocked, last, ": another ");
}

#[test]
fn wrong_rooms_are_found() {
    // Full although all fits, where no refusal would have room behind it.
    let wide: RunOnCall = |ledger, trace, out, counts| {
        let before = ledger.to_vec();
        match run_on(ledger, trace, out, counts) {
            WHOLE if out.len() < counts[1] as usize + 7 && counts[1] > 0 => {
                ledger.copy_from_slice(&before);
                FULL
            }
            answer => answer,
        }
    };
    found_run(Course::Fresh, wide, "the run ends with 2, ");
    // What has no room is left out, and the end is whole.
    let cut: RunOnCall = |ledger, trace, out, counts| match run_on(ledger, trace, out, counts) {
        FULL => WHOLE,
        answer => answer,
    };
    found_run(Course::Fresh, cut, "the run ends with 0 in one byte too few");
    // The byte beyond the verdicts.
    let beyond: RunOnCall = |ledger, trace, out, counts| {
        let answer = run_on(ledger, trace, out, counts);
        out.iter_mut().skip(counts[1] as usize).take(1).for_each(|byte| *byte ^= 1);
        answer
    };
    found_run(Course::Fresh, beyond, "another output, at ");
}
