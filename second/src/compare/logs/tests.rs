//! The comparison finds differences: each wrong side differs from the right one
//! in one respect only.

use super::week::check_week;
use super::*;
use crate::compare::sides::split;
use crate::generate::logs::SORTS;
use crate::ledger::Ledger;
use crate::limits::Limits;
use crate::records::{read_step, write_verdict, Verdict};

const TIMES: usize = 30_000;
/// Where a verdict's code stands.
const CODE: usize = 6;

fn compare(first: CheckCall) -> Result<Counts, String> {
    compare_logs(&mut Random::new(1), &mut Source::new(2), TIMES, first, SECOND)
}

#[test]
fn a_side_agrees_with_itself_and_gives_every_answer() {
    let counts = compare(SECOND).unwrap();
    println!("{counts:?}");
    assert_eq!(counts.asked, TIMES);
    for answer in [AGREE, UNSOUND, MALFORMED, SHORT, DIFFERS] {
        assert!(counts.answers[&answer] > TIMES / 100, "{:?}", counts.answers);
    }
    for (sort, answers) in SORTS {
        let given = answers.iter().filter(|answer| counts.sorts.contains_key(&(sort, **answer)));
        assert_eq!(given.count(), answers.len(), "{sort:?}");
    }
    for place in [Place::First, Place::Middle, Place::Last, Place::Behind] {
        assert!(counts.places[&place] > TIMES / 20, "{:?}", counts.places);
    }
    assert!((0..=30).all(|index| counts.indices.contains_key(&index)), "{:?}", counts.indices);
    assert!(counts.indices.range(256..).count() >= 2, "{:?}", counts.indices);
    assert!(LENT.iter().all(|lent| counts.lent[lent] > 100), "{:?}", counts.lent);
}

#[test]
fn the_week_is_answered_as_the_paper_says() {
    // 260 bytes of the log cut and turned, 803 of the trace cut with two logs,
    // and bytes behind either, all with and without an image.
    let asked = check_week(SECOND).unwrap();
    assert_eq!(asked, 2 * (1 + 260 * 9 + 803 * 2 + 256 * 9 * 2));
}

/// A side that is wrong, found by what the two answer.
#[track_caller]
fn wrong(told: &str, side: CheckCall) {
    let error = compare(side).expect_err("the side is wrong");
    let first = error.lines().next().unwrap_or_default();
    assert!(first.contains(told), "{first}");
}

/// The same, and the week finds it too.
#[track_caller]
fn wrong_in_the_week(told: &str, side: CheckCall) {
    wrong(told, side);
    check_week(side).expect_err("the side is wrong");
}

/// A side that is given the verdicts of the right run, one for each whole
/// record, and answers `None` where all agree. The refusals are right.
fn by_verdicts(
    image: &[u8],
    trace: &[u8],
    log: &[u8],
    at: &mut [u64],
    differs: impl Fn(&[&[u8]], &[&[u8]], bool) -> Option<usize>,
) -> u64 {
    match (at.first_mut(), run_of(image, trace)) {
        (None, _) => SHORT,
        (_, Err(refusal)) => refusal,
        (Some(first), Ok(done)) => {
            let torn = done.end == End::Torn;
            told(first, differs(&split(&done.output), &pieces(log), torn))
        }
    }
}

fn told(first: &mut u64, differs: Option<usize>) -> u64 {
    match differs {
        None => AGREE,
        Some(index) => {
            *first = index as u64;
            DIFFERS
        }
    }
}

/// The log's records, and what is torn behind them.
fn pieces(log: &[u8]) -> Vec<&[u8]> {
    let mut pieces = split(log);
    let whole = pieces.iter().map(|piece| piece.len()).sum();
    if whole < log.len() {
        pieces.push(&log[whole..]);
    }
    pieces
}

/// The first index at which they are not the same by that measure.
fn first_by<T: PartialEq>(
    ours: &[&[u8]],
    theirs: &[&[u8]],
    torn: bool,
    measure: impl Fn(&[u8]) -> T,
) -> Option<usize> {
    let both = ours.iter().zip(theirs);
    let found = both.clone().position(|(one, other)| measure(one) != measure(other));
    let short = (torn || ours.len() != theirs.len()).then_some(both.len());
    found.or(short)
}

fn right(ours: &[&[u8]], theirs: &[&[u8]], torn: bool) -> Option<usize> {
    first_by(ours, theirs, torn, <[u8]>::to_vec)
}

macro_rules! side {
    ($differs:expr) => {
        |image, trace, log, at| by_verdicts(image, trace, log, at, $differs)
    };
}

#[test]
fn the_side_that_the_wrong_ones_are_made_of_is_right() {
    compare(side!(right)).unwrap();
    check_week(side!(right)).unwrap();
}

#[test]
fn a_wrong_index_is_found() {
    // Counted from 1, in bytes, cut to eight bits.
    wrong_in_the_week(
        "first 4",
        side!(|ours, theirs, torn| { right(ours, theirs, torn).map(|index| index + 1) }),
    );
    wrong_in_the_week(
        "first 4",
        side!(|ours, theirs, torn| {
            let index = right(ours, theirs, torn)?;
            Some(ours[..index].concat().len())
        }),
    );
    wrong(
        "first 4",
        side!(|ours, theirs, torn| { right(ours, theirs, torn).map(|index| index & 0xFF) }),
    );
    // The last disagreement in the place of the first.
    wrong_in_the_week(
        "first 4",
        side!(|ours, theirs, torn| {
            let last = ours.iter().zip(theirs).rposition(|(one, other)| one != other);
            let short = (torn || ours.len() != theirs.len()).then(|| ours.len().min(theirs.len()));
            short.or(last)
        }),
    );
}

#[test]
fn a_later_difference_that_goes_first_is_found() {
    // The torn trace, the torn log, a length that is not the same.
    wrong_in_the_week(
        "first 4",
        side!(|ours, theirs, torn| {
            if torn {
                return Some(ours.len());
            }
            right(ours, theirs, torn)
        }),
    );
    wrong_in_the_week("first 4", |image, trace, log, at| {
        let whole = split(log);
        let answer = check_log(image, trace, log, at);
        if answer == DIFFERS && whole.concat().len() < log.len() {
            at[0] = whole.len() as u64;
        }
        answer
    });
    wrong(
        "first 4",
        side!(|ours, theirs, torn| {
            match ours.len() == theirs.len() {
                true => right(ours, theirs, torn),
                false => Some(ours.len().min(theirs.len())),
            }
        }),
    );
}

#[test]
fn an_end_that_is_not_seen_is_found() {
    // A torn log is taken, one too many, a missing one, a torn trace.
    wrong_in_the_week("first 0", |image, trace, log, at| {
        check_log(image, trace, &split(log).concat(), at)
    });
    wrong_in_the_week(
        "first 0",
        side!(|ours, theirs, torn| { right(ours, &theirs[..theirs.len().min(ours.len())], torn) }),
    );
    wrong_in_the_week(
        "first 0",
        side!(|ours, theirs, torn| { right(&ours[..ours.len().min(theirs.len())], theirs, torn) }),
    );
    wrong_in_the_week("first 0", |image, trace, log, at| {
        check_log(image, &split(trace).concat(), log, at)
    });
    // One or two bytes are no record, so nothing is torn.
    wrong_in_the_week("first 0", |image, trace, log, at| {
        let whole = split(log).concat().len();
        let cut = if log.len() - whole < 3 { whole } else { log.len() };
        check_log(image, trace, &log[..cut], at)
    });
    wrong_in_the_week("first 0", |image, trace, log, at| {
        let whole = split(trace).concat().len();
        let cut = if trace.len() - whole < 3 { whole } else { trace.len() };
        check_log(image, &trace[..cut], log, at)
    });
}

#[test]
fn verdicts_that_are_compared_in_part_are_found() {
    wrong_in_the_week(
        "first ",
        side!(|ours, theirs, torn| {
            first_by(ours, theirs, torn, |verdict| verdict.get(CODE).copied())
        }),
    );
    wrong_in_the_week(
        "first ",
        side!(|ours, theirs, torn| { first_by(ours, theirs, torn, <[u8]>::len) }),
    );
    wrong_in_the_week(
        "first ",
        side!(|ours, theirs, torn| {
            first_by(ours, theirs, torn, |verdict| (verdict.len(), verdict.get(CODE).copied()))
        }),
    );
}

#[test]
fn bytes_that_are_not_compared_are_found() {
    // The tag, and those behind where the longest verdict once ended.
    wrong_in_the_week(
        "first ",
        side!(|ours, theirs, torn| {
            first_by(ours, theirs, torn, |verdict| verdict.get(1..).map(<[u8]>::to_vec))
        }),
    );
    wrong(
        "first ",
        side!(|ours, theirs, torn| {
            first_by(ours, theirs, torn, |verdict| {
                (verdict.len(), verdict[..verdict.len().min(522)].to_vec())
            })
        }),
    );
    // Whatever two refusals say, they are the same.
    wrong_in_the_week(
        "first ",
        side!(|ours, theirs, torn| {
            let refused = |verdict: &[u8]| verdict.len() == 7 && verdict[CODE] != 0;
            first_by(ours, theirs, torn, |verdict| match refused(verdict) {
                true => [0x40, 0, 4, 0, 0, 1, 2].to_vec(),
                false => verdict.to_vec(),
            })
        }),
    );
}

#[test]
fn records_that_are_not_compared_are_found() {
    // The first alone, and none behind a refusal, or behind a malformed record.
    wrong_in_the_week(
        "first 0",
        side!(|ours, theirs, torn| { right(ours, theirs, torn).filter(|index| *index == 0) }),
    );
    wrong_in_the_week(
        "first 0",
        side!(|ours, theirs, torn| {
            let stop = ours.iter().position(|verdict| verdict[CODE] != 0).unwrap_or(usize::MAX);
            right(ours, theirs, torn).filter(|index| *index <= stop)
        }),
    );
    wrong(
        "first 0",
        side!(|ours, theirs, torn| {
            let stop = ours.iter().position(|verdict| verdict[CODE] == 2).unwrap_or(usize::MAX);
            right(ours, theirs, torn).filter(|index| *index <= stop)
        }),
    );
}

#[test]
fn verdicts_in_another_order_or_left_out_are_found() {
    // No verdict for a refused record.
    wrong_in_the_week(
        "first 4",
        side!(|ours, theirs, torn| {
            let accepted: Vec<&[u8]> = ours.iter().copied().filter(|one| one[CODE] == 0).collect();
            right(&accepted, theirs, torn)
        }),
    );
    // The order plays no part.
    wrong(
        "first 0",
        side!(|ours, theirs, torn| {
            let [mut one, mut other] = [ours, theirs].map(<[&[u8]]>::to_vec);
            one.sort_unstable();
            other.sort_unstable();
            if one == other && !torn {
                return None;
            }
            right(ours, theirs, torn)
        }),
    );
}

/// Every record is judged on the ledger of the start.
fn on_the_first(image: &[u8], trace: &[u8], log: &[u8], at: &mut [u64]) -> u64 {
    let start = match image {
        [] => Some(Ledger::fresh()),
        image => image::read(image).ok().and_then(|raw| from_raw(&raw)),
    };
    let (Some(start), false) = (start, at.is_empty()) else {
        return check_log(image, trace, log, at);
    };
    let records = split(trace);
    let torn = records.concat().len() < trace.len();
    let ours = records.iter().map(|record| match read_step(record) {
        None => Verdict::Refused(2),
        Some(step) => start.clone().step(&step),
    });
    let ours: Vec<Vec<u8>> = ours.map(|verdict| write_verdict(&verdict).unwrap()).collect();
    let ours: Vec<&[u8]> = ours.iter().map(Vec::as_slice).collect();
    told(&mut at[0], right(&ours, &pieces(log), torn))
}

/// The trace is run within the limits of document 01.
fn within_old_limits(image: &[u8], trace: &[u8], log: &[u8], at: &mut [u64]) -> u64 {
    if !image.is_empty() || at.is_empty() {
        return check_log(image, trace, log, at);
    }
    let done = run(&Ledger::fresh_within(Limits::OLD), trace, usize::MAX);
    let torn = done.end == End::Torn;
    told(&mut at[0], right(&split(&done.output), &pieces(log), torn))
}

#[test]
fn another_ledger_is_found() {
    wrong_in_the_week("first 4", on_the_first);
    wrong("first 4", within_old_limits);
    // The image is not looked at, or is read as another.
    wrong("Image", |_, trace, log, at| check_log(&[], trace, log, at));
    wrong("first 4", |image, trace, log, at| match image::read(image) {
        Ok(mut raw) => {
            raw.clock = 0;
            check_log(&image::write(&raw).unwrap_or_default(), trace, log, at)
        }
        Err(_) => check_log(image, trace, log, at),
    });
}

#[test]
fn refusals_that_are_told_otherwise_are_found() {
    wrong("first 2", |image, trace, log, at| match check_log(image, trace, log, at) {
        UNSOUND => MALFORMED,
        answer => answer,
    });
    wrong("first 1", |image, trace, log, at| match check_log(image, trace, log, at) {
        MALFORMED => UNSOUND,
        answer => answer,
    });
    // A refused image is taken as none, or for a difference at 0.
    wrong("second 2", |image, trace, log, at| match check_log(image, trace, log, at) {
        MALFORMED => check_log(&[], trace, log, at),
        answer => answer,
    });
    wrong("second 1", |image, trace, log, at| match check_log(image, trace, log, at) {
        UNSOUND => check_log(&[], trace, log, at),
        answer => answer,
    });
    wrong("first 4", |image, trace, log, at| match check_log(image, trace, log, at) {
        UNSOUND => told(&mut at[0], Some(0)),
        answer => answer,
    });
}

#[test]
fn images_that_are_taken_otherwise_are_found() {
    // No bytes are no image, and one byte is one.
    wrong("first 2", |image, trace, log, at| match image {
        [] if !at.is_empty() => MALFORMED,
        _ => check_log(image, trace, log, at),
    });
    wrong("second 2", |image, trace, log, at| match image {
        [_] => check_log(&[], trace, log, at),
        _ => check_log(image, trace, log, at),
    });
    // The refusal waits until all agree; it is told where no number is lent.
    wrong("first 4", |image, trace, log, at| {
        let refused = !image.is_empty() && image::read(image).is_err();
        match check_log(&[], trace, log, &mut at.to_vec()) {
            DIFFERS if refused => check_log(&[], trace, log, at),
            _ => check_log(image, trace, log, at),
        }
    });
    wrong("second 3", |image, trace, log, at| match at {
        [] => check_log(image, trace, log, &mut [0]),
        _ => check_log(image, trace, log, at),
    });
}

/// The numbers lent are changed where the answer is that one.
fn touching(
    image: &[u8],
    trace: &[u8],
    log: &[u8],
    at: &mut [u64],
    touch: impl Fn(u64, &mut [u64]),
) -> u64 {
    let answer = check_log(image, trace, log, at);
    touch(answer, at);
    answer
}

macro_rules! touches {
    ($touch:expr) => {
        |image, trace, log, at| touching(image, trace, log, at, $touch)
    };
}

#[test]
fn numbers_that_stay_are_compared() {
    let first: [CheckCall; 4] = [
        touches!(|answer, at| if answer == AGREE {
            at[0] = 0
        }),
        touches!(|answer, at| if answer == UNSOUND {
            at[0] = 0
        }),
        touches!(|answer, at| if answer == MALFORMED {
            at[0] = 0
        }),
        // The one behind it, where there is one.
        touches!(|_, at| at.iter_mut().skip(1).take(1).for_each(|one| *one = 0)),
    ];
    for side in first {
        wrong("first ", side);
    }
    wrong(
        "first ",
        touches!(|_, at| {
            if let [_, _, rest @ ..] = at {
                rest.fill(0);
            }
        }),
    );
    // Nothing is written.
    wrong_in_the_week("first 4", |image, trace, log, at| {
        check_log(image, trace, log, &mut at.to_vec())
    });
}

/// Sides that are wrong alike agree, and what they say is found by the run.
#[test]
fn what_both_say_wrongly_is_found() {
    let both = |side: CheckCall| {
        compare_logs(&mut Random::new(3), &mut Source::new(4), TIMES, side, side).unwrap_err()
    };
    let torn_trace: CheckCall =
        |image, trace, log, at| check_log(image, &split(trace).concat(), log, at);
    let from_one: CheckCall =
        side!(|ours, theirs, torn| right(ours, theirs, torn).map(|index| index + 1));
    let one_less: CheckCall = side!(|ours, theirs, torn| {
        right(ours, theirs, torn).map(|index| index.saturating_sub(1))
    });
    let all_agree: CheckCall = side!(|_, _, _| None);
    let no_image: CheckCall = |_, trace, log, at| check_log(&[], trace, log, at);
    for side in [torn_trace, from_one, one_less, all_agree, no_image, on_the_first] {
        assert!(both(side).contains(": both answer "));
    }
    let writes: CheckCall = touches!(|_, at| at.iter_mut().for_each(|one| *one = 0));
    assert!(both(writes).contains(": both leave "));
    let no_short: CheckCall = |image, trace, log, at| match at {
        [] => AGREE,
        _ => check_log(image, trace, log, at),
    };
    assert!(both(no_short).contains("both answer 0 where 0 numbers"));
}
