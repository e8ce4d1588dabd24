//! Wrong route cards.

use super::*;
use crate::compare::ledgers::cut_objects;

/// The error of a wrong card.
#[track_caller]
fn found(course: Course, fill: FillCall, told: &str) {
    let error = filled(course, 8, Calls { fill, ..SECOND }).expect_err("the card is wrong");
    assert!(error.contains(told), "{error}");
}

fn entries(card: &[u64]) -> u64 {
    (card.len() / ENTRY) as u64
}

#[test]
fn a_card_past_its_count_is_found() {
    found(
        Course::Fresh,
        |ledger, time, hold, count, card| {
            let past = count.saturating_add(1);
            let count = if past <= entries(card) { past } else { count };
            fill_card(ledger, time, hold, count, card)
        },
        "answers 0 and 0; answered[",
    );
}

#[test]
fn a_card_that_is_filled_beside_2_is_found() {
    found(
        Course::Fresh,
        |ledger, time, hold, count, card| {
            let most = count.min(entries(card));
            match fill_card(ledger, time, hold, most, card) {
                DONE if count > most => MALFORMED,
                answer => answer,
            }
        },
        "answers 2 and 2; answered[",
    );
}

#[test]
fn counts_that_are_cut_are_found() {
    let cut: [FillCall; 3] = [
        |ledger, time, hold, count, card| {
            fill_card(ledger, time, hold, count.min(entries(card)), card)
        },
        |ledger, time, hold, count, card| fill_card(ledger, time, hold, count & 0xFFFF_FFFF, card),
        // The numbers needed are told modulo 2^64.
        |ledger, time, hold, count, card| {
            let fits = count.wrapping_mul(3) <= card.len() as u64;
            let count = if fits { count.min(entries(card)) } else { count };
            fill_card(ledger, time, hold, count, card)
        },
    ];
    for fill in cut {
        found(Course::Fresh, fill, "answers 0 and 2");
    }
}

#[test]
fn a_whole_card_that_is_refused_is_found() {
    found(
        Course::Fresh,
        |ledger, time, hold, count, card| {
            let count = if count == entries(card) { u64::MAX } else { count };
            fill_card(ledger, time, hold, count, card)
        },
        "answers 2 and 0",
    );
}

/// The card filled entry by entry, each on the ledger that `next` makes of the
/// first one, the last one and the last code.
fn one_by_one(
    ledger: &mut [u64],
    (time, hold, count): (u64, u64, u64),
    card: &mut [u64],
    next: fn(&[u64], &[u64], u64) -> Vec<u64>,
) -> u64 {
    let first = ledger.to_vec();
    let answer = fill_card(ledger, time, hold, count, &mut card.to_vec());
    if answer != DONE {
        return answer;
    }
    let mut before = first.clone();
    for entry in card.chunks_exact_mut(ENTRY).take(count as usize) {
        ledger.copy_from_slice(&before);
        fill_card(ledger, time, hold, 1, entry);
        before = next(&first, ledger, entry[1]);
    }
    if count > 0 {
        ledger.copy_from_slice(&before);
    }
    answer
}

#[test]
fn a_card_filled_one_by_one_is_right() {
    let fill: FillCall = |ledger, time, hold, count, card| {
        one_by_one(ledger, (time, hold, count), card, |_, last, _| last.to_vec())
    };
    filled(Course::Fresh, 4, Calls { fill, ..SECOND }).unwrap();
}

/// The ledger comes back after the last look alone.
#[test]
fn each_look_on_the_first_ledger_is_found() {
    found(
        Course::Fresh,
        |ledger, time, hold, count, card| {
            let first = ledger.to_vec();
            let answer = fill_card(ledger, time, hold, count, card);
            let last = count.checked_sub(1).filter(|_| answer == DONE);
            if let Some(entry) = last.and_then(|n| card.chunks_exact(ENTRY).nth(n as usize)) {
                ledger.copy_from_slice(&first);
                look_on(ledger, time, entry[0], hold);
            }
            answer
        },
        "answers 0 and 0; ledger[0] first",
    );
}

#[test]
fn wrong_ledgers_between_looks_are_found() {
    let wrong: [FillCall; 3] = [
        // None is handed back.
        |ledger, time, hold, count, card| {
            one_by_one(ledger, (time, hold, count), card, |first, _, _| first.to_vec())
        },
        // A refused look leads back to the first.
        |ledger, time, hold, count, card| {
            one_by_one(ledger, (time, hold, count), card, |first, last, code| match code {
                0 => last.to_vec(),
                _ => first.to_vec(),
            })
        },
        // A look takes its second.
        |ledger, time, hold, count, card| {
            one_by_one(ledger, (time, hold, count), card, |_, last, _| {
                [&[last[0].saturating_add(1)], &last[1..]].concat()
            })
        },
    ];
    for fill in wrong {
        found(Course::Fresh, fill, "answers 0 and 0; ");
    }
}

/// Roles above 1 and wide currencies stay, whatever the count.
#[test]
fn numbers_that_are_cut_are_found() {
    let none: FillCall = |ledger, time, hold, count, card| {
        let answer = fill_card(ledger, time, hold, count, card);
        if answer == DONE && count == 0 {
            cut_objects(ledger);
        }
        answer
    };
    found(Course::Damaged, none, "answers 0 and 0; ledger[");
    let above: FillCall = |ledger, time, hold, count, card| {
        let answer = fill_card(ledger, time, hold, count, card);
        if answer == MALFORMED {
            cut_objects(ledger);
        }
        answer
    };
    found(Course::Damaged, above, "answers 2 and 2; ledger[");
}

#[test]
fn a_card_that_stops_at_a_refused_look_is_found() {
    found(
        Course::Fresh,
        |ledger, time, hold, count, card| {
            let before = card.to_vec();
            let answer = fill_card(ledger, time, hold, count, card);
            if answer == DONE {
                let mut codes = card.chunks_exact(ENTRY).take(count as usize).map(|e| e[1]);
                let stop = codes.position(|code| code != 0).map_or(card.len(), |e| (e + 1) * ENTRY);
                card[stop..].copy_from_slice(&before[stop..]);
            }
            answer
        },
        "answers 0 and 0; answered[",
    );
}

#[test]
fn wrong_entries_are_found() {
    let wrong: [FillCall; 3] = [
        // A refused entry keeps its object.
        |ledger, time, hold, count, card| {
            let before = card.to_vec();
            let answer = fill_card(ledger, time, hold, count, card);
            let entries = card.chunks_exact_mut(ENTRY).zip(before.chunks_exact(ENTRY));
            entries.filter(|(e, _)| e[1] != 0).for_each(|(e, before)| e[2] = before[2]);
            answer
        },
        // The currency is written as it was taken.
        |ledger, time, hold, count, card| {
            let answer = fill_card(ledger, time, hold, count, card);
            card.chunks_exact_mut(ENTRY).for_each(|entry| entry[0] = cut(entry[0]).into());
            answer
        },
        // Of a currency the last 16 bits are taken.
        |ledger, time, hold, count, card| {
            let before = card.to_vec();
            card.chunks_exact_mut(ENTRY).for_each(|entry| entry[0] &= 0xFFFF);
            let answer = fill_card(ledger, time, hold, count, card);
            let entries = card.chunks_exact_mut(ENTRY).zip(before.chunks_exact(ENTRY));
            entries.for_each(|(entry, before)| entry[0] = before[0]);
            answer
        },
    ];
    for fill in wrong {
        found(Course::Fresh, fill, "answered[");
    }
}

#[test]
fn wrong_longest_cards_are_found() {
    // One entry more than the most is filled, or their count is judged.
    let long: FillCall = |ledger, time, hold, count, card| {
        let most = card.len().min(ENTRIES * ENTRY);
        fill_card(ledger, time, hold, count, &mut card[..most])
    };
    found(Course::Fresh, long, " and 3");
    // As many entries as there may be and a piece of one more are refused.
    let short: FillCall = |ledger, time, hold, count, card| match card.len() {
        length if length > ENTRIES * ENTRY => SHORT,
        _ => fill_card(ledger, time, hold, count, card),
    };
    found(Course::Fresh, short, "answers 3 and ");
    // 2 before 3.
    let early: FillCall = |ledger, time, hold, count, card| {
        let above = count > entries(card);
        match fill_card(ledger, time, hold, count, card) {
            SHORT if above => MALFORMED,
            answer => answer,
        }
    };
    found(Course::Fresh, early, "answers 2 and 3");
}

#[test]
fn a_cleared_piece_of_an_entry_is_found() {
    found(
        Course::Fresh,
        |ledger, time, hold, count, card| {
            let answer = fill_card(ledger, time, hold, count, card);
            card.chunks_exact_mut(ENTRY).into_remainder().fill(0);
            answer
        },
        "answered[",
    );
}
