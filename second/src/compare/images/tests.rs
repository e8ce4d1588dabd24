//! The comparison finds differences: each wrong side differs from the right one
//! in one respect only.

use std::cell::Cell;

use super::loads::{compare_loads, Side};
use super::*;
use crate::compare::ledgers::{cut_objects, step, Course, StepCall};
use crate::compare::sides;
use crate::generate::guided::Guide;
use crate::generate::images::ledgers::DAMAGES;
use crate::generate::images::{joined, split, Fields, SORTS};
use crate::generate::with_length;
use crate::image::{HOLD, MANIFEST, OBJECT};
use crate::limits::{HOLDS, MANIFESTS, MANIFEST_VALUE, NAME, NAMES, OBJECT_VALUE, WORD, WORDS};
use crate::raw::{self, Raw, RawManifest, RawObject};
use crate::records::split_record;

const RANDOM: usize = 15_000;

fn reads(first: Calls) -> Result<Reads, String> {
    compare_reads(&mut Random::new(1), &mut Source::new(2), RANDOM, first, SECOND)
}

fn writes(first: WriteCall) -> Result<Writes, String> {
    compare_writes(&mut Random::new(3), &mut Source::new(4), RANDOM / 3, first, write_image)
}

#[test]
fn a_side_agrees_with_itself_and_gives_every_answer() {
    let reads = reads(SECOND).unwrap();
    println!("{reads:?}");
    assert_eq!(reads.images, RANDOM);
    for answer in [READ, UNSOUND, MALFORMED] {
        assert!(reads.answers[&answer] > RANDOM / 10, "{:?}", reads.answers);
    }
    assert!(reads.answers[&SHORT] > 10, "{:?}", reads.answers);
    for (sort, answers) in SORTS {
        let given = answers.iter().filter(|answer| reads.sorts.contains_key(&(sort, **answer)));
        assert_eq!(given.count(), answers.len(), "{sort:?}");
    }
    let writes = writes(write_image).unwrap();
    println!("{:?} {:?}", writes.damages, writes.rooms);
    assert!(DAMAGES.iter().all(|damage| {
        [None, Some(UNSOUND)].iter().any(|told| writes.damages.contains_key(&(*damage, *told)))
    }));
    for room in [Room::None, Room::Less, Room::OneLess, Room::Exact, Room::More] {
        assert!(writes.rooms[&room] > 100, "{:?}", writes.rooms);
    }
    assert!(writes.lengths[&(LONGEST_IMAGE as u64)] > 20);
}

#[test]
fn the_other_comparisons_agree_too() {
    let (mut random, mut source) = (Random::new(5), Source::new(6));
    let bytes = compare_rounds(&mut random, &mut source, 500, SECOND, SECOND).unwrap();
    assert!(bytes > 500_000, "{bytes}");
    let answers = compare_lent(&mut random, &mut source, SECOND, SECOND).unwrap();
    assert_eq!(answers.keys().copied().collect::<Vec<_>>(), [0, 1, 2, 3, 4]);
    let mut guide = Guide::new(7);
    let (one, other) = (loads::SECOND, loads::SECOND);
    let counts = compare_loads(&mut random, &mut guide, Course::Stocked, 1_000, one, other);
    let counts = counts.unwrap();
    assert!(counts.saves > 50 && counts.older > 20, "{counts:?}");
    assert!(counts.replayed < counts.steps && counts.verdicts[&0] > 200, "{counts:?}");
}

/// A reader that is wrong, by what is asked of the right one, or by what it
/// left.
#[track_caller]
fn wrong_read(told: &str, read: ReadCall) {
    let error = reads(Calls { read, ..SECOND }).expect_err("the reader is wrong");
    assert!(error.contains(told), "{}", error.lines().next().unwrap_or_default());
}

#[track_caller]
fn wrong_write(told: &str, write: WriteCall) {
    let error = writes(write).expect_err("the writer is wrong");
    assert!(error.contains(told), "{}", error.lines().next().unwrap_or_default());
}

/// Reads other fields than those that are there.
fn with_fields(image: &[u8], ledger: &mut [u64], change: impl Fn(&mut Fields)) -> u64 {
    if split_record(image).is_none_or(|(tag, _)| tag != image::OUTER) {
        return read_image(image, ledger);
    }
    let mut fields = split(image);
    change(&mut fields);
    read_image(&joined(&fields), ledger)
}

/// Changes the ledger that is read.
fn with_ledger(image: &[u8], ledger: &mut [u64], change: impl Fn(&mut Raw)) -> u64 {
    let answer = read_image(image, ledger);
    if answer == READ {
        let mut raw = raw_of(ledger);
        change(&mut raw);
        ledger[..LEDGER].copy_from_slice(&ledger_numbers(&raw));
    }
    answer
}

/// Moves the objects to the lowest places.
fn pack(raw: &mut Raw) {
    let taken: Vec<RawObject> = raw.objects.iter().copied().filter(|o| o.number != 0).collect();
    raw.objects.fill(RawObject::default());
    raw.occupancy = [0; WORDS];
    for (place, object) in taken.into_iter().enumerate() {
        raw.objects[place] = object;
        raw.occupancy[place / WORD] |= 1 << (place % WORD);
    }
}

/// Marks the objects that are listed, and no other.
fn mark_anew(raw: &mut Raw) {
    let lists = raw.kept().iter().filter_map(RawManifest::list);
    let listed: Vec<u64> = lists.flatten().copied().collect();
    raw.objects.iter_mut().for_each(|o| o.named = listed.contains(&o.number).into());
    // 0 is no object's number, and no list's.
    raw.objects.iter_mut().filter(|o| o.number == 0).for_each(|o| o.named = 0);
}

#[test]
fn holes_and_marks_that_are_not_kept_are_found() {
    wrong_read("first 0, second 0; [", |image, ledger| with_ledger(image, ledger, pack));
    wrong_read("first 0, second 0; [", |image, ledger| with_ledger(image, ledger, mark_anew));
    wrong_write("; [", |ledger, out| match ledger.get(..LEDGER).map(raw_of) {
        Some(mut raw) if raw::sound(&raw) => {
            pack(&mut raw);
            write_image(&ledger_numbers(&raw), out)
        }
        _ => write_image(ledger, out),
    });
}

#[test]
fn bytes_that_stay_are_compared() {
    wrong_write("None: written in", |ledger, out| {
        let answer = write_image(ledger, out);
        if answer == FULL {
            out.fill(0x60);
        }
        answer
    });
    wrong_write("first ", |ledger, out| {
        let answer = write_image(ledger, out);
        if let Some(length) = length(answer) {
            out[length..].fill(0);
        }
        answer
    });
}

#[test]
fn what_stands_beside_a_refusal_is_compared() {
    // The ledger that was lent stays.
    wrong_read("first 1, second 1; [", |image, ledger| {
        let mut read = ledger.to_vec();
        let answer = read_image(image, &mut read);
        if answer != UNSOUND {
            ledger.copy_from_slice(&read);
        }
        answer
    });
    wrong_read("first 2, second 2; [", |image, ledger| {
        let mut read = ledger.to_vec();
        let answer = read_image(image, &mut read);
        if answer != MALFORMED {
            ledger.copy_from_slice(&read);
        }
        answer
    });
    // The ledger that is not sound.
    wrong_read("first 1, second 1; [", |image, ledger| {
        let answer = read_image(image, ledger);
        if answer == UNSOUND {
            ledger[0] = 1;
        }
        answer
    });
}

#[test]
fn numbers_that_stay_are_compared() {
    wrong_read("first 3, second 3; [", |image, ledger| {
        let answer = read_image(image, ledger);
        if let (SHORT, Some(number)) = (answer, ledger.first_mut()) {
            *number = 0;
        }
        answer
    });
    wrong_read("; [1924] first 0, second ", |image, ledger| {
        let answer = read_image(image, ledger);
        ledger.iter_mut().skip(LEDGER).for_each(|number| *number = 0);
        answer
    });
}

#[test]
fn the_order_of_the_answers_is_compared() {
    // An unsound entry is refused before the form behind it is seen.
    wrong_read("first 1, second 2", |image, ledger| {
        let large = |field: &(u8, &[u8])| field.0 == OBJECT && field.1.get(18) > Some(&3);
        let fields = split_record(image).map(|(_, fields)| fields).unwrap_or_default();
        match read_image(image, ledger) {
            MALFORMED if fields.iter().any(large) => UNSOUND,
            answer => answer,
        }
    });
    wrong_read("first 2, second 1", |image, ledger| match read_image(image, ledger) {
        UNSOUND => MALFORMED,
        answer => answer,
    });
    wrong_read("first 2, second 3", |image, ledger| match read_image(image, ledger) {
        SHORT if image::read(image) == Err(image::Refused::Malformed) => MALFORMED,
        answer => answer,
    });
    wrong_write("first 0, second 1", |ledger, out| match write_image(ledger, out) {
        UNSOUND if out.is_empty() => FULL,
        answer => answer,
    });
    wrong_write("first 1, second 3", |ledger, out| match write_image(ledger, out) {
        SHORT => UNSOUND,
        answer => answer,
    });
}

#[test]
fn entries_that_vanish_or_are_too_many_are_found() {
    // An entry that is all zero is taken for a free place.
    wrong_read("first 0, second 1", |image, ledger| {
        with_fields(image, ledger, |fields| {
            let zero = |value: &[u8]| value.len() == OBJECT_VALUE && value[1..] == [0; 20];
            fields.retain(|(tag, value)| *tag != OBJECT || !zero(value));
        })
    });
    // What is above the places is dropped.
    wrong_read("second 2", |image, ledger| {
        with_fields(image, ledger, |fields| {
            let holds = fields.iter().filter(|(tag, _)| *tag == HOLD).count();
            fields.truncate(fields.len() - holds.saturating_sub(HOLDS));
        })
    });
    wrong_read("second 2", |image, ledger| {
        with_fields(image, ledger, |fields| {
            let mut manifests = 0;
            fields.retain(|(tag, _)| {
                manifests += usize::from(*tag == MANIFEST);
                *tag != MANIFEST || manifests <= MANIFESTS
            });
        })
    });
    wrong_read("second 2", |image, ledger| {
        with_fields(image, ledger, |fields| {
            let manifests = fields.iter_mut().filter(|(tag, _)| *tag == MANIFEST);
            manifests.for_each(|(_, value)| value.truncate(MANIFEST_VALUE + NAME * NAMES));
        })
    });
}

#[test]
fn other_forms_are_found() {
    wrong_read("second 2", |image, ledger| {
        with_fields(image, ledger, |fields| {
            if let Some((0x61, edition)) = fields.first_mut().map(|f| (f.0, &mut f.1)) {
                edition.fill(1);
            }
        })
    });
    wrong_read("second 2", |image, ledger| {
        with_fields(image, ledger, |fields| cut_flag(fields, 9))
    });
    wrong_read("second 2", |image, ledger| {
        with_fields(image, ledger, |fields| cut_flag(fields, 20))
    });
    // Objects in any order.
    wrong_read("second 2", |image, ledger| {
        with_fields(image, ledger, |fields| {
            let place = |field: &(u8, Vec<u8>)| field.1.first().copied();
            let at = |tag: u8| fields.iter().position(|field| field.0 == tag);
            if let (Some(first), Some(end)) = (at(OBJECT), at(MANIFEST)) {
                if first < end {
                    fields[first..end].sort_by_key(place);
                }
            }
        })
    });
}

#[test]
fn another_outer_field_is_found() {
    // Bytes behind the image.
    wrong_read("second 2", |image, ledger| match *image {
        [0x60, high, low, ..] => {
            let end = 3 + usize::from(u16::from_be_bytes([high, low]));
            read_image(&image[..end.min(image.len())], ledger)
        }
        _ => read_image(image, ledger),
    });
    // The outer length plays no part, or the outer tag.
    wrong_read("second 2", |image, ledger| match image {
        [0x60, _, _, ..] => read_image(&with_length(image), ledger),
        _ => read_image(image, ledger),
    });
    wrong_read("second 2", |image, ledger| match image {
        [_, rest @ ..] => read_image(&[&[0x60], rest].concat(), ledger),
        _ => read_image(image, ledger),
    });
}

fn cut_flag(fields: &mut Fields, part: usize) {
    for (_, value) in fields.iter_mut().filter(|(tag, value)| *tag == OBJECT && value.len() == 21) {
        value[part] &= 1;
    }
}

#[test]
fn numbers_that_are_cut_are_found() {
    wrong_write("second 1", |ledger, out| {
        let mut ledger = ledger.to_vec();
        if ledger.len() >= LEDGER {
            cut_objects(&mut ledger);
        }
        write_image(&ledger, out)
    });
    // Unused places are not looked at.
    wrong_write("second 1", |ledger, out| match ledger.get(..LEDGER).map(raw_of) {
        Some(mut raw) if raw.hold_count < HOLDS as u64 => {
            raw.holds[raw.hold_count as usize..].fill(Default::default());
            write_image(&ledger_numbers(&raw), out)
        }
        _ => write_image(ledger, out),
    });
}

#[test]
fn wrong_rounds_and_loads_are_found() {
    let (mut random, mut source) = (Random::new(8), Source::new(9));
    let wrong = Calls { read: |image, ledger| with_ledger(image, ledger, pack), ..SECOND };
    compare_rounds(&mut random, &mut source, 200, wrong, SECOND).unwrap_err();
    compare_rounds(&mut random, &mut source, 200, SECOND, wrong).unwrap_err();
    compare_lent(&mut random, &mut source, wrong, SECOND).unwrap_err();
    // The clock goes on where another ledger is loaded.
    let images = Calls {
        read: |image, ledger| {
            let clock = ledger.first().copied().unwrap_or(0);
            with_ledger(image, ledger, |raw| raw.clock = raw.clock.max(clock % 1_000))
        },
        ..SECOND
    };
    let side = Side { images, ..loads::SECOND };
    let mut load = |side: Side| {
        let mut guide = Guide::new(10);
        compare_loads(&mut random, &mut guide, Course::Fresh, 2_000, side, loads::SECOND)
    };
    load(side).unwrap_err();
    // The highest number collected is kept beside the ledger.
    let kept: StepCall = |ledger, numbers, list, verdict, objects| {
        thread_local!(static HIGHEST: Cell<u64> = const { Cell::new(0) });
        let answer = step(ledger, numbers, list, verdict, objects);
        HIGHEST.set(HIGHEST.get().max(ledger[1]));
        ledger[1] = HIGHEST.get();
        answer
    };
    let steps = sides::Calls { step: kept, ..sides::SECOND };
    load(Side { steps, ..loads::SECOND }).unwrap_err();
}
