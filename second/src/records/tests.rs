//! Records of each kind, both ways, and each malformed shape.

use super::*;
use crate::generate::loose;
use crate::limits::{LONGEST_STEP, LONGEST_VERDICT};

fn hex(text: &str) -> Vec<u8> {
    let digits: Vec<u8> = text.bytes().filter(|byte| *byte != b' ').collect();
    digits
        .chunks(2)
        .map(|pair| u8::from_str_radix(std::str::from_utf8(pair).unwrap(), 16).unwrap())
        .collect()
}

fn step(time: u64, kind: Kind) -> Step {
    let list = Vec::new();
    Step { time, kind, list }
}

/// The first numbers from 1.
fn first(length: usize) -> Vec<u64> {
    (1..=length as u64).collect()
}

fn commit(list: &[u64]) -> Step {
    let kind = Kind::Commit { epoch: 3, slot: 4 };
    let list = list.to_vec();
    Step { time: 1, kind, list }
}

type Sample = (Step, &'static str);

/// One step of each kind with the bytes written by hand.
fn samples() -> Vec<Sample> {
    [manifest_samples(), hold_samples()].concat()
}

fn manifest_samples() -> Vec<Sample> {
    vec![
        (
            step(0, Kind::Fence { role: Role::Writer, slot: 1 }),
            "10 001A 01 0008 0000000000000000 02 0001 00 04 0008 0000000000000001",
        ),
        (
            step(2, Kind::Put { role: Role::Compactor, epoch: 3, object: 5, currency: 978 }),
            "11 002A 01 0008 0000000000000002 02 0001 01 03 0008 0000000000000003 \
             05 0008 0000000000000005 06 0002 03D2",
        ),
        (
            commit(&[6, 7]),
            "12 0034 01 0008 0000000000000001 03 0008 0000000000000003 \
             04 0008 0000000000000004 07 0010 0000000000000006 0000000000000007",
        ),
        (
            commit(&[]),
            "12 0024 01 0008 0000000000000001 03 0008 0000000000000003 \
             04 0008 0000000000000004 07 0000",
        ),
        (
            step(1, Kind::Compact { epoch: 3, slot: 4, object: 5 }),
            "13 002C 01 0008 0000000000000001 03 0008 0000000000000003 \
             04 0008 0000000000000004 05 0008 0000000000000005",
        ),
    ]
}

fn hold_samples() -> Vec<Sample> {
    vec![
        (
            step(1, Kind::Hold { hold: 8, manifest: 9, expiry: 10 }),
            "14 002C 01 0008 0000000000000001 08 0008 0000000000000008 \
             09 0008 0000000000000009 0A 0008 000000000000000A",
        ),
        (
            step(1, Kind::Renew { hold: 8, expiry: 0 }),
            "15 0021 01 0008 0000000000000001 08 0008 0000000000000008 0A 0008 0000000000000000",
        ),
        (
            step(1, Kind::Release { hold: u64::MAX }),
            "16 0016 01 0008 0000000000000001 08 0008 FFFFFFFFFFFFFFFF",
        ),
        (
            step(1, Kind::List { hold: 0 }),
            "17 0016 01 0008 0000000000000001 08 0008 0000000000000000",
        ),
        (
            step(1, Kind::Look { currency: 999, hold: 0 }),
            "18 001B 01 0008 0000000000000001 06 0002 03E7 08 0008 0000000000000000",
        ),
        (step(u64::MAX, Kind::Collect), "19 000B 01 0008 FFFFFFFFFFFFFFFF"),
    ]
}

fn verdicts() -> Vec<(Verdict, &'static str)> {
    let listed = Verdict::Listed { manifest: 6, list: vec![2, 5] };
    vec![
        (Verdict::Refused(1), "40 0004 00 0001 01"),
        (Verdict::Refused(17), "40 0004 00 0001 11"),
        (Verdict::Done, "40 0004 00 0001 00"),
        (Verdict::Epoch(1), "40 000F 00 0001 00 03 0008 0000000000000001"),
        (
            listed,
            "40 0022 00 0001 00 07 0010 0000000000000002 0000000000000005 \
             09 0008 0000000000000006",
        ),
        (Verdict::Found(5), "40 000F 00 0001 00 05 0008 0000000000000005"),
        (Verdict::Collected(vec![4]), "40 000F 00 0001 00 07 0008 0000000000000004"),
        (Verdict::Collected(vec![]), "40 0007 00 0001 00 07 0000"),
    ]
}

#[test]
fn each_kind_is_read_and_written() {
    for (step, text) in samples() {
        let bytes = hex(text);
        assert_eq!(write_step(&step), Some(bytes.clone()), "{step:?}");
        assert_eq!(read_step(&bytes), Some(step));
        assert_eq!(next_record(&bytes), Next::Record(bytes.len()));
    }
}

#[test]
fn each_verdict_is_read_and_written() {
    for (verdict, text) in verdicts() {
        let bytes = hex(text);
        assert_eq!(write_verdict(&verdict), Some(bytes.clone()), "{verdict:?}");
        assert_eq!(read_verdict(&bytes), Some(verdict));
    }
}

#[test]
fn the_lengths_are_those_of_the_document() {
    let length = |verdict: Verdict| write_verdict(&verdict).map(|bytes| bytes.len());
    assert_eq!(length(Verdict::Refused(2)), Some(7));
    assert_eq!(length(Verdict::Collected(first(PLACES))), Some(LONGEST_VERDICT));
    let list = first(NAMES);
    assert_eq!(length(Verdict::Listed { manifest: 0, list }), Some(533));
    assert_eq!(write_step(&commit(&first(NAMES))).unwrap().len(), LONGEST_STEP);
    assert_eq!((LONGEST_VERDICT, LONGEST_STEP), (2058, 551));
}

/// Written by the fields, whether a writer takes the list or not.
#[test]
fn lists_of_every_length_around_the_limits_are_read_and_written() {
    let code = field(CODE, &[0]);
    let (names, places) = (64, 256);
    for length in (0..NAMES + 3).chain(PLACES - 3..PLACES + 3) {
        let (list, written) = (first(length), list_field(&first(length)));
        let (step, bytes) = (commit(&list), loose::commit(1, 3, 4, &list));
        assert_eq!(read_step(&bytes), (length <= names).then_some(step.clone()), "{length}");
        assert_eq!(write_step(&step), (length <= names).then_some(bytes), "{length}");

        let bytes = field(VERDICT, &[&code[..], &written].concat());
        let verdict = Verdict::Collected(list.clone());
        assert_eq!(read_verdict(&bytes), (length <= places).then_some(verdict.clone()), "{length}");
        assert_eq!(write_verdict(&verdict), (length <= places).then_some(bytes), "{length}");

        let manifest = field(MANIFEST, &6_u64.to_be_bytes());
        let bytes = field(VERDICT, &[&code[..], &written, &manifest].concat());
        let verdict = Verdict::Listed { manifest: 6, list };
        assert_eq!(read_verdict(&bytes), (length <= names).then_some(verdict.clone()), "{length}");
        assert_eq!(write_verdict(&verdict), (length <= names).then_some(bytes), "{length}");
    }
}

#[test]
fn torn_and_lengthened_records_are_malformed() {
    for (step, text) in samples() {
        let bytes = hex(text);
        for cut in 0..bytes.len() {
            assert_eq!(read_step(&bytes[..cut]), None, "{step:?} cut to {cut}");
            let expected = if cut == 0 { Next::End } else { Next::Torn };
            assert_eq!(next_record(&bytes[..cut]), expected);
        }
        let longer = [&bytes[..], &[0]].concat();
        assert_eq!(read_step(&longer), None);
        // The same byte within the outer length.
        let mut claimed = longer.clone();
        claimed[2] += 1;
        assert_eq!(read_step(&claimed), None);
        assert_eq!(read_step(&[&bytes[..], &bytes[..]].concat()), None);
    }
}

#[test]
fn only_the_ten_tags_are_kinds() {
    for (step, text) in samples() {
        for tag in 0..=255 {
            let mut bytes = hex(text);
            bytes[0] = tag;
            match read_step(&bytes) {
                None => assert_ne!(bytes, hex(text)),
                Some(read) if bytes == hex(text) => assert_eq!(read, step),
                // RELEASE and LIST have the same fields.
                Some(read) => assert!(matches!(
                    (step.kind, read.kind),
                    (Kind::Release { .. }, Kind::List { .. })
                )),
            }
        }
    }
}

/// The inner fields of a record, missing, doubled, exchanged, of another tag
/// or of another width.
#[test]
fn other_fields_or_orders_are_malformed() {
    for (_, text) in samples() {
        let bytes = hex(text);
        let (tag, fields) = split_record(&bytes).unwrap();
        let refuse = |fields: &[Field]| {
            let inner: Vec<u8> = fields.iter().flat_map(|(t, v)| field(*t, v)).collect();
            assert_eq!(read_step(&field(tag, &inner)), None, "{fields:?}");
        };
        for index in 0..fields.len() {
            let (mut missing, mut doubled) = (fields.clone(), fields.clone());
            missing.remove(index);
            refuse(&missing);
            doubled.insert(index, fields[index]);
            refuse(&doubled);
            for other in index + 1..fields.len() {
                let mut exchanged = fields.clone();
                exchanged.swap(index, other);
                refuse(&exchanged);
            }
            for other in (0..=0x0B).filter(|other| *other != fields[index].0) {
                let mut renamed = fields.clone();
                renamed[index].0 = other;
                refuse(&renamed);
            }
            let value = fields[index].1;
            let wider = [&[0], value].concat();
            let mut resized = fields.clone();
            resized[index].1 = &wider;
            refuse(&resized);
            if let [_, narrower @ ..] = value {
                resized[index].1 = narrower;
                refuse(&resized);
            }
        }
    }
}

#[test]
fn an_unknown_role_is_malformed() {
    for role in 2..=255 {
        let mut bytes = hex(samples()[0].1);
        bytes[17] = role;
        assert_eq!(read_step(&bytes), None);
    }
}

#[test]
fn malformed_values_are_refused_both_ways() {
    let role = Role::Writer;
    let hold = |hold, expiry| Kind::Hold { hold, manifest: 0, expiry };
    for (kind, good) in [
        (Kind::Put { role, epoch: 0, object: 1, currency: 999 }, true),
        (Kind::Put { role, epoch: 0, object: 1, currency: 0 }, true),
        (Kind::Put { role, epoch: 0, object: 0, currency: 0 }, false),
        (Kind::Put { role, epoch: 0, object: 1, currency: 1000 }, false),
        (Kind::Compact { epoch: 0, slot: 0, object: 1 }, true),
        (Kind::Compact { epoch: 0, slot: 0, object: 0 }, false),
        (Kind::Look { currency: 1, hold: 0 }, true),
        (Kind::Look { currency: 0, hold: 0 }, false),
        (Kind::Look { currency: 1000, hold: 0 }, false),
        (hold(0, 0), false),
        (hold(1, 0), true),
        (hold(1, 9), false),
        (hold(1, 10), true),
        (hold(1, 11), true),
        (Kind::Renew { hold: 0, expiry: 0 }, false),
        (Kind::Renew { hold: 1, expiry: 9 }, false),
        (Kind::Renew { hold: 1, expiry: 10 }, true),
        (Kind::Release { hold: 0 }, false),
        (Kind::List { hold: 0 }, true),
        (Kind::Fence { role, slot: 0 }, true),
    ] {
        assert_eq!(write_step(&step(10, kind)).is_some(), good, "{kind:?}");
    }
    // The reader refuses the same: a HOLD whose expiry was changed to 9.
    let mut bytes = write_step(&step(10, hold(1, 10))).unwrap();
    *bytes.last_mut().unwrap() = 9;
    assert_eq!(read_step(&bytes), None);
}

#[test]
fn lists_rise_without_zero_up_to_the_longest() {
    for (list, good) in [
        (&[][..], true),
        (&[u64::MAX], true),
        (&first(NAMES), true),
        (&first(NAMES + 1), false),
        (&[0], false),
        (&[0, 1], false),
        (&[1, 1], false),
        (&[2, 1], false),
        (&[1, 3, 2], false),
    ] {
        assert_eq!(write_step(&commit(list)).is_some(), good, "{list:?}");
    }
    let mut bytes = write_step(&commit(&[6, 7])).unwrap();
    *bytes.last_mut().unwrap() = 6;
    assert_eq!(read_step(&bytes), None);
    // A list beside a kind that has none can be typed but not recorded.
    let mut collect = step(0, Kind::Collect);
    collect.list = vec![1];
    assert_eq!(write_step(&collect), None);
}

#[test]
fn malformed_verdicts_are_refused_both_ways() {
    let listed = |list: Vec<u64>| Verdict::Listed { manifest: 0, list };
    for verdict in [
        Verdict::Refused(0),
        Verdict::Refused(18),
        Verdict::Refused(255),
        Verdict::Epoch(0),
        Verdict::Found(0),
        Verdict::Collected(vec![0]),
        Verdict::Collected(vec![2, 2]),
        Verdict::Collected(first(PLACES + 1)),
        listed(first(NAMES + 1)),
        listed(vec![2, 1]),
    ] {
        assert_eq!(write_verdict(&verdict), None, "{verdict:?}");
    }
    for text in [
        "",
        "40 0000",
        "41 0004 00 0001 00",
        "10 0004 00 0001 00",
        "40 0004 00 0001 12",
        "40 0005 00 0002 0000",
        "40 000F 00 0001 01 03 0008 0000000000000001",
        "40 000F 00 0001 00 03 0008 0000000000000000",
        "40 000F 00 0001 00 05 0008 0000000000000000",
        "40 000F 00 0001 00 07 0008 0000000000000000",
        "40 000F 00 0001 00 09 0008 0000000000000001",
        "40 0012 00 0001 00 09 0008 0000000000000001 07 0000",
        "40 000E 00 0001 00 07 0007 00000000000001",
        "40 0008 00 0001 00 00 0001 00",
    ] {
        assert_eq!(read_verdict(&hex(text)), None, "{text}");
    }
}

#[test]
fn damaged_verdicts_read_as_nothing_or_as_what_writes_them() {
    for (_, text) in verdicts() {
        let bytes = hex(text);
        for bit in 0..bytes.len() * 8 {
            let mut flipped = bytes.clone();
            flipped[bit / 8] ^= 1 << (bit % 8);
            if let Some(verdict) = read_verdict(&flipped) {
                assert_eq!(write_verdict(&verdict), Some(flipped));
            }
        }
        for cut in 0..bytes.len() {
            assert_eq!(read_verdict(&bytes[..cut]), None);
        }
    }
}

#[test]
fn next_record_looks_at_the_length_alone() {
    assert_eq!(next_record(&[]), Next::End);
    assert_eq!(next_record(&[0xFF]), Next::Torn);
    assert_eq!(next_record(&[0xFF, 0]), Next::Torn);
    assert_eq!(next_record(&[0xFF, 0, 0]), Next::Record(3));
    assert_eq!(next_record(&[0xFF, 0, 1]), Next::Torn);
    assert_eq!(next_record(&[0xFF, 0, 1, 0, 0]), Next::Record(4));
    let longest = [vec![0, 0xFF, 0xFF], vec![0; 65_535]].concat();
    assert_eq!(next_record(&longest), Next::Record(65_538));
}
