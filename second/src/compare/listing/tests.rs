//! The comparison finds differences: each wrong reader differs from the right
//! one in one respect only.

use super::*;
use crate::generate::listings::SORTS;
use crate::names::{self, Name};

const RANDOM: usize = 10_000;

fn compared(first: ReadCall) -> Result<Counts, String> {
    compare_reads(&mut Random::new(7), RANDOM, first, read_listing)
}

#[track_caller]
fn found(name: &str, read: ReadCall) {
    let message = compared(read).expect_err(&format!("the reader is wrong: {name}"));
    assert!(message.contains("first") && message.contains("second"), "{message}");
}

/// Fewer random listings than are compared with the proved library, and the
/// same fixed ones.
#[test]
fn a_side_agrees_with_itself_and_gives_every_answer() {
    let counts = compared(read_listing).unwrap();
    println!("{counts:?}");
    assert!(counts.listings > 100_000);
    assert!(SORTS.iter().all(|sort| counts.sorts[sort] > 200), "{:?}", counts.sorts);
    for answer in [WHOLE, BAD, SHORT] {
        assert!(counts.answers[&answer] > 1_000, "{:?}", counts.answers);
    }
    for place in [Place::Only, Place::First, Place::Middle, Place::Last] {
        assert!(counts.places[&place] > 200, "{:?}", counts.places);
    }
    assert!((0..6).all(|line| counts.bad[&line] > 100), "{:?}", counts.bad);
    assert!((0..2).all(|found| counts.manifests[&found] > 1_000), "{:?}", counts.manifests);
    assert!((0..6).all(|objects| counts.objects[&objects] > 100), "{:?}", counts.objects);
}

#[test]
fn places_are_told_apart() {
    for (listing, bad, expected) in [
        ("a", 0, Place::Only),
        ("a\n", 0, Place::Only),
        ("\n\n", 0, Place::First),
        ("a\nb\nc", 1, Place::Middle),
        ("a\nb\nc", 2, Place::Last),
        ("a\nb\nc\n", 2, Place::Last),
    ] {
        assert_eq!(place(listing.as_bytes(), bad), expected, "{listing:?}");
    }
}

/// Lets the change see the answer and the four numbers that are right.
fn changed(bytes: &[u8], numbers: &mut [u64], change: impl Fn(&mut u64, &mut [u64])) -> u64 {
    let mut answer = read_listing(bytes, numbers);
    if answer != SHORT {
        change(&mut answer, numbers);
    }
    answer
}

#[test]
fn readers_that_answer_wrongly_are_found() {
    found("all is whole", |bytes, numbers| changed(bytes, numbers, |answer, _| *answer = WHOLE));
    found("2 for a bad line", |bytes, numbers| changed(bytes, numbers, |answer, _| *answer *= 2));
    found("1 before 3", |bytes, numbers| match listing::read(bytes).bad {
        Some(_) if numbers.len() < LISTING => BAD,
        _ => read_listing(bytes, numbers),
    });
    found("three numbers are enough", |bytes, numbers| match numbers.len() {
        3 => WHOLE,
        _ => read_listing(bytes, numbers),
    });
    found("no bytes are bad", |bytes, numbers| match bytes {
        b"" => changed(bytes, numbers, |answer, _| *answer = BAD),
        _ => read_listing(bytes, numbers),
    });
}

#[test]
fn readers_that_write_wrongly_are_found() {
    found("a number beside 3", |bytes, numbers| {
        let answer = read_listing(bytes, numbers);
        if let (SHORT, Some(number)) = (answer, numbers.first_mut()) {
            *number = 0;
        }
        answer
    });
    found("a fifth number", |bytes, numbers| {
        let answer = read_listing(bytes, numbers);
        numbers.iter_mut().skip(LISTING).for_each(|number| *number = 0);
        answer
    });
    found("nothing is written", |bytes, numbers| read_listing(bytes, &mut numbers.to_vec()));
    found("no number for no manifest", |bytes, numbers| {
        let before = numbers.get(1).copied().unwrap_or_default();
        changed(bytes, numbers, |_, numbers| {
            if numbers[0] == 0 {
                numbers[1] = before;
            }
        })
    });
    found("no line for a whole listing", |bytes, numbers| {
        let before = numbers.get(3).copied().unwrap_or_default();
        changed(bytes, numbers, |answer, numbers| {
            if *answer == WHOLE {
                numbers[3] = before;
            }
        })
    });
}

#[test]
fn readers_that_count_wrongly_are_found() {
    found("lines from 1", |bytes, numbers| {
        changed(bytes, numbers, |answer, numbers| numbers[3] += *answer)
    });
    found("a bad line in a byte", |bytes, numbers| {
        changed(bytes, numbers, |_, numbers| numbers[3] %= 256)
    });
    found("objects in a byte", |bytes, numbers| {
        changed(bytes, numbers, |_, numbers| numbers[2] %= 256)
    });
    found("a manifest in 32 bits", |bytes, numbers| {
        changed(bytes, numbers, |_, numbers| numbers[1] %= 1 << 32)
    });
    found("manifest 0 is none", |bytes, numbers| {
        changed(bytes, numbers, |_, numbers| numbers[0] = numbers[1].min(1))
    });
    found("lines in place of objects", |bytes, numbers| {
        changed(bytes, numbers, |_, numbers| {
            numbers[2] = bytes.iter().filter(|byte| **byte == b'\n').count() as u64;
        })
    });
    found("objects behind a bad line", |bytes, numbers| {
        changed(bytes, numbers, |_, numbers| {
            let lines = bytes.split(|byte| *byte == b'\n');
            let objects = lines.filter(|line| matches!(names::read(line), Some(Name::Object(_))));
            numbers[2] = objects.count() as u64;
        })
    });
    found("manifests behind a bad line", |bytes, numbers| {
        changed(bytes, numbers, |_, numbers| {
            let lines = bytes.split(|byte| *byte == b'\n');
            let manifests = lines.filter_map(|line| match names::read(line) {
                Some(Name::Manifest(number)) => Some(number),
                _ => None,
            });
            numbers[1] = manifests.max().unwrap_or(0);
        })
    });
}

/// A reader of lines that are good as the two functions say: of a line with its
/// end the name, and of a line and its predecessor, without their ends, whether
/// it is above.
fn by(
    bytes: &[u8],
    numbers: &mut [u64],
    name: fn(&[u8]) -> Option<Name>,
    above: fn(&[u8], &[u8]) -> bool,
) -> u64 {
    let Some(room) = numbers.get_mut(..LISTING) else {
        return SHORT;
    };
    room.fill(0);
    let mut before: Option<&[u8]> = None;
    for (place, line) in bytes.split_inclusive(|byte| *byte == b'\n').enumerate() {
        let bare = line.strip_suffix(b"\n").unwrap_or(line);
        let rises = before.is_none_or(|before| above(bare, before));
        match name(line).filter(|_| rises) {
            None => {
                room[3] = place as u64;
                return BAD;
            }
            Some(Name::Manifest(number)) => (room[0], room[1]) = (1, number.max(room[1])),
            Some(Name::Object(_)) => room[2] += 1,
        }
        before = Some(bare);
    }
    WHOLE
}

fn name(line: &[u8]) -> Option<Name> {
    names::read(line.strip_suffix(b"\n")?)
}

fn above(line: &[u8], before: &[u8]) -> bool {
    line > before
}

#[test]
fn the_right_rules_are_not_reported() {
    compared(|bytes, numbers| by(bytes, numbers, name, above)).unwrap();
}

#[test]
fn readers_of_another_order_are_found() {
    found("none", |bytes, numbers| by(bytes, numbers, name, |_, _| true));
    found("equal lines", |bytes, numbers| by(bytes, numbers, name, |line, before| line >= before));
    found("falling", |bytes, numbers| by(bytes, numbers, name, |line, before| line < before));
    found("numbers alone", |bytes, numbers| {
        by(bytes, numbers, name, |line, before| {
            let number = |line: &[u8]| match names::read(line) {
                Some(Name::Manifest(number) | Name::Object(number)) => number,
                None => 0,
            };
            number(line) > number(before)
        })
    });
    found("folders alone", |bytes, numbers| {
        by(bytes, numbers, name, |line, before| line[0] >= before[0] && line != before)
    });
    found("manifests behind objects", |bytes, numbers| {
        by(bytes, numbers, name, |line, before| line > before || line[0] < before[0])
    });
    found("the last two digits alone", |bytes, numbers| {
        by(bytes, numbers, name, |line, before| {
            let digits = |line: &[u8]| match line[0] {
                b'm' => line[..29].to_vec(),
                _ => line[..24].to_vec(),
            };
            let cut = |line: &[u8]| digits(line)[digits(line).len() - 2..].to_vec();
            line[0] > before[0] || cut(line) > cut(before)
        })
    });
}

#[test]
fn readers_of_other_lines_are_found() {
    found("without its end", |bytes, numbers| {
        by(bytes, numbers, |line| names::read(line.strip_suffix(b"\n").unwrap_or(line)), above)
    });
    found("with a return", |bytes, numbers| {
        by(bytes, numbers, |line| name(line).or(names::read(line.strip_suffix(b"\r\n")?)), above)
    });
    found("object 0", |bytes, numbers| {
        let named = |line: &[u8]| match line {
            b"wal/00000000000000000000.sst\n" => Some(Name::Object(0)),
            _ => name(line),
        };
        by(bytes, numbers, named, above)
    });
    found("a bare object", |bytes, numbers| {
        by(bytes, numbers, |line| name(line).or(name(&[b"wal/", line].concat())), above)
    });
    found("a crossed folder", |bytes, numbers| {
        let named = |line: &[u8]| match line.strip_prefix(b"wal/") {
            Some(rest) => name(line).or(name(&[b"manifest/", rest].concat())),
            None => name(line),
        };
        by(bytes, numbers, named, above)
    });
    found("a line of 29 bytes whatever follows", |bytes, numbers| {
        by(bytes, numbers, |line| name(line).or(names::read(line.get(..28)?)), above)
    });
    found("bytes behind the last end", |bytes, numbers| {
        let end = bytes.iter().rposition(|byte| *byte == b'\n').map_or(0, |place| place + 1);
        read_listing(&bytes[..end], numbers)
    });
    found("an empty last line", |bytes, numbers| match bytes.strip_suffix(b"\n\n") {
        Some(rest) => read_listing(&[rest, b"\n"].concat(), numbers),
        None => read_listing(bytes, numbers),
    });
    found("a line of its own behind the last end", |bytes, numbers| {
        let lines = bytes.iter().filter(|byte| **byte == b'\n').count();
        changed(bytes, numbers, |answer, numbers| {
            if *answer == WHOLE {
                (*answer, numbers[3]) = (BAD, lines as u64);
            }
        })
    });
}
