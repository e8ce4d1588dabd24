//! The vectors of `second/vectors`: each line says what is asked of the proved
//! library and, behind `: `, what comes of it.

use std::path::Path;
use std::{fs, mem};

use second::compare::desk::{ENTRIES, ENTRY, SALE};
use second::compare::ledgers::LEDGER;
use second::compare::listing::LISTING;
use second::compare::records::{STEP, VERDICT};
use second::compare::traces::COUNTS;
use second::limits::{LONGEST_IMAGE, LONGEST_VERDICT, PLACES};
use second::proved;

/// The files, and how many vectors each has at least.
const FILES: [(&str, usize); 6] = [
    ("names.txt", 77),
    ("records.txt", 157),
    ("sheets_and_sales.txt", 55),
    ("listings.txt", 26),
    ("images.txt", 179),
    ("logs.txt", 85),
];

/// What a lent byte and a lent number are before the call.
const BYTE: u8 = 0xEE;
const NUMBER: u64 = 99;
/// How many bytes lie behind those that a writer is lent, and numbers behind
/// those that a check is.
const BEHIND: usize = 16;

/// What is read and written, the number of its kind, and the kind's words, in
/// which a number is the place of the number that stands there.
const KINDS: [(&str, u64, &str); 19] = [
    ("name", 0, "manifest 1"),
    ("name", 1, "object 1"),
    ("sheet", 0, "object 1 currency 2 rate 3 / 4"),
    ("step", 0, "fence time 1 role 2 slot 4"),
    ("step", 1, "put time 1 role 2 epoch 3 object 5 currency 6"),
    ("step", 2, "commit time 1 epoch 3 slot 4 list"),
    ("step", 3, "compact time 1 epoch 3 slot 4 object 5"),
    ("step", 4, "hold time 1 hold 7 manifest 8 expiry 9"),
    ("step", 5, "renew time 1 hold 7 expiry 9"),
    ("step", 6, "release time 1 hold 7"),
    ("step", 7, "list time 1 hold 7"),
    ("step", 8, "look time 1 currency 6 hold 7"),
    ("step", 9, "collect time 1"),
    ("verdict", 0, "refused 1"),
    ("verdict", 1, "done"),
    ("verdict", 2, "epoch 1"),
    ("verdict", 3, "listed manifest 1 list"),
    ("verdict", 4, "found 1"),
    ("verdict", 5, "collected list"),
];

/// The place of the list's length, the last of the numbers.
fn length_place(form: &str) -> usize {
    let numbers = if form == "verdict" { VERDICT } else { STEP };
    numbers - 1
}

/// Reads into the numbers, the kind first, and the list.
fn read_call(form: &str, bytes: &[u8], numbers: &mut [u64], list: &mut [u64]) -> u64 {
    match form {
        "name" => {
            numbers[0] = proved::read_name(bytes, &mut numbers[1..]);
            numbers[0] & 2
        }
        "sheet" => proved::read_sheet(bytes, &mut numbers[1..]),
        "step" => proved::read_step(bytes, numbers, list),
        _ => proved::read_verdict(bytes, numbers, list),
    }
}

fn write_call(form: &str, numbers: &[u64], list: &[u64], out: &mut [u8]) -> u64 {
    match form {
        "name" => proved::write_name(numbers[0], numbers[1], out),
        "sheet" => proved::write_sheet(&numbers[1..], out),
        "step" => proved::write_step(numbers, list, out),
        _ => proved::write_verdict(numbers, list, out),
    }
}

/// What the bytes say, and whether that is written as these bytes.
fn read(form: &str, bytes: &[u8]) -> Option<String> {
    let (mut numbers, mut list) = ([0; STEP], [0; PLACES]);
    match read_call(form, bytes, &mut numbers, &mut list) {
        0 => {}
        2 => return Some("malformed".to_string()),
        answer => return Some(format!("answer {answer}")),
    }
    let (.., kind) = KINDS.iter().find(|kind| (kind.0, kind.1) == (form, numbers[0]))?;
    let length = if kind.ends_with(" list") { numbers[length_place(form)] } else { 0 };
    let text = words_of(kind, &numbers) + &list_words(&list[..length as usize]);
    let same = format!("written {}: {bytes:02X?}; bytes behind as before", bytes.len());
    let again = written(LONGEST_VERDICT, |out| write_call(form, &numbers, &list, out));
    Some(format!("{text}; {}", if again == same { "written the same" } else { &again }))
}

/// Writes what a text says, also where no bytes say it.
fn write(text: &str) -> Option<String> {
    let (text, room) = in_room(text)?;
    let (text, behind) = text.split_once(" behind it").unwrap_or((text, ""));
    let (text, listed) = text.split_once(" list").unwrap_or((text, ""));
    let (listed, behind) = (list_of(listed)?, list_of(behind)?);
    let (form, kind, mut numbers) = KINDS.iter().find_map(|(form, kind, words)| {
        Some((form, *kind, numbers_of(words.trim_end_matches(" list"), text)?))
    })?;
    numbers[0] = kind;
    numbers[length_place(form)] = listed.len() as u64;
    let mut list = [listed, behind].concat();
    list.resize(PLACES, 0);
    Some(written(room, |out| write_call(form, &numbers, &list, out)))
}

/// A kind's words, with the numbers in their places and each role by its name.
fn words_of(kind: &str, numbers: &[u64]) -> String {
    let words = kind.split(' ').map(|word| match word.parse::<usize>() {
        Ok(place) => numbers[place].to_string(),
        Err(_) => word.to_string(),
    });
    let text = words.collect::<Vec<String>>().join(" ");
    text.replace("role 0", "role writer").replace("role 1", "role compactor")
}

/// The numbers that a text of the kind says, in their places; the others are 0.
fn numbers_of(kind: &str, text: &str) -> Option<[u64; STEP]> {
    let mut numbers = [0; STEP];
    for (place, word) in kind.split(' ').zip(text.split(' ')) {
        if let Ok(place) = place.parse::<usize>() {
            numbers[place] = word.parse().unwrap_or((word == "compactor").into());
        }
    }
    // Any other text is not what these numbers are in words.
    (words_of(kind, &numbers) == text).then_some(numbers)
}

/// A list's numbers; of three or more that rise by ones, the first and last.
fn list_words(list: &[u64]) -> String {
    match list {
        [a, _, .., z] if list.iter().copied().eq(*a..=*z) => format!(" {a}..{z}"),
        _ => list.iter().map(|number| format!(" {number}")).collect(),
    }
}

/// The numbers of a list, in which `1..64` are all from 1 to 64.
fn list_of(text: &str) -> Option<Vec<u64>> {
    let mut list = Vec::new();
    for word in text.split_whitespace() {
        let (first, last) = word.split_once("..").unwrap_or((word, word));
        list.extend(first.parse::<u64>().ok()?..=last.parse().ok()?);
    }
    Some(list)
}

/// The bytes of a text in quotes, or of pairs of digits, among which each
/// number of `1..64` has eight, and `each 0..255 { }` has what stands in it for
/// each of the numbers: n is the number in one byte, N the next one in eight.
fn bytes_of(text: &str) -> Option<Vec<u8>> {
    if let Some(text) = text.strip_prefix('"') {
        let text = text.strip_suffix('"')?;
        return Some(text.replace("\\n", "\n").replace("\\r", "\r").into_bytes());
    }
    if let Some((before, rest)) = text.split_once("each ") {
        let (numbers, rest) = rest.split_once(" {")?;
        let (inner, behind) = rest.split_once('}')?;
        let of = |n: &u64| {
            inner.replace('n', &format!("{n:02X}")).replace('N', &format!("{:016X}", n + 1))
        };
        let each: String = list_of(numbers)?.iter().map(of).collect();
        return bytes_of(&format!("{before}{each}{behind}"));
    }
    let mut digits = String::new();
    for word in text.split_whitespace() {
        match word.contains("..") {
            true => digits.extend(list_of(word)?.iter().map(|number| format!("{number:016X}"))),
            false => digits += word,
        }
    }
    let pairs = (0..digits.len()).step_by(2).map(|at| digits.get(at..at + 2));
    pairs.map(|pair| u8::from_str_radix(pair?, 16).ok()).collect()
}

/// What is asked, and how many bytes are lent for it.
fn in_room(text: &str) -> Option<(&str, usize)> {
    let (text, room) = text.rsplit_once(" in ")?;
    Some((text, room.parse().ok()?))
}

/// What a writer that is lent so many bytes answers, and what became of them.
fn written(room: usize, write: impl FnOnce(&mut [u8]) -> u64) -> String {
    let mut out = vec![BYTE; room + BEHIND];
    let answer = write(&mut out[..room]);
    let length = if answer <= 2 { 0 } else { answer as usize };
    let stay = out[length..].iter().all(|byte| *byte == BYTE);
    let stay = if stay { "as before" } else { "changed" };
    match answer {
        0 => format!("full, all bytes {stay}"),
        1 => format!("unsound, all bytes {stay}"),
        2 => format!("malformed, all bytes {stay}"),
        _ => format!("written {length}: {:02X?}; bytes behind {stay}", &out[..length]),
    }
}

/// What a line says should come, with bytes as `written` has them.
fn expected(text: &str) -> Option<String> {
    let Some((before, rest)) = text.split_once(": ") else {
        return Some(text.to_string());
    };
    let (bytes, behind) = rest.split_once(';')?;
    Some(format!("{before}: {:02X?};{behind}", bytes_of(bytes)?))
}

fn listing(bytes: &[u8]) -> String {
    let mut numbers = [NUMBER; LISTING];
    let is_bad = proved::read_listing(bytes, &mut numbers);
    let [has_manifest, manifest, objects, bad] = numbers;
    let said = |is: u64, number: u64| if is == 0 { "none".to_string() } else { number.to_string() };
    let (manifest, bad) = (said(has_manifest, manifest), said(is_bad, bad));
    format!("manifest {manifest}, objects {objects}, bad {bad}")
}

/// Reads an image, and says whether what it says is written as these bytes; the
/// lines behind this one are about the ledger that it leaves.
fn image(ledger: &mut [u64], bytes: &[u8]) -> String {
    let mut fresh = [NUMBER; LEDGER];
    proved::fresh(&mut fresh);
    ledger.fill(NUMBER);
    let answer = proved::read_image(bytes, ledger);
    let beside = if *ledger == fresh { "the fresh ledger" } else { "another ledger" };
    match answer {
        0 => {}
        1 => return format!("unsound, {beside} beside it"),
        2 => return format!("malformed, {beside} beside it"),
        answer => return format!("answer {answer}"),
    }
    let same = format!("written {}: {bytes:02X?}; bytes behind as before", bytes.len());
    let again = written(LONGEST_IMAGE, |out| proved::write_image(ledger, out));
    let again = if again == same { "written the same" } else { &again };
    format!("read, clock {}, collected {}; {again}", ledger[0], ledger[1])
}

/// Some of the ledger's numbers.
fn numbers(ledger: &[u64], places: &str) -> Option<String> {
    let (first, last) = places.split_once("..")?;
    let numbers = ledger.get(first.parse().ok()?..=last.parse().ok()?)?;
    Some(list_words(numbers).trim_start().to_string())
}

/// Runs a trace; the lines behind this one are about the ledger that it leaves.
fn run(ledger: &mut [u64], text: &str) -> Option<String> {
    let (trace, room) = in_room(text)?;
    let (trace, mut end, mut counts) = (bytes_of(trace)?, NUMBER, [NUMBER; COUNTS]);
    let written = written(room, |out| {
        end = proved::run_on(ledger, &trace, out, &mut counts);
        counts[1]
    });
    let end = ["whole", "torn", "full"].get(end as usize)?;
    Some(format!("{end}, read {}, clock {}, {written}", counts[0], ledger[0]))
}

/// Checks a log against a trace, from an image or from the fresh ledger.
fn check(text: &str) -> Option<String> {
    let bytes = |text: &str| if text == "nothing" { Some(vec![]) } else { bytes_of(text) };
    let (text, lent) = in_room(text)?;
    let (text, image) = text.split_once(" from ").unwrap_or((text, "nothing"));
    let (trace, log) = text.split_once(" against ")?;
    let mut at = vec![NUMBER; lent + BEHIND];
    let answer = proved::check_log(&bytes(image)?, &bytes(trace)?, &bytes(log)?, &mut at[..lent]);
    let stay = at[usize::from(answer == 4)..].iter().all(|number| *number == NUMBER);
    let stay = if stay { "as before" } else { "changed" };
    Some(match answer {
        0 => format!("agree, all numbers {stay}"),
        1 => format!("image unsound, all numbers {stay}"),
        2 => format!("image malformed, all numbers {stay}"),
        3 => format!("no number is lent, all numbers {stay}"),
        4 => format!("differs at {}, numbers behind {stay}", at[0]),
        answer => format!("answer {answer}"),
    })
}

/// Changes a number of the ledger, for the lines behind this one.
fn change(ledger: &mut [u64], text: &str) -> Option<String> {
    let [place, number, ..] = numbers_of("0 is 1", text)?;
    Some(format!("was {}", mem::replace(ledger.get_mut(place as usize)?, number)))
}

/// Sells by a sheet's bytes, or by those of a sheet in words, also of one that
/// no writer writes.
fn sell(mut ledger: Vec<u64>, text: &str) -> Option<String> {
    let (sheet, asked) = text.split_once(", ")?;
    let sheet = match numbers_of("object 0 currency 1 rate 2 / 3", sheet) {
        Some([o, c, n, d, ..]) => {
            format!("50 0026 05 0008 {o:016X} 06 0002 {c:04X} 0C 0008 {n:016X} 0D 0008 {d:016X}")
        }
        None => sheet.to_string(),
    };
    let [time, currency, hold, fare, ..] = numbers_of("time 0 currency 1 hold 2 fare 3", asked)?;
    let mut sale = [NUMBER; SALE];
    proved::sell(&mut ledger, time, &bytes_of(&sheet)?, currency, hold, fare, &mut sale);
    let said = match sale {
        [0, charge] => format!("charged {charge}"),
        [code, 0] => format!("refused {code}"),
        other => format!("{other:?}"),
    };
    Some(format!("{said}, clock {}", ledger[0]))
}

/// Fills in a card whose first entries have these currencies, code 99 and
/// object 7; the others are 0. Of equal entries side by side one is said.
fn card(mut ledger: Vec<u64>, text: &str) -> Option<String> {
    let (asked, currencies) = text.split_once(" of ")?;
    let [time, hold, count, ..] = numbers_of("time 0 hold 1 count 2", asked)?;
    let mut card: Vec<u64> = list_of(currencies)?.iter().flat_map(|it| [*it, 99, 7]).collect();
    card.resize(ENTRY * ENTRIES, 0);
    let code = proved::fill_card(&mut ledger, time, hold, count, &mut card);
    let entries = card.chunks(ENTRY).map(|entry| words_of("0 code 1 object 2", entry));
    let mut entries: Vec<String> = entries.collect();
    entries.dedup();
    Some(format!("code {code}, clock {}; {}", ledger[0], entries.join("; ")))
}

/// What comes of what is asked; `None` where that is not understood.
fn outcome(ledger: &mut [u64], asked: &str) -> Option<String> {
    let (call, text) = asked.split_once(' ').unwrap_or((asked, ""));
    match call {
        "name" | "sheet" | "step" | "verdict" => read(call, &bytes_of(text)?),
        "write" => write(text),
        "next" => Some(match proved::next_record(&bytes_of(text)?) {
            0 => "end".to_string(),
            1 => "torn".to_string(),
            length => format!("record of {length}"),
        }),
        "listing" => Some(listing(&bytes_of(text)?)),
        "image" => Some(image(ledger, &bytes_of(text)?)),
        "save" => {
            let room = text.strip_prefix("in ")?.parse().ok()?;
            Some(written(room, |out| proved::write_image(ledger, out)))
        }
        "numbers" => numbers(ledger, text),
        "run" => run(ledger, text),
        "number" => change(ledger, text),
        "check" => check(text),
        "sell" => sell(ledger.to_vec(), text),
        "card" => card(ledger.to_vec(), text),
        _ => None,
    }
}

/// What is wrong with a line, if anything is.
fn fault(ledger: &mut [u64], line: &str) -> Option<String> {
    let parts = line.split_once(": ");
    match parts.and_then(|(asked, said)| Some((outcome(ledger, asked)?, expected(said)?))) {
        None => Some(format!("not understood: {line}")),
        Some((came, said)) => (came != said).then(|| format!("{line}\n    came: {came}")),
    }
}

#[test]
fn what_comes_is_what_each_line_says() {
    let mut faults = Vec::new();
    for (file, least) in FILES {
        let path = Path::new(env!("CARGO_MANIFEST_DIR")).join("vectors").join(file);
        let text = fs::read_to_string(path).expect("it is there");
        let lines = text.lines().filter(|line| !line.is_empty() && !line.starts_with('#'));
        assert!(lines.clone().count() >= least, "{file} has fewer than {least} vectors");
        let mut ledger = vec![0; LEDGER];
        proved::fresh(&mut ledger);
        faults.extend(lines.filter_map(|line| fault(&mut ledger, line)));
    }
    assert!(faults.is_empty(), "{}", faults.join("\n"));
}
