//! The stored traces, listings and logs: the examples', and the inputs of the
//! programs `judge`, `list_bucket` and `check_log` with what they print of each.

use crate::depot;
use crate::generate::guided::Guide;
use crate::ledger::Ledger;
use crate::listing::{list_bucket, LONGEST_LISTING};
use crate::log_check::{check_log, LONGEST_FILE};
use crate::names::{self, Name};
use crate::random::Random;
use crate::records::{next_record, write_step, Kind, Next, Role, Step};
use crate::run::{judge, run, LONGEST_TRACE};

/// A file's name and contents.
pub type File = (String, Vec<u8>);

/// A stored input's name and bytes.
pub type Input = (&'static str, Vec<u8>);

/// The name of a stored trace and log, and their bytes; `None` for a file that
/// isn't there.
pub type Files = (&'static str, Option<Vec<u8>>, Option<Vec<u8>>);

/// With it the longest trace is given every verdict but 1, and has the longest
/// step and the longest verdict.
const SEED: u64 = 20_240_860;

pub fn examples() -> Vec<File> {
    let week = depot::trace();
    vec![
        ("depot_week.log".to_string(), log_of(&week)),
        ("depot_week.trace".to_string(), week),
        ("bucket.listing".to_string(), bucket().concat()),
    ]
}

/// In the folder of each program's crate its input and what it prints.
pub fn crates() -> Vec<File> {
    let (trace, listing) = (depot::trace(), bucket().concat());
    vec![
        ("check_log/data/trace".to_string(), trace.clone()),
        ("check_log/data/log".to_string(), log_of(&trace)),
        ("check_log/stdout".to_string(), b"agree\n".to_vec()),
        ("judge/stdout".to_string(), judge(&trace).into_bytes()),
        ("judge/stdin".to_string(), trace),
        ("list_bucket/stdout".to_string(), list_bucket(&listing).into_bytes()),
        ("list_bucket/stdin".to_string(), listing),
    ]
}

/// In a folder for each program its further inputs, and what it prints of each.
pub fn programs() -> Vec<File> {
    let mut files = stored("judge", further_traces(), judge);
    files.extend(stored("list_bucket", further_listings(), list_bucket));
    files.extend(stored_logs());
    files
}

fn stored(program: &str, inputs: Vec<Input>, prints: fn(&[u8]) -> String) -> Vec<File> {
    let mut files = Vec::new();
    for (name, input) in inputs {
        files.push((format!("{program}/{name}.out"), prints(&input).into_bytes()));
        files.push((format!("{program}/{name}.in"), input));
    }
    files
}

fn stored_logs() -> Vec<File> {
    let mut files = Vec::new();
    for (name, trace, log) in logs() {
        let printed = check_log(trace.as_deref(), log.as_deref());
        files.push((format!("check_log/{name}.out"), printed.into_bytes()));
        files.extend(trace.map(|bytes| (format!("check_log/{name}.trace"), bytes)));
        files.extend(log.map(|bytes| (format!("check_log/{name}.log"), bytes)));
    }
    files
}

fn further_traces() -> Vec<Input> {
    let longest = longest();
    let too_long = [&longest[..], &[0]].concat();
    vec![
        ("empty", Vec::new()),
        ("accepted", accepted()),
        ("torn", torn()),
        ("longest", longest),
        ("too_long", too_long),
    ]
}

fn further_listings() -> Vec<Input> {
    let longest = longest_listing();
    let too_long = [&longest[..], b"\n"].concat();
    vec![
        ("empty", Vec::new()),
        ("bad", bad_bucket().concat()),
        ("longest", longest),
        ("too_long", too_long),
    ]
}

/// The log of the second program's own run from fresh.
fn log_of(trace: &[u8]) -> Vec<u8> {
    run(&Ledger::fresh(), trace, usize::MAX).output
}

/// The files of `check_log`, beside the week and its log.
pub fn logs() -> Vec<Files> {
    let (week, log) = (depot::trace(), log_of(&depot::trace()));
    let (longest, longest_log) = longest_files();
    let and_more = |bytes: &[u8]| Some([bytes, &[0]].concat());
    let accepted = [0x40, 0, 4, 0, 0, 1, 0];
    // The last byte of the list that case 12 collects.
    let mut changed = log.clone();
    changed[depot_verdicts(12).len() - 1] ^= 1;
    vec![
        ("changed", Some(week.clone()), Some(changed)),
        ("empty", Some(Vec::new()), Some(Vec::new())),
        ("longest", Some(longest.clone()), Some(longest_log.clone())),
        ("missing", Some(week.clone()), Some(depot_verdicts(22))),
        ("no_log", and_more(&longest), None),
        ("no_trace", None, Some(log.clone())),
        ("one_too_many", Some(week.clone()), Some([&log[..], &accepted].concat())),
        ("too_long_log", Some(longest.clone()), and_more(&longest_log)),
        ("too_long_trace", and_more(&longest), Some(longest_log)),
        ("torn_log", Some(week.clone()), Some(log[..log.len() - 1].to_vec())),
        ("torn_trace", Some(week[..week.len() - 1].to_vec()), Some(depot_verdicts(22))),
    ]
}

/// The first verdicts of the week's log, as many as asked.
fn depot_verdicts(count: usize) -> Vec<u8> {
    log_of(&first_records(count))
}

/// A trace and its log, each as long as the program takes: two fences with
/// verdicts of 18 bytes, and records that are no steps with 7 each, the last of
/// them long.
fn longest_files() -> (Vec<u8>, Vec<u8>) {
    const REFUSED: usize = (LONGEST_FILE - 2 * 18) / 7;
    let fences = [Role::Writer, Role::Compactor].map(|role| {
        let kind = Kind::Fence { role, slot: 1 + role as u64 };
        write_step(&Step { time: 0, kind, list: Vec::new() }).expect("it is well formed")
    });
    let mut trace = fences.concat();
    trace.extend([0xEE, 0, 0].repeat(REFUSED - 1));
    let left = LONGEST_FILE - trace.len() - 3;
    let length = u16::try_from(left).expect("a record may be as long");
    trace.push(0xEE);
    trace.extend(length.to_be_bytes());
    trace.resize(LONGEST_FILE, 0xEE);
    let log = log_of(&trace);
    assert_eq!(log.len(), LONGEST_FILE);
    (trace, log)
}

/// All inputs of `list_bucket`.
pub fn listings() -> Vec<Input> {
    let mut all = vec![("whole", bucket().concat())];
    all.extend(further_listings());
    all
}

fn line(name: Name) -> Vec<u8> {
    let mut line = names::write(name).expect("no sample has object 0");
    line.push(b'\n');
    line
}

/// A depot's bucket after some weeks: collected objects have left gaps.
fn bucket() -> Vec<Vec<u8>> {
    let manifests = (0..=5).map(Name::Manifest);
    let objects = [2, 5, 6, 9, 11, 12, 13, 17, 20, 21, 24, 30].map(Name::Object);
    manifests.chain(objects).map(line).collect()
}

/// The same bucket with a stray file in its place by byte order, line 9, and so
/// behind six manifests and three objects.
fn bad_bucket() -> Vec<Vec<u8>> {
    let mut lines = bucket();
    lines.insert(9, b"wal/00000000000000000006.sst.tmp\n".to_vec());
    lines
}

/// As many bytes as the program takes: 17 lines of 39 bytes and 2,237 of 29,
/// up to the highest numbers, the objects' spread over all.
fn longest_listing() -> Vec<u8> {
    const MANIFESTS: u64 = 17;
    const OBJECTS: u64 = 2_237;
    let manifests = (0..MANIFESTS).rev().map(|back| Name::Manifest(u64::MAX - back));
    let step = u64::MAX / OBJECTS;
    let objects = (0..OBJECTS).rev().map(|back| Name::Object(u64::MAX - back * step));
    let listing = manifests.chain(objects).map(line).collect::<Vec<_>>().concat();
    assert_eq!(listing.len(), LONGEST_LISTING);
    listing
}

/// The first records of the week, as many as asked.
fn first_records(count: usize) -> Vec<u8> {
    let mut trace = depot::trace();
    let mut end = 0;
    for _ in 0..count {
        if let Next::Record(length) = next_record(&trace[end..]) {
            end += length;
        }
    }
    trace.truncate(end);
    trace
}

/// The four records before the first that is refused.
fn accepted() -> Vec<u8> {
    first_records(4)
}

/// The first five records, one of them refused, and all but one byte of the
/// sixth.
fn torn() -> Vec<u8> {
    let mut trace = first_records(6);
    trace.pop();
    trace
}

/// As many bytes as the program takes, of guided steps most of which are
/// accepted; the last record is torn unless it ends there by chance.
fn longest() -> Vec<u8> {
    let (mut random, mut guide) = (Random::new(SEED), Guide::new(SEED + 1));
    let (mut ledger, mut trace) = (Ledger::fresh(), Vec::new());
    while trace.len() < LONGEST_TRACE {
        let step = guide.next(&ledger);
        let accepted = ledger.step(&step).code() == 0;
        if !accepted && random.below(8) != 0 {
            continue;
        }
        // A step that no reader takes stands as a record of no known kind.
        trace.extend(write_step(&step).unwrap_or(vec![0xEE, 0, 0]));
    }
    trace.truncate(LONGEST_TRACE);
    trace
}

#[cfg(test)]
mod tests {
    use super::*;
    use crate::limits::{LONGEST_STEP, LONGEST_VERDICT};
    use crate::records::LAST_CODE;

    #[test]
    fn the_longest_trace_has_every_kind_accepted_and_every_verdict() {
        let trace = longest();
        assert_eq!(trace.len(), LONGEST_TRACE);
        let done = run(&Ledger::fresh(), &trace, usize::MAX);
        let (mut rest, mut out) = (&trace[..], &done.output[..]);
        let (mut codes, mut accepted) = ([0; LAST_CODE as usize + 1], [0; 10]);
        let (mut longest_steps, mut longest_verdicts) = (0, 0);
        while let (Next::Record(step), Next::Record(verdict)) =
            (next_record(rest), next_record(out))
        {
            let code = usize::from(out[6]);
            codes[code] += 1;
            if code == 0 {
                accepted[usize::from(rest[0]) - 0x10] += 1;
                longest_steps += usize::from(step == LONGEST_STEP);
                longest_verdicts += usize::from(verdict == LONGEST_VERDICT);
            }
            (rest, out) = (&rest[step..], &out[verdict..]);
        }
        println!("by row {codes:?}, accepted {accepted:?}, {} bytes torn", rest.len());
        assert!(accepted.iter().all(|times| *times >= 30), "{accepted:?}");
        let mut rows = codes.iter().enumerate();
        assert!(rows.all(|(row, times)| (row == 1) == (*times == 0)), "{codes:?}");
        assert!(codes[0] > 5 * codes[1..].iter().sum::<usize>(), "{codes:?}");
        assert!(longest_steps > 0 && longest_verdicts > 0);
    }

    /// What the file of that name has.
    fn text(files: &[File], name: &str) -> String {
        let file = files.iter().find(|file| file.0 == name).expect("it is written");
        String::from_utf8(file.1.clone()).expect("it is text")
    }

    #[test]
    fn judge_prints_each_code_and_the_bytes_unread() {
        let codes: Vec<String> =
            depot::week().iter().map(|(_, verdict)| format!("{}\n", verdict.code())).collect();
        assert_eq!(text(&crates(), "judge/stdout"), codes.concat() + "rest 0\n");
        let files = programs();
        let printed = |name: &str| text(&files, &format!("judge/{name}.out"));
        assert_eq!(printed("empty"), "rest 0\n");
        assert_eq!(printed("accepted"), "0\n0\n0\n0\nrest 0\n");
        assert_eq!(printed("torn"), "0\n0\n0\n0\n16\nrest 46\n");
        assert_eq!(printed("too_long"), "too long\n");
        assert!(printed("longest").lines().count() > 1_000);
    }

    #[test]
    fn check_log_prints_the_first_disagreement() {
        assert_eq!(text(&crates(), "check_log/stdout"), "agree\n");
        let files = programs();
        let printed = |name: &str| text(&files, &format!("check_log/{name}.out"));
        assert_eq!(printed("changed"), "differs at 11\n");
        assert_eq!(printed("empty"), "agree\n");
        assert_eq!(printed("longest"), "agree\n");
        assert_eq!(printed("missing"), "differs at 22\n");
        assert_eq!(printed("no_log"), "no file\n");
        assert_eq!(printed("no_trace"), "no file\n");
        assert_eq!(printed("one_too_many"), "differs at 23\n");
        assert_eq!(printed("too_long_log"), "too long\n");
        assert_eq!(printed("too_long_trace"), "too long\n");
        assert_eq!(printed("torn_log"), "differs at 22\n");
        assert_eq!(printed("torn_trace"), "differs at 22\n");
    }

    #[test]
    fn the_listings_are_as_long_as_they_say() {
        let lengths: Vec<usize> = listings().iter().map(|(_, input)| input.len()).collect();
        assert_eq!(lengths, [6 * 39 + 12 * 29, 0, 6 * 39 + 12 * 29 + 33, 65_536, 65_537]);
    }

    #[test]
    fn list_bucket_prints_what_a_listing_says() {
        assert_eq!(text(&crates(), "list_bucket/stdout"), "manifest 5\nobjects 12\nwhole\n");
        let files = programs();
        let printed = |name: &str| text(&files, &format!("list_bucket/{name}.out"));
        assert_eq!(printed("empty"), "no manifest\nobjects 0\nwhole\n");
        assert_eq!(printed("bad"), "manifest 5\nobjects 3\nbad 9\n");
        assert_eq!(printed("longest"), "manifest 18446744073709551615\nobjects 2237\nwhole\n");
        assert_eq!(printed("too_long"), "too long\n");
    }
}
