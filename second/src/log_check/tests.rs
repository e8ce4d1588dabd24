//! Agreement, each way to disagree, which of two goes first, and what the
//! program prints.

use super::Checked::{Agree, Differs};
use super::*;
use crate::compare::sides::split;
use crate::depot;
use crate::raw::raw;
use crate::records::{write_verdict, Kind, Role, Verdict};

const REFUSED_2: [u8; 7] = [0x40, 0, 4, 0, 0, 1, 2];

/// The week's records, and its verdicts as the paper's table has them.
fn week() -> (Vec<Vec<u8>>, Vec<Vec<u8>>) {
    let verdicts = depot::week().into_iter().map(|(_, verdict)| write_verdict(&verdict).unwrap());
    (split(&depot::trace()).into_iter().map(Vec::from).collect(), verdicts.collect())
}

fn fence(slot: u64) -> Vec<u8> {
    depot::record(0, Kind::Fence { role: Role::Writer, slot })
}

fn epoch(epoch: u64) -> Vec<u8> {
    write_verdict(&Verdict::Epoch(epoch)).unwrap()
}

fn fresh_check(trace: &[u8], log: &[u8]) -> Checked {
    check(None, trace, log).unwrap()
}

#[test]
fn the_week_agrees_with_the_paper_s_verdicts() {
    let (records, verdicts) = week();
    assert_eq!((records.len(), verdicts.len(), verdicts.concat().len()), (23, 23, 260));
    for count in 0..=23 {
        let (trace, log) = (records[..count].concat(), verdicts[..count].concat());
        assert_eq!(fresh_check(&trace, &log), Agree);
    }
}

#[test]
fn the_whole_case_agrees() {
    let (trace, log) = (fence(1), epoch(1));
    assert_eq!((trace.len(), log.len()), (29, 18));
    assert_eq!(fresh_check(&trace, &log), Agree);
    assert_eq!(fresh_check(&trace, &epoch(2)), Differs(0));
}

#[test]
fn a_verdict_that_differs_is_missing_or_is_one_too_many() {
    let (records, verdicts) = week();
    let (trace, log) = (records.concat(), verdicts.concat());
    for index in 0..23 {
        let mut other = verdicts.clone();
        other[index] = write_verdict(&Verdict::Refused(17)).unwrap();
        assert_eq!(fresh_check(&trace, &other.concat()), Differs(index as u64));
        let missing = verdicts[..index].concat();
        assert_eq!(fresh_check(&trace, &missing), Differs(index as u64));
        let shorter = records[..index].concat();
        assert_eq!(fresh_check(&shorter, &log), Differs(index as u64));
    }
    let more = [&log[..], &REFUSED_2].concat();
    assert_eq!(fresh_check(&trace, &more), Differs(23));
}

#[test]
fn a_torn_log_differs_at_the_torn_verdict() {
    let (records, verdicts) = week();
    let trace = records.concat();
    let mut before = Vec::new();
    for (index, verdict) in verdicts.iter().enumerate() {
        for cut in 1..verdict.len() {
            let log = [&before[..], &verdict[..cut]].concat();
            assert_eq!(fresh_check(&trace, &log), Differs(index as u64));
        }
        before.extend(verdict);
    }
    for torn in [&[0x40][..], &[0x40, 0], &[0x40, 0, 4], &REFUSED_2[..6]] {
        assert_eq!(fresh_check(&trace, &[&before[..], torn].concat()), Differs(23));
    }
}

/// Also where the log has a verdict for each whole record, no more and no less.
#[test]
fn a_torn_trace_never_agrees() {
    let (records, verdicts) = week();
    for index in 0..23 {
        let before = records[..index].concat();
        for cut in 1..records[index].len() {
            let trace = [&before[..], &records[index][..cut]].concat();
            for log in [&verdicts[..index], &verdicts[..=index], &verdicts[..]] {
                assert_eq!(fresh_check(&trace, &log.concat()), Differs(index as u64));
            }
        }
    }
}

#[test]
fn the_earlier_difference_goes_first() {
    let (records, verdicts) = week();
    let (trace, log) = (records.concat(), verdicts.concat());
    let mut other = log.clone();
    // The code of the fifth verdict, 16, which stands behind the others.
    let at = verdicts[..4].concat().len() + 6;
    assert_eq!(other[at], 16);
    other[at] = 15;
    assert_eq!(fresh_check(&trace, &other), Differs(4));
    assert_eq!(fresh_check(&trace[..trace.len() - 1], &other), Differs(4));
    assert_eq!(fresh_check(&trace, &other[..259]), Differs(4));
    assert_eq!(fresh_check(&trace, &[&other[..], &[0]].concat()), Differs(4));
    // Torn on both sides, in this order and in the other.
    let (two, three) = (records[..2].concat(), records[..3].concat());
    let (log_two, log_three) = (verdicts[..2].concat(), verdicts[..3].concat());
    let torn = |bytes: &[u8]| bytes[..bytes.len() - 1].to_vec();
    assert_eq!(fresh_check(&torn(&two), &torn(&log_three)), Differs(1));
    assert_eq!(fresh_check(&torn(&three), &torn(&log_two)), Differs(1));
    assert_eq!(fresh_check(&torn(&two), &torn(&log_two)), Differs(1));
}

#[test]
fn nothing_is_tolerated_in_the_bytes() {
    let (trace, log) = (fence(1), epoch(1));
    for at in 0..log.len() {
        for bit in 0..8 {
            let mut other = log.clone();
            other[at] ^= 1 << bit;
            assert_eq!(fresh_check(&trace, &other), Differs(0));
        }
    }
    // A record of no known kind has a verdict, too.
    assert_eq!(fresh_check(&[0xEE, 0, 0], &REFUSED_2), Agree);
    assert_eq!(fresh_check(&[0xEE, 0, 0], &[]), Differs(0));
}

#[test]
fn empty_ones() {
    assert_eq!(fresh_check(&[], &[]), Agree);
    for log in [&[0][..], &[0, 0], &REFUSED_2] {
        assert_eq!(fresh_check(&[], log), Differs(0));
    }
    for trace in [&[0][..], &[0, 0], &[0, 0, 0], &[0, 0, 1]] {
        assert_eq!(fresh_check(trace, &[]), Differs(0));
    }
}

#[test]
fn an_image_is_where_the_trace_starts() {
    let (records, verdicts) = week();
    for count in [0, 3, 22, 23] {
        let start = run(&Ledger::fresh(), &records[..count].concat(), usize::MAX).ledger;
        let image = image::write(&raw(&start)).unwrap();
        let (trace, log) = (records[count..].concat(), verdicts[count..].concat());
        assert_eq!(check(Some(&image), &trace, &log), Ok(Agree));
        // From fresh most of the same records are answered otherwise.
        let otherwise = if [0, 23].contains(&count) { Agree } else { Differs(0) };
        assert_eq!(fresh_check(&trace, &log), otherwise);
    }
}

#[test]
fn a_refused_image_goes_before_all_else() {
    let image = image::write(&raw(&Ledger::fresh())).unwrap();
    // Manifest 0 has writer epoch 1, and so more than its number.
    let mut unsound = image.clone();
    unsound[47] = 1;
    let torn = &image[..image.len() - 1];
    for (trace, log) in [(fence(1), epoch(1)), (fence(1), epoch(2)), (vec![0], vec![])] {
        assert_eq!(check(Some(&unsound), &trace, &log), Err(Refused::Unsound));
        assert_eq!(check(Some(torn), &trace, &log), Err(Refused::Malformed));
        assert_eq!(check(Some(&[]), &trace, &log), Err(Refused::Malformed));
        assert!(check(Some(&image), &trace, &log).is_ok());
    }
}

#[test]
fn the_program_prints_one_line() {
    let (records, verdicts) = week();
    let (trace, log) = (records.concat(), verdicts.concat());
    assert_eq!(check_log(Some(&trace), Some(&log)), "agree\n");
    assert_eq!(check_log(Some(&trace), Some(&log[..259])), "differs at 22\n");
    assert_eq!(check_log(Some(&trace), Some(&[])), "differs at 0\n");
    assert_eq!(check_log(Some(&[]), Some(&[])), "agree\n");
}

#[test]
fn no_file_goes_before_too_long() {
    let (most, more) = ([0; 32_768], [0; 32_769]);
    for file in [&[][..], &most, &more] {
        assert_eq!(check_log(None, Some(file)), "no file\n");
        assert_eq!(check_log(Some(file), None), "no file\n");
    }
    assert_eq!(check_log(None, None), "no file\n");
    for file in [&[][..], &most, &more] {
        assert_eq!(check_log(Some(&more), Some(file)), "too long\n");
        assert_eq!(check_log(Some(file), Some(&more)), "too long\n");
    }
}

#[test]
fn the_program_takes_32768_bytes_and_no_more() {
    // 10,922 records of no known kind, and two bytes of the next.
    let (trace, log) = ([0; 32_768], REFUSED_2.repeat(4_681));
    assert_eq!(log.len(), 32_767);
    assert_eq!(check_log(Some(&trace), Some(&log)), "differs at 4681\n");
    assert_eq!(check_log(Some(&trace[..4_681 * 3]), Some(&log)), "agree\n");
    let longest = [&log[..], &[0x40]].concat();
    assert_eq!(check_log(Some(&trace[..4_681 * 3]), Some(&longest)), "differs at 4681\n");
    let longer = [&longest[..], &[0]].concat();
    assert_eq!(check_log(Some(&trace[..4_681 * 3]), Some(&longer)), "too long\n");
}
