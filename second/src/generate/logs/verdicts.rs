//! Logs made of the verdicts that are right.

use super::Sort;
use crate::generate::{number, verdict, verdict_record};
use crate::limits::HEADER;
use crate::random::Random;
use crate::records::{read_verdict, write_verdict, Verdict, LAST_CODE};

/// Where a refusal's code stands.
const CODE: usize = 6;

/// The damages of a log beside another damage.
const BESIDE: [Sort; 10] = [
    Sort::LogCut,
    Sort::BitChanged,
    Sort::ByteChanged,
    Sort::ByteInserted,
    Sort::LengthOff,
    Sort::TornAppended,
    Sort::VerdictLeftOut,
    Sort::VerdictDoubled,
    Sort::ContentsChanged,
    Sort::OtherRefusal,
];

/// A log with one of these damages, where it has enough for it; else empty.
pub fn any(random: &mut Random, verdicts: &[Vec<u8>]) -> Vec<u8> {
    let sort = random.pick(&BESIDE);
    log(random, sort, verdicts).unwrap_or_default()
}

/// `None` where there is too little to be damaged so.
pub fn log(random: &mut Random, sort: Sort, verdicts: &[Vec<u8>]) -> Option<Vec<u8>> {
    let log = verdicts.concat();
    match sort {
        Sort::ByteInserted => Some(inserted(random, log)),
        Sort::TornAppended => Some([log, torn(random)].concat()),
        Sort::RefusalAppended => Some([log, refusal(code(random))].concat()),
        Sort::EmptyLog => Some(Vec::new()),
        Sort::RandomBytes => Some(random_bytes(random, log.len())),
        Sort::RandomVerdicts => {
            Some(verdicts.iter().flat_map(|_| verdict_record(random)).collect())
        }
        _ if verdicts.is_empty() => None,
        Sort::LogCut => Some(log[..random.index(log.len())].to_vec()),
        Sort::BitChanged | Sort::ByteChanged | Sort::ByteRemoved => {
            Some(changed(random, sort, log))
        }
        _ => {
            let mut verdicts = verdicts.to_vec();
            change(random, sort, &mut verdicts)?;
            Some(verdicts.concat())
        }
    }
}

fn inserted(random: &mut Random, mut log: Vec<u8>) -> Vec<u8> {
    let place = random.index(log.len() + 1);
    log.insert(place, random.any() as u8);
    log
}

/// The first bytes of a verdict, which is not whole by them: often one or two.
fn torn(random: &mut Random) -> Vec<u8> {
    let mut bytes = verdict_record(random);
    let most = if random.once_in(2) { 2 } else { bytes.len() - 1 };
    bytes.truncate(1 + random.index(most));
    bytes
}

fn code(random: &mut Random) -> u8 {
    1 + random.below(LAST_CODE.into()) as u8
}

fn refusal(code: u8) -> Vec<u8> {
    write_verdict(&Verdict::Refused(code)).expect("the code is in the table")
}

/// At least one.
fn random_bytes(random: &mut Random, length: usize) -> Vec<u8> {
    let length = if random.once_in(2) { length.max(1) } else { 1 + random.index(40) };
    (0..length).map(|_| random.any() as u8).collect()
}

fn changed(random: &mut Random, sort: Sort, mut log: Vec<u8>) -> Vec<u8> {
    let place = random.index(log.len());
    match sort {
        Sort::BitChanged => log[place] ^= 1 << random.below(8),
        Sort::ByteChanged => log[place] = log[place].wrapping_add(1 + random.below(255) as u8),
        _ => drop(log.remove(place)),
    }
    log
}

fn change(random: &mut Random, sort: Sort, verdicts: &mut Vec<Vec<u8>>) -> Option<()> {
    let count = verdicts.len();
    let place = random.index(count);
    match sort {
        Sort::LengthOff => length_off(random, &mut verdicts[place]),
        Sort::VerdictsMissing => verdicts.truncate(place),
        // Another stands behind it.
        Sort::VerdictLeftOut if count >= 2 => drop(verdicts.remove(random.index(count - 1))),
        Sort::VerdictDoubled => verdicts.insert(place, verdicts[place].clone()),
        Sort::NeighboursExchanged if count >= 2 => {
            let place = random.index(count - 1);
            verdicts.swap(place, place + 1);
        }
        Sort::FarExchanged if count >= 3 => {
            let place = random.index(count - 2);
            verdicts.swap(place, place + 2 + random.index(count - 2 - place));
        }
        Sort::VerdictAppended if random.once_in(2) => verdicts.push(verdicts[place].clone()),
        Sort::VerdictAppended => verdicts.push(verdict_record(random)),
        Sort::ContentsChanged => other(random, verdicts, contents)?,
        Sort::AcceptedAsRefused => other(random, verdicts, |random, old| {
            (old.code() == 0).then(|| Verdict::Refused(code(random)))
        })?,
        Sort::RefusedAsAccepted => other(random, verdicts, |random, old| {
            let other = if random.once_in(2) { Verdict::Done } else { verdict(random) };
            (old.code() != 0 && other.code() == 0).then_some(other)
        })?,
        Sort::OtherRefusal => other_refusal(random, verdicts)?,
        _ => return None,
    }
    Some(())
}

/// The length of the verdict or of one of its fields, one more or one less.
fn length_off(random: &mut Random, verdict: &mut [u8]) {
    let (mut lengths, mut at) = (vec![1], HEADER);
    while at < verdict.len() {
        lengths.push(at + 1);
        at += HEADER + usize::from(u16::from_be_bytes([verdict[at + 1], verdict[at + 2]]));
    }
    let at = random.pick(&lengths);
    let length = u16::from_be_bytes([verdict[at], verdict[at + 1]]);
    let off = if random.once_in(2) { length + 1 } else { length.wrapping_sub(1) };
    verdict[at..at + 2].copy_from_slice(&off.to_be_bytes());
}

/// One of the verdicts with which that can be done gives way to another.
fn other(
    random: &mut Random,
    verdicts: &mut [Vec<u8>],
    change: impl Fn(&mut Random, Verdict) -> Option<Verdict>,
) -> Option<()> {
    let first = random.index(verdicts.len());
    for place in (0..verdicts.len()).map(|next| (first + next) % verdicts.len()) {
        let old = read_verdict(&verdicts[place]).expect("it is a verdict");
        if let Some(new) = change(random, old).and_then(|new| write_verdict(&new)) {
            verdicts[place] = new;
            return Some(());
        }
    }
    None
}

/// Another code, at times one that is in no table.
fn other_refusal(random: &mut Random, verdicts: &mut [Vec<u8>]) -> Option<()> {
    let refused: Vec<usize> = (0..verdicts.len()).filter(|at| verdicts[*at][CODE] != 0).collect();
    if refused.is_empty() {
        return None;
    }
    let old = &mut verdicts[random.pick(&refused)][CODE];
    let new = if random.once_in(4) { 18 + random.below(238) as u8 } else { code(random) };
    *old = if new == *old { *old + 1 } else { new };
    Some(())
}

/// What an accepted verdict answers beside its code.
fn contents(random: &mut Random, old: Verdict) -> Option<Verdict> {
    Some(match old {
        Verdict::Refused(_) | Verdict::Done => return None,
        Verdict::Epoch(epoch) => Verdict::Epoch(another(random, epoch)),
        Verdict::Found(object) => Verdict::Found(another(random, object)),
        Verdict::Listed { manifest, list } => match random.below(3) {
            0 => Verdict::Listed { manifest: another(random, manifest), list },
            _ => Verdict::Listed { manifest, list: another_list(random, list) },
        },
        Verdict::Collected(list) => Verdict::Collected(another_list(random, list)),
    })
}

fn another(random: &mut Random, old: u64) -> u64 {
    let new = match random.below(3) {
        0 => old.wrapping_add(1),
        1 => old.wrapping_sub(1),
        _ => number(random),
    };
    if new == old {
        !old
    } else {
        new
    }
}

/// A name more, one less or another; what no reader takes is not written.
fn another_list(random: &mut Random, mut list: Vec<u64>) -> Vec<u64> {
    let place = random.index(list.len() + 1);
    match random.below(3) {
        0 if place < list.len() => drop(list.remove(place)),
        1 if place < list.len() => list[place] = another(random, list[place]),
        _ => list.push(list.last().map_or(1, |last| last.saturating_add(1 + random.below(3)))),
    }
    list
}
