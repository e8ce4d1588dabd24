//! The guided sequences reach every verdict and every limit often.

use super::*;
use crate::limits::{HOLDS, MANIFESTS, NAMES, PLACES, WORD, WORDS};
use crate::raw::{from_raw, raw};
use crate::records::Verdict;

const SEQUENCES: u64 = 200;
const LENGTH: usize = 1000;
const OFTEN: usize = 100;

/// How often each verdict and each limit was met.
#[derive(Debug, Default)]
struct Counts {
    codes: [usize; LAST_CODE as usize + 1],
    full_store: usize,
    all_holds: usize,
    all_manifests: usize,
    one_more_manifest: usize,
    at_expiry: usize,
    behind_expiry: usize,
    empty_store: usize,
    highest_collected: usize,
    out_of_order: usize,
    below_collected: usize,
    collected: usize,
    collected_all: usize,
    longest_list: usize,
    too_long_list: usize,
    /// Puts below an object that is stored, by the word of their place.
    between: [usize; WORDS],
}

fn count(counts: &mut Counts, before: &Ledger, step: &Step, verdict: &Verdict, after: &Ledger) {
    let expires = |at: u64| before.holds.values().any(|hold| hold.expiry == at);
    counts.codes[usize::from(verdict.code())] += 1;
    counts.full_store += usize::from(after.objects.len() == PLACES);
    counts.empty_store += usize::from(!before.objects.is_empty() && after.objects.is_empty());
    counts.all_holds += usize::from(after.holds.len() == HOLDS);
    counts.all_manifests += usize::from(after.manifests.len() == MANIFESTS);
    if before.manifests.len() == MANIFESTS && after.current().0 > before.current().0 {
        counts.one_more_manifest += 1;
    }
    if verdict.code() == 0 && step.time > 0 {
        counts.at_expiry += usize::from(expires(step.time));
        counts.behind_expiry += usize::from(expires(step.time - 1));
    }
    if let (Kind::Put { object, .. }, 10) = (step.kind, verdict.code()) {
        counts.highest_collected += usize::from(object == before.highest_collected);
    }
    if let (Kind::Put { object, .. }, 0) = (step.kind, verdict.code()) {
        counts.out_of_order += usize::from(before.objects.keys().any(|other| *other > object));
        let place = after.objects[&object].place;
        let between = before.objects.values().any(|other| other.place > place);
        counts.between[place / WORD] += usize::from(between);
    }
    if let Kind::Commit { .. } = step.kind {
        counts.longest_list += usize::from(verdict.code() == 0 && step.list.len() == NAMES);
        counts.too_long_list += usize::from(verdict.code() == 2 && step.list.len() == NAMES + 1);
    }
    counts.below_collected +=
        usize::from(after.objects.keys().any(|number| *number < after.highest_collected));
    if let Verdict::Collected(list) = verdict {
        counts.collected += list.len();
        counts.collected_all += usize::from(list.len() == PLACES);
    }
}

#[test]
fn every_verdict_and_limit_is_reached() {
    let mut counts = Counts::default();
    for seed in 0..SEQUENCES {
        let mut guide = Guide::new(seed);
        let mut ledger = Ledger::fresh();
        for _ in 0..LENGTH {
            let step = guide.next(&ledger);
            let before = ledger.clone();
            let verdict = ledger.step(&step);
            assert!(verdict.well_formed());
            match verdict {
                Verdict::Refused(_) => assert_eq!(ledger, before),
                _ => assert_eq!(from_raw(&raw(&ledger)).as_ref(), Some(&ledger)),
            }
            count(&mut counts, &before, &step, &verdict, &ledger);
        }
    }
    println!("{counts:?}");
    for (code, times) in counts.codes.iter().enumerate() {
        // No ledger here is unsound, so 1 is never given.
        let enough = if code == 1 { *times == 0 } else { *times >= OFTEN };
        assert!(enough, "verdict {code}: {counts:?}");
    }
    for times in [
        counts.full_store,
        counts.all_holds,
        counts.all_manifests,
        counts.one_more_manifest,
        counts.at_expiry,
        counts.behind_expiry,
        counts.empty_store,
        counts.highest_collected,
        counts.out_of_order,
        counts.below_collected,
        counts.collected,
        counts.longest_list,
        counts.too_long_list,
    ] {
        assert!(times >= OFTEN, "{counts:?}");
    }
    assert!(counts.between.iter().all(|times| *times >= OFTEN), "{counts:?}");
    assert!(counts.collected_all >= 20, "{counts:?}");
}

#[test]
fn the_seed_decides_the_sequence() {
    let sequence = |seed: u64| Guide::new(seed).sequence(Limits::NOW, 300);
    assert_eq!(sequence(9), sequence(9));
    assert_ne!(sequence(9), sequence(10));
}
