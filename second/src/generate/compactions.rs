//! Steps that lead to compactions with much beside them that has to stay:
//! document 01, "The ten steps", COMPACT and HOLD.

use std::collections::BTreeSet;

use super::expiry;
use super::guided::some_stored;
use crate::ledger::Ledger;
use crate::limits::NAMES;
use crate::random::Random;
use crate::records::{Kind, Role, Step};

/// Whether the ledger allows a COMPACT that is accepted.
pub fn possible(ledger: &Ledger) -> bool {
    let (current, manifest) = ledger.current();
    manifest.compactor > 0 && !manifest.list.is_empty() && current < u64::MAX
}

/// A COMPACT that is accepted, where that is possible.
pub fn compact(random: &mut Random, ledger: &Ledger) -> Step {
    let (current, manifest) = ledger.current();
    let listed: BTreeSet<u16> = manifest.list.iter().map(|n| ledger.objects[n].currency).collect();
    // The currency is chosen first, so that a rare one is as likely as others.
    let currency = random.pick(&Vec::from_iter(listed));
    let stored = ledger.objects.iter().filter(|(_, object)| object.currency == currency);
    let object = random.pick(&stored.map(|(number, _)| *number).collect::<Vec<_>>());
    let kind = Kind::Compact { epoch: manifest.compactor, slot: current + 1, object };
    Step { time: time(random, ledger), kind, list: vec![] }
}

/// The clock most often, else later, or at or just behind an expiry.
fn time(random: &mut Random, ledger: &Ledger) -> u64 {
    let expiries = ledger.holds.values().map(|hold| hold.expiry);
    let expiries: Vec<u64> = expiries.filter(|expiry| *expiry != 0).collect();
    let time = match random.below(8) {
        0 | 1 if !expiries.is_empty() => random.pick(&expiries),
        2 | 3 if !expiries.is_empty() => random.pick(&expiries).saturating_add(1),
        4 => ledger.clock.saturating_add(random.below(4)),
        _ => ledger.clock,
    };
    time.max(ledger.clock)
}

/// A COMMIT at the clock of any number of stored objects, so that a currency has
/// more than one; it may be refused.
pub fn commit(random: &mut Random, ledger: &Ledger) -> Step {
    let slot = ledger.current().0.saturating_add(1);
    let wanted = 1 + random.index(NAMES);
    let list = some_stored(random, ledger, wanted);
    let kind = Kind::Commit { epoch: ledger.epoch(Role::Writer), slot };
    Step { time: ledger.clock, kind, list }
}

/// A HOLD at the clock on a manifest that is kept, most often the current one;
/// it may be refused.
pub fn hold(random: &mut Random, ledger: &Ledger) -> Step {
    let kept: Vec<u64> = ledger.manifests.keys().copied().collect();
    let manifest = match random.below(3) {
        0 => random.pick(&kept),
        _ => ledger.current().0,
    };
    let (time, hold) = (ledger.clock, random.magnitude().max(1));
    let expiry = expiry(random, time);
    Step { time, kind: Kind::Hold { hold, manifest, expiry }, list: vec![] }
}

#[cfg(test)]
mod tests {
    use super::*;
    use crate::generate::stocked;

    #[test]
    fn the_compactions_are_accepted_and_many_of_the_others() {
        let mut random = Random::new(1);
        let (mut compacted, mut committed, mut held) = (0, 0, 0);
        for _ in 0..1_000 {
            let mut ledger = stocked::ledger(&mut random);
            committed += usize::from(ledger.step(&commit(&mut random, &ledger)).code() == 0);
            held += usize::from(ledger.step(&hold(&mut random, &ledger)).code() == 0);
            if possible(&ledger) {
                let step = compact(&mut random, &ledger);
                assert_eq!(ledger.step(&step).code(), 0, "{step:?}");
                compacted += 1;
            }
        }
        assert!(compacted > 800 && committed > 800, "{compacted} {committed}");
        assert!(held > 200, "{held}");
    }
}
