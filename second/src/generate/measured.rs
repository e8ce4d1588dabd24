//! Ledgers of a known size for measurements, brought about by steps: document
//! 01, "The ten steps".

use crate::ledger::Ledger;
use crate::limits::{Limits, HOLDS, MANIFESTS};
use crate::records::{Kind, Role, Step};

/// The time of all their steps.
pub const TIME: u64 = 1_700_000_000;
/// The number of the first manifest behind the fences.
pub const FIRST: u64 = 4;

pub fn at(kind: Kind, list: &[u64]) -> Step {
    Step { time: TIME, kind, list: list.to_vec() }
}

/// The fresh ledger after two fences of the writer and one of the compactor.
fn fenced() -> Ledger {
    let mut ledger = Ledger::fresh();
    for (slot, role) in [(1, Role::Writer), (2, Role::Compactor), (3, Role::Writer)] {
        accept(&mut ledger, Kind::Fence { role, slot }, &[]);
    }
    ledger
}

fn accept(ledger: &mut Ledger, kind: Kind, list: &[u64]) {
    assert_eq!(ledger.step(&at(kind, list)).code(), 0, "{kind:?}");
}

/// As many objects as there are places, nine manifests of as many names as they
/// may have, from number 4, and a hold on all but the last. Each names a quarter
/// of them that the one before does not, so three quarters of the objects are
/// named; the others are dead, for the writer's epoch is 2. Of the first
/// currency is object 1 alone, the lowest name of manifest 4.
pub fn full(limits: Limits, currencies: [u16; 2]) -> Ledger {
    let mut ledger = fenced();
    let (places, names) = (limits.places as u64, limits.names as u64);
    for object in 1..=places {
        let currency = currencies[usize::from(object != 1)];
        accept(&mut ledger, Kind::Put { role: Role::Writer, epoch: 1, object, currency }, &[]);
    }
    let last = FIRST + HOLDS as u64;
    for slot in FIRST..=last {
        let lowest = names / 4 * (slot - FIRST) + 1;
        let list: Vec<u64> = (lowest..lowest + names).collect();
        accept(&mut ledger, Kind::Commit { epoch: 2, slot }, &list);
        if slot < last {
            accept(&mut ledger, Kind::Hold { hold: slot, manifest: slot, expiry: 0 }, &[]);
        }
    }
    let held = (ledger.objects.len(), ledger.manifests.len(), ledger.holds.len());
    assert_eq!(held, (limits.places, MANIFESTS, HOLDS));
    ledger
}

/// Objects 1 to 32 of four currencies, manifests 4 to 7 and a hold on each.
pub fn sample() -> Ledger {
    let mut ledger = fenced();
    let mut accept = |kind: Kind, list: &[u64]| accept(&mut ledger, kind, list);
    for object in 1..=32 {
        let currency = [756, 840, 978, 985][object as usize % 4];
        let role = if object % 8 == 0 { Role::Compactor } else { Role::Writer };
        // Half of the writer's are of an older epoch, so collections find some.
        let epoch = if object % 2 == 0 { 1 } else { 2 };
        let epoch = if role == Role::Compactor { 1 } else { epoch };
        accept(Kind::Put { role, epoch, object, currency }, &[]);
    }
    for slot in FIRST..=7 {
        let list: Vec<u64> = (slot..slot + 12).collect();
        accept(Kind::Commit { epoch: 2, slot }, &list);
        accept(Kind::Hold { hold: slot, manifest: slot, expiry: TIME + slot }, &[]);
    }
    let held = (ledger.objects.len(), ledger.manifests.len(), ledger.holds.len());
    assert_eq!(held, (32, 4, 4));
    ledger
}
