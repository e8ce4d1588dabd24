//! The fresh ledger is sound, and each broken clause alone makes one that is
//! not.

use super::*;
use crate::records::Kind;

/// The taken places of the sample, in the first, the second and the last word.
const A: usize = 0;
const B: usize = WORD + 6;
const C: usize = PLACES - 1;

/// A sound ledger: three places taken, manifests 2, 5 and 9, two holds.
fn sample() -> Raw {
    let mut raw = raw(&Ledger::fresh());
    raw.clock = 100;
    raw.highest_collected = 35;
    raw.occupancy = [1, 1 << 6, 0, 1 << 63];
    raw.objects[A] = object(30, 0, 2, 978, 1);
    raw.objects[B] = object(10, 1, 1, 0, 1);
    raw.objects[C] = object(40, 1, 3, 999, 0);
    raw.manifest_count = 3;
    raw.manifests[0] = manifest(2, 1, 1, &[10]);
    raw.manifests[1] = manifest(5, 1, 3, &[10, 30]);
    raw.manifests[2] = manifest(9, 2, 3, &[30]);
    raw.hold_count = 2;
    raw.holds[0] = hold(7, 5, 100);
    raw.holds[1] = hold(8, 2, 0);
    raw
}

fn object(number: u64, role: u64, epoch: u64, currency: u64, named: u64) -> RawObject {
    RawObject { number, role, epoch, currency, named }
}

fn manifest(number: u64, writer: u64, compactor: u64, list: &[u64]) -> RawManifest {
    let mut names = list.to_vec();
    names.resize(NAMES, 0);
    RawManifest { number, writer, compactor, length: list.len() as u64, names }
}

fn hold(number: u64, manifest: u64, expiry: u64) -> RawHold {
    RawHold { number, manifest, expiry }
}

#[track_caller]
fn after(expected: bool, change: impl Fn(&mut Raw)) {
    let mut raw = sample();
    change(&mut raw);
    assert_eq!(sound(&raw), expected);
    assert_eq!(from_raw(&raw).is_some(), expected);
    if !expected {
        let collect = Step { time: 0, kind: Kind::Collect, list: vec![1] };
        let (verdict, next) = step(&raw, &collect);
        // Row 1 goes before row 2, and the ledger comes back as it was.
        assert_eq!((verdict, next), (Verdict::Refused(1), raw));
    }
}

#[track_caller]
fn unsound(change: impl Fn(&mut Raw)) {
    after(false, change)
}

#[track_caller]
fn still_sound(change: impl Fn(&mut Raw)) {
    after(true, change)
}

#[test]
fn fresh_is_sound_and_so_is_the_sample() {
    let fresh = raw(&Ledger::fresh());
    assert!(sound(&fresh));
    assert_eq!(fresh.manifest_count, 1);
    assert_eq!(from_raw(&fresh), Some(Ledger::fresh()));
    let ledger = from_raw(&sample()).unwrap();
    assert_eq!(raw(&ledger), sample());
}

#[test]
fn counts_have_limits() {
    for count in [0, 2, 4, 9, 10, u64::MAX] {
        unsound(|raw| raw.manifest_count = count);
    }
    for count in [0, 1, 3, 8, 9, u64::MAX] {
        unsound(|raw| raw.hold_count = count);
    }
    for length in [0, 2, NAMES as u64, NAMES as u64 + 1, u64::MAX] {
        unsound(|raw| raw.manifests[0].length = length);
    }
}

#[test]
fn a_place_is_used_exactly_when_its_bit_says_so() {
    for place in 0..PLACES {
        unsound(|raw| raw.occupancy[place / WORD] ^= 1 << (place % WORD));
    }
    // The same bits in another word.
    for word in 1..WORDS {
        unsound(|raw| raw.occupancy.rotate_left(word));
    }
    // An object is moved with its bit, or without.
    for place in [1, WORD - 1, WORD, 2 * WORD, 3 * WORD - 1, 3 * WORD, PLACES - 2] {
        unsound(|raw| raw.objects.swap(A, place));
        still_sound(|raw| {
            raw.objects.swap(A, place);
            raw.occupancy[0] ^= 1;
            raw.occupancy[place / WORD] ^= 1 << (place % WORD);
        });
    }
    unsound(|raw| raw.objects[A].number = 0);
    unsound(|raw| raw.objects[B].currency = 1000);
    still_sound(|raw| raw.objects[B].currency = 999);
    unsound(|raw| raw.objects[B].role = 2);
    unsound(|raw| raw.objects[B].named = 2);
}

#[test]
fn unused_places_are_all_zero() {
    for place in (0..PLACES).filter(|place| ![A, B, C].contains(place)) {
        unsound(|raw| raw.objects[place].number = 1);
        unsound(|raw| raw.objects[place].role = 1);
        unsound(|raw| raw.objects[place].epoch = 1);
        unsound(|raw| raw.objects[place].currency = 1);
        unsound(|raw| raw.objects[place].named = 1);
    }
    unsound(|raw| raw.manifests[3].number = 1);
    unsound(|raw| raw.manifests[3].writer = 1);
    unsound(|raw| raw.manifests[8].compactor = 1);
    unsound(|raw| raw.manifests[8].length = 1);
    unsound(|raw| raw.manifests[8].names[NAMES - 1] = 1);
    unsound(|raw| raw.manifests[0].names[1] = 30);
    unsound(|raw| raw.manifests[2].names[NAMES - 1] = 40);
    unsound(|raw| raw.holds[2].number = 9);
    unsound(|raw| raw.holds[2].manifest = 9);
    unsound(|raw| raw.holds[7].expiry = 1);
}

#[test]
fn lists_manifests_and_holds_rise() {
    unsound(|raw| raw.manifests[1].names[..2].copy_from_slice(&[30, 10]));
    unsound(|raw| raw.manifests[1].names[1] = 10);
    unsound(|raw| raw.manifests[1].names[0] = 0);
    unsound(|raw| raw.manifests[1].number = 2);
    unsound(|raw| raw.manifests.swap(0, 1));
    unsound(|raw| raw.holds.swap(0, 1));
    unsound(|raw| raw.holds[1].number = 7);
    unsound(|raw| raw.holds[0].number = 0);
}

#[test]
fn stored_numbers_are_distinct_and_not_0() {
    unsound(|raw| raw.objects[C].number = 30);
    unsound(|raw| raw.objects[C].number = 0);
    // The highest number ever collected bounds them on neither side.
    for number in [0, 9, 10, 11, 40, u64::MAX] {
        still_sound(|raw| raw.highest_collected = number);
    }
    still_sound(|raw| raw.objects[C].number = u64::MAX);
}

#[test]
fn stored_epochs_are_from_1_to_the_role_s_current_one() {
    unsound(|raw| raw.objects[C].epoch = 0);
    unsound(|raw| raw.objects[C].epoch = 4);
    unsound(|raw| raw.objects[A].epoch = 3);
    // The writer's epoch is 2 now, the compactor's 3.
    unsound(|raw| raw.objects[C].role = 0);
    still_sound(|raw| raw.objects[C] = object(40, 0, 2, 999, 0));
}

#[test]
fn listed_objects_are_stored_and_named() {
    unsound(|raw| raw.manifests[0].names[0] = 11);
    unsound(|raw| raw.manifests[2].names[0] = 40);
    unsound(|raw| raw.objects[B].named = 0);
    unsound(|raw| raw.objects[A].named = 0);
}

#[test]
fn epochs_are_bounded_and_do_not_fall() {
    unsound(|raw| raw.manifests[0].writer = 2);
    unsound(|raw| raw.manifests[1].compactor = 5);
    still_sound(|raw| raw.manifests[2].writer = 6);
    unsound(|raw| raw.manifests[2].writer = 7);
    unsound(|raw| raw.manifests[2].compactor = 2);
    unsound(|raw| raw.manifests[0] = manifest(2, 2, 0, &[10]));
    // The sum is 0 modulo 2^64.
    unsound(|raw| raw.manifests[2] = manifest(9, u64::MAX - 2, 3, &[30]));
    still_sound(|raw| raw.manifests[2] = manifest(u64::MAX, u64::MAX - 3, 3, &[30]));
}

#[test]
fn holds_name_kept_manifests_and_have_not_expired() {
    unsound(|raw| raw.holds[1].manifest = 3);
    unsound(|raw| raw.holds[0].expiry = 99);
    unsound(|raw| raw.clock = 101);
    still_sound(|raw| raw.clock = 0);
    // Manifest 5 or 2 would not be held.
    unsound(|raw| raw.holds[0].manifest = 9);
    unsound(|raw| raw.holds[1].manifest = 5);
    still_sound(|raw| {
        raw.hold_count = 3;
        raw.holds[2] = hold(u64::MAX, 9, 0);
    });
}

/// 256 objects, nine manifests of 64 names and eight holds.
#[test]
fn a_ledger_may_be_full() {
    let mut raw = raw(&Ledger::fresh());
    raw.occupancy = [u64::MAX; WORDS];
    for (place, number) in (0..PLACES).zip(1..) {
        raw.objects[place] = object(number, 0, 1, 978, 1);
    }
    raw.manifest_count = MANIFESTS as u64;
    for (place, number) in (0..MANIFESTS).zip(1..) {
        let first = 24 * number - 23;
        let list: Vec<u64> = (first..first + NAMES as u64).collect();
        raw.manifests[place] = manifest(number, 1, 0, &list);
    }
    raw.hold_count = HOLDS as u64;
    for (place, number) in (0..HOLDS).zip(1..) {
        raw.holds[place] = hold(number, number, 0);
    }
    let ledger = from_raw(&raw).expect("it is sound");
    assert_eq!((ledger.objects.len(), ledger.current().1.list.len()), (256, 64));
    assert_eq!(super::raw(&ledger), raw);
    // Object 256 is the highest name of the last manifest.
    assert_eq!(raw.manifests[MANIFESTS - 1].names[NAMES - 1], 256);
    raw.objects[PLACES - 1].named = 0;
    assert!(!sound(&raw));
}

#[test]
fn nothing_more_is_asked() {
    // Named but never listed, and a list in manifest 0: no step leads there.
    still_sound(|raw| raw.objects[C].named = 1);
    still_sound(|raw| {
        raw.manifests[0] = manifest(0, 0, 0, &[10]);
        raw.holds[1].manifest = 0;
    });
}
