//! The depot week, each row of the table, and the errors met before.

use super::*;
use crate::depot;
use crate::limits::{LONGEST_VERDICT, NAMES, PLACES, WORD, WORDS};
use crate::raw::{from_raw, raw, RawManifest};
use crate::records::write_verdict;

const W: Role = Role::Writer;
const C: Role = Role::Compactor;

fn fence(role: Role, slot: u64) -> Kind {
    Kind::Fence { role, slot }
}

fn put(role: Role, epoch: u64, object: u64, currency: u16) -> Kind {
    Kind::Put { role, epoch, object, currency }
}

fn compact(epoch: u64, slot: u64, object: u64) -> Kind {
    Kind::Compact { epoch, slot, object }
}

fn hold(hold: u64, manifest: u64, expiry: u64) -> Kind {
    Kind::Hold { hold, manifest, expiry }
}

fn look(currency: u16, hold: u64) -> Kind {
    Kind::Look { currency, hold }
}

fn list(hold: u64) -> Kind {
    Kind::List { hold }
}

impl Ledger {
    /// A step without a list. A refusal must leave the ledger as it was, and
    /// every ledger must be sound.
    fn at(&mut self, time: u64, kind: Kind) -> Verdict {
        self.checked(time, kind, &[])
    }

    fn commit(&mut self, time: u64, epoch: u64, slot: u64, list: &[u64]) -> Verdict {
        self.checked(time, Kind::Commit { epoch, slot }, list)
    }

    fn checked(&mut self, time: u64, kind: Kind, list: &[u64]) -> Verdict {
        let before = self.clone();
        let list = list.to_vec();
        let verdict = self.step(&Step { time, kind, list });
        match verdict {
            Verdict::Refused(_) => assert_eq!(*self, before),
            _ => assert_eq!(self.clock, time),
        }
        assert_eq!(from_raw(&raw(self)).as_ref(), Some(&*self));
        verdict
    }
}

fn refused(number: u8) -> Verdict {
    Verdict::Refused(number)
}

fn listed(manifest: u64, list: &[u64]) -> Verdict {
    let list = list.to_vec();
    Verdict::Listed { manifest, list }
}

fn collected(list: &[u64]) -> Verdict {
    Verdict::Collected(list.to_vec())
}

const DONE: Verdict = Verdict::Done;

#[test]
fn the_tables_hold() {
    let tables = [depot::week(), depot::out_of_order()];
    assert_eq!(tables.each_ref().map(Vec::len), [23, 20]);
    for table in tables {
        let mut ledger = Ledger::fresh();
        for (step, verdict) in table {
            assert_eq!(ledger.checked(step.time, step.kind, &step.list), verdict, "{step:?}");
        }
    }
}

/// Writer and compactor at epoch 1, current manifest 2, clock 10.
fn started() -> Ledger {
    let mut ledger = Ledger::fresh();
    ledger.at(10, fence(W, 1));
    ledger.at(10, fence(C, 2));
    ledger
}

#[test]
fn malformed_goes_before_time_and_uses_the_step_s_time() {
    let mut ledger = started();
    assert_eq!(ledger.at(5, hold(1, 2, 3)), refused(2));
    assert_eq!(ledger.at(5, hold(1, 2, 7)), refused(3));
    assert_eq!(ledger.commit(5, 1, 3, &[2, 1]), refused(2));
    assert_eq!(ledger.checked(10, Kind::Collect, &[1]), refused(2));
    assert_eq!(ledger.at(10, look(0, 0)), refused(2));
    assert_eq!(ledger.at(10, Kind::Release { hold: 0 }), refused(2));
    assert_eq!(ledger.at(10, Kind::Collect), collected(&[]));
}

#[test]
fn epochs_and_slots() {
    let mut ledger = Ledger::fresh();
    assert_eq!(ledger.commit(0, 0, 0, &[]), refused(4));
    assert_eq!(ledger.at(0, put(C, 1, 1, 0)), refused(4));
    ledger.at(0, fence(W, 1));
    ledger.at(0, fence(W, 2));
    assert_eq!(ledger.commit(0, 3, 9, &[]), refused(4));
    assert_eq!(ledger.commit(0, 1, 9, &[]), refused(5));
    assert_eq!(ledger.commit(0, 2, 2, &[8]), refused(6));
    assert_eq!(ledger.commit(0, 2, 0, &[8]), refused(6));
    assert_eq!(ledger.commit(0, 2, 4, &[8]), refused(7));
    assert_eq!(ledger.commit(0, 2, u64::MAX, &[8]), refused(7));
    assert_eq!(ledger.commit(0, 2, 3, &[8]), refused(8));
    assert_eq!(ledger.at(0, compact(1, 3, 8)), refused(4));
    assert_eq!(ledger.at(0, fence(C, 4)), refused(7));
    assert_eq!(ledger.at(0, fence(C, 3)), Verdict::Epoch(1));
    assert_eq!(ledger.at(0, compact(1, 4, 8)), refused(8));
    assert_eq!(ledger.at(0, put(W, 1, 8, 5)), DONE);
    assert_eq!(ledger.at(0, compact(1, 4, 8)), refused(17));
    assert_eq!(ledger.commit(0, 2, 4, &[]), DONE);
    assert_eq!(ledger.commit(0, 2, 5, &[8]), DONE);
    assert_eq!(ledger.at(0, list(0)), listed(5, &[8]));
}

/// As `started`, with objects 1 to the most, each at the place before its
/// number.
fn full() -> Ledger {
    let mut ledger = started();
    for object in 1..=PLACES as u64 {
        assert_eq!(ledger.objects.len() as u64, object - 1);
        assert_eq!(ledger.at(10, put(W, 1, object, 1)), DONE);
        assert_eq!(ledger.objects[&object].place as u64, object - 1);
    }
    ledger
}

/// Names the objects and no longer names them, so that they are dead, and
/// collects them.
fn remove(ledger: &mut Ledger, objects: &[u64]) {
    let slot = ledger.current().0 + 1;
    assert_eq!(ledger.commit(10, 1, slot, objects), DONE);
    assert_eq!(ledger.commit(10, 1, slot + 1, &[]), DONE);
    assert_eq!(ledger.at(10, Kind::Collect), collected(objects));
}

#[test]
fn as_many_objects_as_places_are_stored_and_no_more() {
    let mut ledger = full();
    let next = PLACES as u64 + 1;
    assert_eq!((ledger.objects.len(), next), (256, 257));
    assert_eq!(ledger.at(10, put(W, 1, next, 1)), refused(11));
    remove(&mut ledger, &[200]);
    assert_eq!(ledger.objects.len(), PLACES - 1);
    assert_eq!(ledger.at(10, put(C, 1, next, 1)), DONE);
    assert_eq!(ledger.at(10, put(C, 1, next + 1, 1)), refused(11));
    // The longest collection, once the one of the compactor is dead too.
    assert_eq!(ledger.at(10, fence(W, 5)), Verdict::Epoch(2));
    assert_eq!(ledger.at(10, fence(C, 6)), Verdict::Epoch(2));
    let all: Vec<u64> = (1..=next).filter(|object| *object != 200).collect();
    let verdict = ledger.at(10, Kind::Collect);
    assert_eq!(verdict, collected(&all));
    assert_eq!(write_verdict(&verdict).unwrap().len(), LONGEST_VERDICT);
    assert!(ledger.objects.is_empty());
}

#[test]
fn the_lowest_free_place_is_counted_across_the_words() {
    let mut ledger = full();
    for object in [71, 201, 4] {
        remove(&mut ledger, &[object]);
    }
    for (object, place) in [(301, 3), (302, 70), (303, 200)] {
        assert_eq!(ledger.at(10, put(W, 1, object, 1)), DONE);
        assert_eq!(ledger.objects[&object].place, place);
    }
    assert_eq!(ledger.at(10, put(W, 1, 304, 1)), refused(11));
}

#[test]
fn the_first_and_the_last_place_of_each_word_are_used_again() {
    let mut ledger = full();
    let ends = |word: usize| [word * WORD, word * WORD + WORD - 1];
    let places: Vec<usize> = (0..WORDS).flat_map(ends).collect();
    let objects: Vec<u64> = places.iter().map(|place| *place as u64 + 1).collect();
    assert_eq!(objects, [1, 64, 65, 128, 129, 192, 193, 256]);
    remove(&mut ledger, &objects);
    for (place, object) in places.into_iter().zip(300..) {
        assert_eq!(ledger.at(10, put(W, 1, object, 1)), DONE);
        assert_eq!(ledger.objects[&object].place, place);
    }
    assert_eq!(ledger.at(10, put(W, 1, 400, 1)), refused(11));
}

#[test]
fn a_manifest_lists_as_many_names_as_it_may_and_no_more() {
    let mut ledger = full();
    let names: Vec<u64> = (1..=NAMES as u64).map(|name| 2 * name).collect();
    let more = [&names[..], &[255]].concat();
    assert_eq!((names.len(), more.len()), (64, 65));
    assert_eq!(ledger.commit(10, 1, 3, &more), refused(2));
    assert_eq!(ledger.commit(10, 1, 3, &names), DONE);
    assert_eq!(ledger.at(10, list(0)), listed(3, &names));
    // All are of one currency, so one stays.
    assert_eq!(ledger.at(10, compact(1, 4, 7)), DONE);
    assert_eq!(ledger.at(10, list(0)), listed(4, &[7]));
    assert_eq!(ledger.at(10, Kind::Collect), collected(&names));
}

#[test]
fn a_put_takes_the_lowest_free_place() {
    let mut ledger = full();
    let last = PLACES as u64;
    assert_eq!(ledger.at(10, put(W, 1, last + 1, 1)), refused(11));
    assert_eq!(ledger.at(10, put(W, 1, last, 1)), refused(9));
    assert_eq!(ledger.at(10, put(W, 2, last + 1, 1)), refused(4));
    ledger.commit(10, 1, 3, &[1, 5, 9]);
    ledger.commit(10, 1, 4, &[1]);
    // Only 5 and 9 were named and are no longer: places 4 and 8 are free.
    assert_eq!(ledger.at(10, Kind::Collect), collected(&[5, 9]));
    assert_eq!(ledger.at(10, put(W, 1, 9, 1)), refused(10));
    for (object, place) in [(last + 6, 4), (last + 7, 8)] {
        assert_eq!(ledger.at(10, put(W, 1, object, 1)), DONE);
        assert_eq!(ledger.objects[&object].place, place);
    }
    assert_eq!(ledger.at(10, put(W, 1, last + 8, 1)), refused(11));
    assert_eq!(ledger.at(10, put(W, 1, 9, 1)), refused(10));
}

#[test]
fn a_collected_number_is_spent_and_so_are_those_below() {
    let mut ledger = started();
    ledger.at(10, put(W, 1, 8, 5));
    ledger.at(10, fence(W, 3));
    assert_eq!(ledger.at(10, Kind::Collect), collected(&[8]));
    assert_eq!(ledger.at(10, put(W, 2, 8, 5)), refused(10));
    assert_eq!(ledger.at(10, put(W, 2, 7, 5)), refused(10));
    assert_eq!(ledger.at(10, put(W, 2, 9, 5)), DONE);
}

/// "once it is collected, every PUT past 9 gives 10", on a built ledger: the
/// smaller numbers still go first, and 10 goes before 11.
#[test]
fn once_the_largest_number_is_collected_every_put_past_9_gives_10() {
    let mut ledger = started();
    let next = 100 + PLACES as u64 - 3;
    for object in [1, 5, u64::MAX - 1].into_iter().chain(100..next) {
        assert_eq!(ledger.at(10, put(W, 1, object, 0)), DONE);
    }
    assert_eq!(ledger.at(10, put(W, 1, 2, 0)), refused(11));
    let mut last = raw(&ledger);
    last.highest_collected = u64::MAX;
    let mut ledger = from_raw(&last).expect("stored numbers are not bounded by it");
    for object in [2, 4, 6, next, u64::MAX - 2, u64::MAX] {
        assert_eq!(ledger.at(10, put(W, 1, object, 0)), refused(10));
        assert_eq!(ledger.at(10, put(W, 2, object, 0)), refused(4));
        assert_eq!(ledger.at(9, put(W, 1, object, 0)), refused(3));
    }
    for object in [1, 5, next - 1, u64::MAX - 1] {
        assert_eq!(ledger.at(10, put(W, 1, object, 0)), refused(9));
    }
    assert_eq!(ledger.at(10, put(W, 1, 0, 0)), refused(2));
}

#[test]
fn holds_live_until_their_expiry_and_no_longer() {
    let mut ledger = started();
    ledger.at(10, hold(7, 2, 20));
    ledger.at(10, fence(W, 3));
    assert_eq!(ledger.at(20, hold(7, 2, 30)), refused(12));
    assert_eq!(ledger.at(20, list(7)), listed(2, &[]));
    // At 21 the hold is still in the ledger but not live, and manifest 2 is
    // still kept but not active.
    assert_eq!(ledger.at(21, list(7)), refused(15));
    assert_eq!(ledger.at(21, Kind::Renew { hold: 7, expiry: 0 }), refused(15));
    assert_eq!(ledger.at(21, Kind::Release { hold: 7 }), refused(15));
    assert_eq!(ledger.at(21, hold(7, 2, 30)), refused(13));
    assert_eq!(ledger.manifests.len(), 2);
    assert_eq!(ledger.at(21, hold(7, 3, 30)), DONE);
    assert_eq!(ledger.manifests.len(), 1);
    assert_eq!(ledger.holds[&7].manifest, 3);
}

#[test]
fn renewing_and_releasing() {
    let mut ledger = started();
    ledger.at(10, hold(7, 2, 20));
    assert_eq!(ledger.at(20, Kind::Renew { hold: 7, expiry: 0 }), DONE);
    assert_eq!(ledger.at(u64::MAX - 1, list(7)), listed(2, &[]));
    let last = u64::MAX - 1;
    assert_eq!(ledger.at(last, Kind::Renew { hold: 7, expiry: last }), DONE);
    assert_eq!(ledger.at(u64::MAX, list(7)), refused(15));
    ledger.at(last, fence(W, 3));
    assert_eq!(ledger.manifests.len(), 2);
    assert_eq!(ledger.at(last, Kind::Release { hold: 7 }), DONE);
    assert_eq!(ledger.manifests.len(), 1);
    assert_eq!(ledger.at(last, hold(7, 2, 0)), refused(13));
    assert_eq!(ledger.at(last, Kind::Release { hold: 7 }), refused(15));
}

#[test]
fn nine_manifests_are_enough() {
    let mut ledger = started();
    for number in 1..=8 {
        assert_eq!(ledger.at(10, hold(number, number + 1, 10 + number)), DONE);
        ledger.at(10, fence(W, number + 2));
    }
    assert_eq!(ledger.manifests.len(), 9);
    assert_eq!(ledger.at(10, hold(9, 10, 0)), refused(14));
    assert_eq!(ledger.at(10, hold(9, 11, 0)), refused(13));
    assert_eq!(ledger.at(10, hold(8, 11, 0)), refused(12));
    assert_eq!(ledger.commit(10, ledger.epoch(W), 11, &[]), DONE);
    assert_eq!(ledger.manifests.len(), 9);
    // Hold 1 expires at 11 and is no longer counted at 12.
    assert_eq!(ledger.at(11, hold(9, 11, 0)), refused(14));
    assert_eq!(ledger.at(12, hold(9, 11, 0)), DONE);
    assert_eq!((ledger.manifests.len(), ledger.holds.len()), (8, 8));
}

#[test]
fn looks_answer_the_highest_of_the_currency() {
    let mut ledger = started();
    for (object, currency) in [(1, 978), (2, 978), (3, 756), (4, 0)] {
        ledger.at(10, put(W, 1, object, currency));
    }
    ledger.commit(10, 1, 3, &[1, 2, 3, 4]);
    assert_eq!(ledger.at(10, look(978, 0)), Verdict::Found(2));
    assert_eq!(ledger.at(10, look(756, 0)), Verdict::Found(3));
    assert_eq!(ledger.at(10, look(985, 0)), refused(16));
    ledger.at(10, hold(5, 3, 0));
    ledger.commit(10, 1, 4, &[1]);
    assert_eq!(ledger.at(10, look(978, 5)), Verdict::Found(2));
    assert_eq!(ledger.at(10, look(978, 0)), Verdict::Found(1));
    assert_eq!(ledger.at(10, look(756, 0)), refused(16));
    assert_eq!(ledger.at(10, look(985, 6)), refused(15));
}

#[test]
fn compaction_replaces_a_currency() {
    let mut ledger = started();
    for (object, currency) in [(1, 5), (2, 0), (3, 5), (4, 0), (5, 6)] {
        ledger.at(10, put(W, 1, object, currency));
    }
    ledger.commit(10, 1, 3, &[1, 2, 3]);
    assert_eq!(ledger.at(10, compact(1, 4, 5)), refused(17));
    assert_eq!(ledger.at(10, compact(1, 4, 4)), DONE);
    assert_eq!(ledger.at(10, list(0)), listed(4, &[1, 3, 4]));
    // An object that is already listed stays as the only one of its currency.
    assert_eq!(ledger.at(10, compact(1, 5, 1)), DONE);
    assert_eq!(ledger.at(10, compact(1, 6, 1)), DONE);
    assert_eq!(ledger.at(10, list(0)), listed(6, &[1, 4]));
    assert_eq!(ledger.at(10, Kind::Collect), collected(&[2, 3]));
}

#[test]
fn pending_objects_stay_and_fenced_ones_go() {
    let mut ledger = started();
    ledger.at(10, put(W, 1, 1, 5));
    ledger.at(10, put(C, 1, 2, 5));
    assert_eq!(ledger.at(10, Kind::Collect), collected(&[]));
    ledger.at(10, fence(W, 3));
    ledger.at(10, put(W, 1, 3, 5));
    ledger.at(10, put(W, 2, 4, 5));
    // A dead object that isn't collected yet may be named again.
    assert_eq!(ledger.commit(10, 2, 4, &[1]), DONE);
    assert_eq!(ledger.at(10, Kind::Collect), collected(&[3]));
    ledger.commit(10, 2, 5, &[]);
    assert_eq!(ledger.at(10, Kind::Collect), collected(&[1]));
    assert_eq!(ledger.objects.keys().copied().collect::<Vec<_>>(), [2, 4]);
}

#[test]
fn every_accepted_kind_removes_expired_holds_and_their_manifests() {
    let mut start = started();
    start.at(10, put(W, 1, 1, 5));
    start.commit(10, 1, 3, &[1]);
    start.at(10, hold(1, 3, 10));
    start.at(10, hold(2, 3, 0));
    start.commit(10, 1, 4, &[1]);
    start.at(10, hold(3, 4, 10));
    start.at(10, Kind::Release { hold: 2 });
    for kind in [put(W, 1, 2, 5), list(0), look(5, 0), Kind::Collect] {
        let mut ledger = start.clone();
        assert_eq!(ledger.at(10, kind).code(), 0);
        assert_eq!((ledger.manifests.len(), ledger.holds.len()), (2, 2));
        assert_eq!(ledger.at(11, list(0)).code(), 0);
        assert_eq!((ledger.manifests.len(), ledger.holds.len()), (1, 0));
    }
}

#[test]
fn the_last_numbers() {
    let mut last = raw(&started());
    last.manifests[0] = RawManifest { number: u64::MAX - 1, ..last.manifests[0].clone() };
    let mut ledger = from_raw(&last).unwrap();
    assert_eq!(ledger.at(10, put(W, 1, u64::MAX, 0)), DONE);
    assert_eq!(ledger.at(10, put(W, 1, u64::MAX, 0)), refused(9));
    // The largest number is stored and not collected: smaller ones are taken.
    assert_eq!(ledger.at(10, put(W, 1, u64::MAX - 1, 0)), DONE);
    assert_eq!(ledger.at(10, put(W, 1, 1, 0)), DONE);
    assert_eq!(ledger.at(10, put(W, 2, 1, 0)), refused(4));
    assert_eq!(ledger.commit(10, 1, u64::MAX, &[u64::MAX]), DONE);
    for slot in [0, 1, u64::MAX - 1, u64::MAX] {
        assert_eq!(ledger.at(10, fence(W, slot)), refused(6));
        assert_eq!(ledger.commit(10, 1, slot, &[4]), refused(6));
    }
    assert_eq!(ledger.commit(10, 2, 0, &[]), refused(4));
    assert_eq!(ledger.at(u64::MAX, hold(u64::MAX, u64::MAX, u64::MAX)), DONE);
    assert_eq!(ledger.at(u64::MAX, list(u64::MAX)), listed(u64::MAX, &[u64::MAX]));
}
