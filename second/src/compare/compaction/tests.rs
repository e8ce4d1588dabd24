//! The check finds wrong compactions and wrong looks: each wrong side differs
//! from the right one in one respect only.

use super::*;
use crate::compare::ledgers::step;
use crate::compare::records::put_verdict;
use crate::compare::sides::wrong::side;
use crate::compare::sides::SECOND;

/// The numbers of the two kinds, and where a step's numbers have its time, its
/// slot, its object and its hold.
const COMPACT: u64 = 3;
const LOOK: u64 = 8;
const TIME: usize = 1;
const SLOT: usize = 4;
const OBJECT: usize = 5;
const HOLD: usize = 7;

fn checked(course: Course, sequences: usize, side: Calls) -> Result<Counts, String> {
    let (mut random, mut guide) = (Random::new(1), Guide::new(2));
    let mut counts = Counts::default();
    for _ in 0..sequences {
        counts.add(check_sequence(&mut random, &mut guide, course, 8, side)?);
    }
    Ok(counts)
}

/// The error of a wrong step, and of a wrong run beside right steps.
#[track_caller]
fn found(side: Calls, told: &str) {
    let error = checked(Course::Stocked, 20, Calls { step: side.step, ..SECOND }).unwrap_err();
    assert!(error.contains(told), "{error}");
    let error = checked(Course::Stocked, 20, Calls { run_on: side.run_on, ..SECOND }).unwrap_err();
    assert!(error.contains(" gave ") || error.contains("a run "), "{error}");
}

/// A step whose accepted COMPACTs leave what `change` makes of the ledger after
/// them, given the one before and the object too.
fn compacted(
    ledger: &mut [u64],
    numbers: &[u64],
    list: &[u64],
    verdict: &mut [u64],
    objects: &mut [u64],
    change: fn(&Ledger, &mut Ledger, u64),
) -> u64 {
    let before = ledger_of(ledger);
    let answer = step(ledger, numbers, list, verdict, objects);
    if let (COMPACT, 1, Some(before)) = (numbers[0], verdict[0], before) {
        let mut after = ledger_of(ledger).expect("the right one is sound");
        change(&before, &mut after, numbers[OBJECT]);
        ledger.copy_from_slice(&numbers_of(&after));
    }
    answer
}

macro_rules! compacting {
    ($change:expr) => {
        side!(|ledger, numbers, list, verdict, objects| {
            compacted(ledger, numbers, list, verdict, objects, $change)
        })
    };
}

fn current_list(ledger: &mut Ledger) -> &mut BTreeSet<u64> {
    &mut ledger.manifests.last_entry().expect("one is kept").into_mut().list
}

/// Removes the manifests that are neither current nor held, as a step does.
fn remove_inactive(ledger: &mut Ledger) {
    let active = ledger.active(ledger.clock);
    ledger.manifests.retain(|number, _| active.contains(number));
}

#[test]
fn the_right_side_passes_and_much_is_seen() {
    // Also as a run of single steps.
    let same = side!(step);
    for course in [Course::Fresh, Course::Stocked, Course::High] {
        let counts = checked(course, 20, SECOND).unwrap();
        assert_eq!(checked(course, 20, same), Ok(counts));
    }
    let counts = checked(Course::Stocked, 20, SECOND).unwrap();
    println!("{counts:?}");
    assert!(counts.compactions > 100 && counts.looks > 50 * counts.compactions);
    assert_eq!(counts.answers.keys().copied().collect::<Vec<_>>(), [0, 2, 15, 16]);
    let least = counts.held_current.min(counts.held_back);
    assert!(least > 300 && counts.sales > 10 && counts.listed > 10, "{counts:?}");
    assert!(counts.expired > 20 && counts.at_expiry > 20, "{counts:?}");
}

#[test]
fn objects_of_other_currencies_that_go_out_are_found() {
    // The first of the list that is of another currency.
    let first = compacting!(|_, after, object| {
        let currency = after.objects[&object].currency;
        let other = |name: &&u64| after.objects[name].currency != currency;
        if let Some(name) = after.current().1.list.iter().find(other).copied() {
            current_list(after).remove(&name);
        }
    });
    found(first, " became ");
    // Sales batches, of any compaction.
    let sales = compacting!(|_, after, object| {
        let batch = |name: &u64| after.objects[name].currency == 0 && *name != object;
        let kept = after.current().1.list.iter().filter(|name| !batch(name));
        let kept = kept.copied().collect();
        *current_list(after) = kept;
    });
    found(sales, "the currencies ");
    // All others, where a sales batch comes in.
    let emptied = compacting!(|_, after, object| {
        if after.objects[&object].currency == 0 {
            *current_list(after) = [object].into();
        }
    });
    found(emptied, "the currencies ");
    // The list is that of the first manifest kept.
    let oldest = compacting!(|before, after, object| {
        let (_, oldest) = before.manifests.first_key_value().expect("one is kept");
        let currency = after.objects[&object].currency;
        let kept = oldest.list.iter().filter(|name| after.objects[name].currency != currency);
        let kept = kept.copied().chain([object]).collect();
        *current_list(after) = kept;
    });
    found(oldest, " became ");
}

#[test]
fn another_object_that_comes_in_or_stays_is_found() {
    let none = compacting!(|_, after, object| {
        current_list(after).remove(&object);
    });
    found(none, "the currencies ");
    // What was there stays.
    let all = compacting!(|before, after, _| {
        current_list(after).extend(&before.current().1.list);
    });
    found(all, "of the compacted currency are left ");
    // The highest of the currency comes in, whichever is named.
    let highest = compacting!(|_, after, object| {
        let currency = after.objects[&object].currency;
        let highest = after.objects.iter().rev().find(|(_, o)| o.currency == currency);
        let highest = highest.map_or(object, |(number, _)| *number);
        after.objects.get_mut(&highest).expect("it is stored").named = true;
        let list = current_list(after);
        list.remove(&object);
        list.insert(highest);
    });
    found(highest, "of the compacted currency are left ");
}

/// 17 is not given: the currency comes in.
#[test]
fn a_new_currency_is_found() {
    let new = side!(|ledger, numbers, list, verdict, objects| {
        let before = ledger_of(ledger);
        let answer = step(ledger, numbers, list, verdict, objects);
        if let (COMPACT, [0, 17, _], Some(mut next)) = (numbers[0], &verdict[..], before) {
            (next.clock, next.holds) = (numbers[TIME], live(&next, numbers[TIME]));
            let mut manifest = next.current().1.clone();
            manifest.list.insert(numbers[OBJECT]);
            next.objects.get_mut(&numbers[OBJECT]).expect("row 8").named = true;
            next.manifests.insert(numbers[SLOT], manifest);
            remove_inactive(&mut next);
            ledger.copy_from_slice(&numbers_of(&next));
            put_verdict(Verdict::Done, verdict, objects);
        }
        answer
    });
    let side = Calls { step: new.step, ..SECOND };
    let error = [Course::Stocked, Course::Fresh].iter().find_map(|c| checked(*c, 40, side).err());
    let error = error.expect("17 is not given");
    assert!(error.contains("the currencies "), "{error}");
}

/// The holds that are live at that time.
fn live(ledger: &Ledger, time: u64) -> BTreeMap<u64, Hold> {
    let holds = ledger.holds.iter().filter(|(_, hold)| hold.live(time));
    holds.map(|(number, hold)| (*number, *hold)).collect()
}

#[test]
fn holds_that_move_or_go_are_found() {
    // To the new manifest, from the one that was current.
    let moved = compacting!(|before, after, _| {
        let (old, new) = (before.current().0, after.current().0);
        let holds = after.holds.values_mut().filter(|hold| hold.manifest == old);
        holds.for_each(|hold| hold.manifest = new);
        remove_inactive(after);
    });
    found(moved, " gave ");
    // Holds that expire at the compaction's time go.
    let dropped = compacting!(|_, after, _| {
        let clock = after.clock;
        after.holds.retain(|_, hold| hold.expiry == 0 || hold.expiry > clock);
        remove_inactive(after);
    });
    found(dropped, "before and Refused(15) after");
    // All go but the one with the lowest number.
    let all = compacting!(|_, after, _| {
        let lowest = after.holds.first_key_value().map_or(0, |(number, _)| *number);
        after.holds.retain(|number, _| *number == lowest);
        remove_inactive(after);
    });
    found(all, "before and Refused(15) after");
    // One comes in that was none.
    let new = compacting!(|_, after, _| {
        let manifest = after.current().0;
        let hold = (1..).find(|hold| !after.holds.contains_key(hold)).expect("eight are kept");
        if after.holds.len() < crate::limits::HOLDS {
            after.holds.insert(hold, Hold { manifest, expiry: 0 });
        }
    });
    found(new, " gave Refused(15) before");
}

/// The held manifests' lists are compacted too, or only the one that was
/// current.
#[test]
fn held_manifests_that_are_compacted_are_found() {
    let every = compacting!(|_, after, object| {
        let (currency, objects) = (after.objects[&object].currency, after.objects.clone());
        for manifest in after.manifests.values_mut() {
            manifest.list.retain(|name| objects[name].currency != currency || *name == object);
        }
    });
    found(every, " gave ");
    let replaced = compacting!(|before, after, _| {
        let list = after.current().1.list.clone();
        if let Some(manifest) = after.manifests.get_mut(&before.current().0) {
            manifest.list = list;
        }
    });
    found(replaced, " gave ");
}

/// A look that is answered by what `change` makes of its numbers.
fn looked(
    ledger: &mut [u64],
    numbers: &[u64],
    list: &[u64],
    verdict: &mut [u64],
    objects: &mut [u64],
    change: fn(&Ledger, &mut [u64]),
) -> u64 {
    let mut changed = numbers.to_vec();
    if let (LOOK, Some(ledger)) = (numbers[0], ledger_of(ledger)) {
        change(&ledger, &mut changed);
    }
    step(ledger, &changed, list, verdict, objects)
}

macro_rules! looking {
    ($change:expr) => {
        side!(|ledger, numbers, list, verdict, objects| {
            looked(ledger, numbers, list, verdict, objects, $change)
        })
    };
}

#[test]
fn wrong_looks_are_found() {
    // Through a live hold, the current manifest.
    let current = looking!(|ledger, look| {
        let held = ledger.holds.get(&look[HOLD]);
        if held.is_some_and(|hold| hold.live(look[TIME])) {
            look[HOLD] = 0;
        }
    });
    found(current, " gave ");
    // Through an expired hold, while the ledger still has it.
    let expired = looking!(|ledger, look| look[TIME] = ledger.clock);
    found(expired, "before and Refused(15) after");
    // At the clock itself it is too late.
    let late = looking!(|ledger, look| {
        if look[TIME] == ledger.clock {
            look[TIME] = ledger.clock.saturating_sub(1);
        }
    });
    found(late, "before and Refused(3) after");
}
