//! Sound ledgers with any number of objects at any places, of manifests and of
//! holds, often as many as there may be: document 01, "What the ledger holds".

use super::guided::some_stored;
use super::{expiry, role};
use crate::ledger::{Hold, Ledger, Manifest, Object};
use crate::limits::{HOLDS, MANIFESTS, NAMES, PLACES};
use crate::random::Random;
use crate::records::Role;

const CURRENCIES: [u16; 5] = [0, 1, 756, 978, 999];

pub fn ledger(random: &mut Random) -> Ledger {
    sized(random, PLACES, NAMES)
}

/// With at most so many objects, and names in a manifest.
pub fn sized(random: &mut Random, objects: usize, names: usize) -> Ledger {
    let mut ledger = Ledger::fresh();
    ledger.clock = random.below(1000);
    fence(random, &mut ledger);
    store(random, &mut ledger, objects);
    publish(random, &mut ledger, names);
    hold(random, &mut ledger);
    ledger
}

/// Any number up to the most, and often the most.
fn up_to(random: &mut Random, most: usize) -> usize {
    match random.below(3) {
        0 => most,
        _ => random.index(most + 1),
    }
}

/// Manifests with empty lists.
fn fence(random: &mut Random, ledger: &mut Ledger) {
    ledger.manifests.clear();
    let (mut number, mut writer, mut compactor) = (10, 1 + random.below(5), random.below(5));
    for _ in 0..up_to(random, MANIFESTS).max(1) {
        ledger.manifests.insert(number, Manifest { writer, compactor, list: [].into() });
        // The number grows as much as both epochs, or more.
        writer += random.below(2);
        compactor += random.below(2);
        number += 2 + random.below(3);
    }
}

/// Objects at the lowest places or at any.
fn store(random: &mut Random, ledger: &mut Ledger, most: usize) {
    let mut places: Vec<usize> = (0..PLACES).collect();
    if random.once_in(2) {
        for place in 0..PLACES {
            places.swap(place, random.index(PLACES));
        }
    }
    places.truncate(up_to(random, most));
    let mut number = random.below(100);
    for place in places {
        number += 1 + random.below(4);
        let role = if ledger.epoch(Role::Compactor) == 0 { Role::Writer } else { role(random) };
        let epoch = 1 + random.below(ledger.epoch(role));
        let (currency, named) = (random.pick(&CURRENCIES), random.once_in(3));
        ledger.objects.insert(number, Object { place, role, epoch, currency, named });
    }
    ledger.highest_collected = random.below(number + 1);
}

/// A list in each manifest.
fn publish(random: &mut Random, ledger: &mut Ledger, most: usize) {
    let numbers: Vec<u64> = ledger.manifests.keys().copied().collect();
    for number in numbers {
        let wanted = up_to(random, most);
        let list = some_stored(random, ledger, wanted);
        for name in &list {
            ledger.objects.get_mut(name).expect("it is stored").named = true;
        }
        let manifest = ledger.manifests.get_mut(&number).expect("it is kept");
        manifest.list = list.into_iter().collect();
    }
}

/// A hold on each manifest but the current one, and some more.
fn hold(random: &mut Random, ledger: &mut Ledger) {
    let kept: Vec<u64> = ledger.manifests.keys().copied().collect();
    let mut held = kept[..kept.len() - 1].to_vec();
    for _ in 0..up_to(random, HOLDS - held.len()) {
        held.insert(random.index(held.len() + 1), random.pick(&kept));
    }
    let mut number = 0;
    for manifest in held {
        number += 1 + random.below(3);
        let expiry = expiry(random, ledger.clock);
        ledger.holds.insert(number, Hold { manifest, expiry });
    }
}

#[cfg(test)]
mod tests {
    use super::*;
    use crate::limits::{WORD, WORDS};
    use crate::raw::{from_raw, raw};

    #[test]
    fn the_ledgers_are_sound_and_of_every_size() {
        let mut random = Random::new(1);
        let (mut stored, mut full) = ([0; PLACES + 1], 0);
        let mut lowest_free = [0; WORDS];
        for _ in 0..5_000 {
            let ledger = ledger(&mut random);
            assert_eq!(from_raw(&raw(&ledger)).as_ref(), Some(&ledger));
            stored[ledger.objects.len()] += 1;
            let lists = ledger.manifests.values().filter(|m| m.list.len() == NAMES);
            let sizes = (ledger.objects.len(), lists.count(), ledger.holds.len());
            full += usize::from(sizes.0 == PLACES && sizes.1 > 3 && sizes.2 == HOLDS);
            let taken = |place: &usize| ledger.objects.values().any(|o| o.place == *place);
            if let Some(place) = (0..PLACES).find(|place| !taken(place)) {
                lowest_free[place / WORD] += 1;
            }
        }
        println!("full {full}, lowest free place by word {lowest_free:?}");
        assert!(stored.iter().all(|times| *times > 0), "{stored:?}");
        assert!(full > 100 && lowest_free.iter().all(|times| *times > 100));
    }
}
