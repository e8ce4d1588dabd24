//! Each sort of image is answered as it says, and ledgers of every size come.

use std::collections::BTreeMap;

use super::ledgers::{Damage, DAMAGES};
use super::*;
use crate::compare::ledgers::raw_of;
use crate::limits::{HOLDS, LONGEST_IMAGE, MANIFESTS, PLACES};
use crate::raw::sound;

const IMAGES: usize = 60_000;

fn answer(image: &[u8]) -> u64 {
    image::read(image).map_or_else(|refused| refused.code(), |_| 0)
}

#[test]
fn every_sort_has_the_answers_that_it_says() {
    let (mut random, mut source) = (Random::new(1), Source::new(2));
    let mut answers: BTreeMap<(Sort, u64), usize> = BTreeMap::new();
    let mut all = [0; 3];
    for _ in 0..IMAGES {
        let (sort, image) = source.image(&mut random);
        let answer = answer(&image);
        *answers.entry((sort, answer)).or_default() += 1;
        all[answer as usize] += 1;
    }
    println!("{all:?} {answers:?}");
    for (sort, expected) in SORTS {
        for answer in 0..=2 {
            let times = answers.get(&(sort, answer)).copied().unwrap_or(0);
            let wanted = if expected.contains(&answer) { 20..=IMAGES } else { 0..=0 };
            assert!(wanted.contains(&times), "{sort:?} is answered {answer}: {times}");
        }
    }
    assert!(all.iter().all(|times| *times > IMAGES / 10), "{all:?}");
}

#[test]
fn ledgers_are_sound_and_of_every_size() {
    let (mut random, mut source) = (Random::new(3), Source::new(4));
    let (mut objects, mut manifests, mut holds) = ([0; PLACES + 1], [0; MANIFESTS + 1], [0; 9]);
    let (mut longest, mut holes) = (0, 0);
    for _ in 0..20_000 {
        let ledger = source.ledger(&mut random);
        assert!(sound(&ledger));
        let taken = (0..PLACES).filter(|place| ledger.occupied(*place)).count();
        objects[taken] += 1;
        manifests[ledger.kept().len()] += 1;
        holds[ledger.held().len()] += 1;
        holes += usize::from((0..taken).any(|place| !ledger.occupied(place)));
        longest += usize::from(image::write(&ledger).unwrap().len() == LONGEST_IMAGE);
    }
    println!("longest {longest}, with holes {holes}, {manifests:?} {holds:?}");
    assert!(objects.iter().all(|times| *times > 0), "{objects:?}");
    assert!(manifests[1..].iter().chain(&holds[..=HOLDS]).all(|times| *times > 200));
    assert!(longest > 200 && holes > 2_000, "{longest} {holes}");
}

#[test]
fn every_damage_but_any_makes_a_ledger_unsound() {
    let (mut random, mut source) = (Random::new(5), Source::new(6));
    let mut judged: BTreeMap<(Damage, bool), usize> = BTreeMap::new();
    for _ in 0..20_000 {
        let (damage, numbers) = source.numbers(&mut random);
        *judged.entry((damage, sound(&raw_of(&numbers)))).or_default() += 1;
    }
    println!("{judged:?}");
    for damage in DAMAGES {
        for sound in [false, true] {
            let times = judged.get(&(damage, sound)).copied().unwrap_or(0);
            let wanted = damage == Damage::Any || sound == (damage == Damage::None);
            assert_eq!(times > 200, wanted, "{damage:?} is {sound}: {times}");
            assert!(wanted || times == 0, "{damage:?} is {sound}: {times}");
        }
    }
}
