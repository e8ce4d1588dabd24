//! The proved library's images against the second program's.

use std::thread;

use second::compare::images::loads::{self, compare_loads, Side};
use second::compare::images::{
    compare_lent, compare_reads, compare_rounds, compare_writes, Calls, Reads, Room, Writes,
    MALFORMED, READ, SECOND, SHORT, UNSOUND,
};
use second::compare::ledgers::Course;
use second::compare::sides;
use second::generate::guided::Guide;
use second::generate::images::ledgers::{Damage, DAMAGES};
use second::generate::images::{Source, SORTS};
use second::limits::LONGEST_IMAGE;
use second::proved;
use second::random::Random;

const PROVED: Calls = Calls { read: proved::read_image, write: proved::write_image };
const STEPS: sides::Calls = sides::Calls { step: proved::step, run_on: proved::run_on };

/// Each is compared in two halves at once.
const LEDGERS: usize = 300_000;
const IMAGES: usize = 320_000;
const ROUNDS: usize = 20_000;

/// What two comparisons count, each of its own seed.
fn in_halves<C: Send>(seed: u64, compare: fn(u64) -> Result<C, String>) -> [C; 2] {
    let counted =
        |seed: u64| compare(seed).unwrap_or_else(|difference| panic!("seed {seed}: {difference}"));
    thread::scope(|scope| {
        let other = scope.spawn(move || counted(seed + 2));
        [counted(seed), other.join().expect("the other half")]
    })
}

fn writes(seed: u64) -> Result<Writes, String> {
    let (mut random, mut source) = (Random::new(seed), Source::new(seed + 1));
    compare_writes(&mut random, &mut source, LEDGERS / 2, PROVED.write, SECOND.write)
}

#[test]
fn writers_agree() {
    for counts in in_halves(20_240_731, writes) {
        let Writes { ledgers, damages, lengths, rooms } = counts;
        let bytes: u64 = lengths.iter().map(|(length, times)| length * *times as u64).sum();
        println!("{ledgers} ledgers by damage and refusal: {damages:?}");
        println!("  {bytes} bytes, images of {} lengths; rooms {rooms:?}", lengths.len());
        assert_eq!(ledgers, LEDGERS / 2);
        for damage in DAMAGES {
            let written = damages.get(&(damage, None)).copied().unwrap_or(0);
            let unsound = damages.get(&(damage, Some(UNSOUND))).copied().unwrap_or(0);
            let [sound, broken] = [Damage::None, Damage::Any].map(|one| damage == one);
            assert!(if sound || broken { written >= 3_000 } else { written == 0 }, "{damage:?}");
            assert!(if sound { unsound == 0 } else { unsound >= 5_000 }, "{damage:?}");
        }
        let short = DAMAGES.map(|damage| damages.get(&(damage, Some(SHORT))).unwrap_or(&0));
        assert!(short.into_iter().sum::<usize>() >= 200, "{damages:?}");
        for room in [Room::None, Room::Less, Room::OneLess, Room::Exact, Room::More] {
            assert!(rooms.get(&room) >= Some(&5_000), "{room:?} of {rooms:?}");
        }
        // The fresh ledger's image, and the longest.
        for length in [56, LONGEST_IMAGE as u64] {
            assert!(lengths.get(&length) >= Some(&1_000), "{length}");
        }
        assert!(lengths.len() >= 1_000, "{}", lengths.len());
    }
}

fn reads(seed: u64) -> Result<Reads, String> {
    let (mut random, mut source) = (Random::new(seed), Source::new(seed + 1));
    compare_reads(&mut random, &mut source, IMAGES / 2, PROVED, SECOND)
}

#[test]
fn readers_agree() {
    for counts in in_halves(20_240_735, reads) {
        let Reads { images, answers, sorts } = counts;
        println!("{images} images by answer: {answers:?}\n  by sort and answer: {sorts:?}");
        assert_eq!(images, IMAGES / 2);
        for answer in [READ, UNSOUND, MALFORMED] {
            assert!(answers.get(&answer) >= Some(&25_000), "{answer} of {answers:?}");
        }
        assert!(answers.get(&SHORT) >= Some(&200), "{answers:?}");
        for (sort, expected) in SORTS {
            for answer in [READ, UNSOUND, MALFORMED] {
                let times = sorts.get(&(sort, answer)).copied().unwrap_or(0);
                let wanted = expected.contains(&answer);
                let enough = if wanted { times >= 200 } else { times == 0 };
                assert!(enough, "{sort:?} is answered {answer}: {times}");
            }
        }
    }
}

#[test]
fn images_go_from_side_to_side() {
    let (mut random, mut source) = (Random::new(20_240_739), Source::new(20_240_740));
    let compared = compare_rounds(&mut random, &mut source, ROUNDS, PROVED, SECOND);
    let bytes = compared.unwrap_or_else(|difference| panic!("{difference}"));
    println!("{ROUNDS} ledgers both ways, {bytes} bytes");
    assert!(bytes >= 1_000 * ROUNDS, "{bytes}");
}

#[test]
fn slices_of_every_length_are_answered_alike() {
    let (mut random, mut source) = (Random::new(20_240_741), Source::new(20_240_742));
    let compared = compare_lent(&mut random, &mut source, PROVED, SECOND);
    let answers = compared.unwrap_or_else(|difference| panic!("{difference}"));
    println!("by answer, 4 for a length: {answers:?}");
    assert!((0..=4).all(|answer| answers.get(&answer) >= Some(&100)), "{answers:?}");
}

/// Both sides save, go on, load what they saved earlier, and go on.
#[test]
fn loads_lead_back_to_the_ledger_that_was_saved() {
    let (mut random, mut guide) = (Random::new(20_240_743), Guide::new(20_240_744));
    let side = Side { steps: STEPS, images: PROVED };
    let mut counts = loads::Counts::default();
    for course in [Course::Fresh, Course::Stocked, Course::High] {
        for sequence in 0..15 {
            let compared =
                compare_loads(&mut random, &mut guide, course, 1_000, side, loads::SECOND);
            counts.add(compared.unwrap_or_else(|difference| {
                panic!("{course:?}, sequence {sequence}: {difference}")
            }));
        }
    }
    println!("{counts:?}");
    assert!(counts.saves >= 4_000 && counts.older >= 1_500, "{counts:?}");
    assert!(counts.steps >= 35_000 && counts.replayed >= 2_000, "{counts:?}");
    for row in (0..=17).filter(|row| *row != 1) {
        assert!(counts.verdicts.get(&row) >= Some(&50), "{row} of {:?}", counts.verdicts);
    }
}
