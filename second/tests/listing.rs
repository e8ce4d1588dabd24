//! The proved library's listing reader against the second one.

use second::compare::listing::{
    compare_reads, read_listing, Counts, Place, ReadCall, BAD, LISTING, SHORT, WHOLE,
};
use second::compare::Answers;
use second::generate::listings::SORTS;
use second::proved;
use second::random::Random;
use second::samples::listings;

const LISTINGS: usize = 300_000;

fn agree(seed: u64) -> Counts {
    let mut random = Random::new(seed);
    let compared = compare_reads(&mut random, LISTINGS, proved::read_listing, read_listing);
    let counts = compared.unwrap_or_else(|difference| panic!("readers differ: {difference}"));
    println!("{} listings, {LISTINGS} random: {:?}", counts.listings, counts.sorts);
    println!("by answer: {:?}", counts.answers);
    println!("without and with a manifest: {:?}", counts.manifests);
    println!("by first bad line: {}", in_short(&counts.bad));
    println!("by its place: {:?}", counts.places);
    println!("by objects: {}", in_short(&counts.objects));
    counts
}

/// Each number up to 9 with its count, and the count of all from a limit on.
fn in_short(answers: &Answers) -> String {
    let each: Answers = answers.range(..10).map(|(number, times)| (*number, *times)).collect();
    let [ten, byte] = [10, 256].map(|limit| from(answers, limit));
    format!("{each:?}, from 10 on {ten}, from 256 on {byte}")
}

fn from(answers: &Answers, limit: u64) -> usize {
    answers.range(limit..).map(|(_, times)| times).sum()
}

#[test]
fn readers_agree() {
    let counts = agree(20_240_691);
    assert_eq!(counts.sorts.values().sum::<usize>(), LISTINGS);
    for sort in SORTS {
        assert!(counts.sorts.get(&sort) >= Some(&5_000), "{sort:?} of {:?}", counts.sorts);
    }
    for answer in [WHOLE, BAD, SHORT] {
        assert!(counts.answers.get(&answer) >= Some(&20_000), "{:?}", counts.answers);
    }
    for found in [0, 1] {
        assert!(counts.manifests.get(&found) >= Some(&20_000), "{:?}", counts.manifests);
    }
    for place in [Place::Only, Place::First, Place::Middle, Place::Last] {
        assert!(counts.places.get(&place) >= Some(&5_000), "{:?}", counts.places);
    }
    for line in 0..=8 {
        assert!(counts.bad.get(&line) >= Some(&1_000), "{line} of {:?}", counts.bad);
    }
    // More lines, and more objects, than a byte counts.
    for counted in [&counts.bad, &counts.objects] {
        assert!(from(counted, 10) >= 5_000 && from(counted, 256) >= 100, "{counted:?}");
    }
}

/// Also what is too long for the program, and more lines than 16 bits count.
#[test]
fn the_program_s_inputs_are_read_alike() {
    let long: String = (1..=70_000).map(|number| format!("wal/{number:020}.sst\n")).collect();
    let mut inputs: Vec<Vec<u8>> = listings().into_iter().map(|(_, input)| input).collect();
    inputs.push(long.into_bytes());
    for input in inputs {
        let call = |read: ReadCall| {
            let mut numbers = [99; LISTING];
            (read(&input, &mut numbers), numbers)
        };
        assert_eq!(call(proved::read_listing), call(read_listing));
    }
}

#[test]
fn slices_of_every_length_are_answered_alike() {
    let (name, before) = (b"manifest/00000000000000000007.manifest\n", 99);
    for lent in 0..=LISTING + 3 {
        let (mut one, mut other) = (vec![before; lent], vec![before; lent]);
        let answer = proved::read_listing(name, &mut one);
        assert_eq!(answer, if lent < LISTING { SHORT } else { WHOLE });
        assert_eq!(answer, read_listing(name, &mut other));
        assert_eq!(one, other);
        if lent < LISTING {
            assert_eq!(one, vec![before; lent]);
        } else {
            assert_eq!(one[..LISTING], [1, 7, 0, 0]);
            assert_eq!(one[LISTING..], vec![before; lent - LISTING]);
        }
    }
}
