//! The proved library's name codec against the second one.

use second::compare::{self, compare_reads, compare_writes};
use second::proved;
use second::random::Random;

#[test]
fn readers_agree() {
    let mut random = Random::new(20_240_601);
    let compared = compare_reads(&mut random, 400_000, proved::read_name, compare::read_name);
    let answers = compared.unwrap_or_else(|difference| panic!("readers differ: {difference}"));
    println!("reads by answer: {answers:?}");
    for answer in 0..=3 {
        assert!(answers[&answer] >= 10_000, "{answers:?}");
    }
}

#[test]
fn writers_agree() {
    let mut random = Random::new(20_240_602);
    let compared = compare_writes(&mut random, 1000, proved::write_name, compare::write_name);
    let answers = compared.unwrap_or_else(|difference| panic!("writers differ: {difference}"));
    println!("writes by answer: {answers:?}");
    for answer in [0, 2, 28, 38] {
        assert!(answers[&answer] >= 10_000, "{answers:?}");
    }
}
