//! Each sort is answered as it says, and traces and logs of every size come.

use std::collections::BTreeMap;

use super::*;
use crate::compare::logs::{check_log, SHORT};
use crate::limits::LONGEST_VERDICT;
use crate::records::{next_record, Next};

const TIMES: usize = 60_000;

#[test]
fn every_sort_has_the_answers_that_it_says() {
    let (mut random, mut source) = (Random::new(1), Source::new(2));
    let mut answers: BTreeMap<(Sort, u64), usize> = BTreeMap::new();
    for _ in 0..TIMES {
        let (sort, Asked { image, trace, log }) = source.asked(&mut random);
        let answer = check_log(&image, &trace, &log, &mut [0]);
        *answers.entry((sort, answer)).or_default() += 1;
    }
    println!("{answers:?}");
    for (sort, expected) in SORTS {
        for answer in [AGREE, UNSOUND, MALFORMED, SHORT, DIFFERS] {
            let times = answers.get(&(sort, answer)).copied().unwrap_or(0);
            let wanted = if expected.contains(&answer) { 20..=TIMES } else { 0..=0 };
            assert!(wanted.contains(&times), "{sort:?} is answered {answer}: {times}");
        }
    }
}

#[test]
fn traces_are_of_every_size_and_from_many_ledgers() {
    let (mut random, mut source) = (Random::new(3), Source::new(4));
    let mut sizes: BTreeMap<usize, usize> = BTreeMap::new();
    let (mut images, mut longest, mut codes) = (0, 0, [0; 18]);
    for _ in 0..8_000 {
        source.turn(&mut random);
        let Base { image, records, verdicts, .. } = &source.base;
        assert_eq!(records.len(), verdicts.len());
        assert!(records.iter().all(|record| next_record(record) == Next::Record(record.len())));
        *sizes.entry(records.len()).or_default() += 1;
        images += usize::from(!image.is_empty());
        longest += verdicts.iter().filter(|verdict| verdict.len() == LONGEST_VERDICT).count();
        verdicts.iter().for_each(|verdict| codes[usize::from(verdict[6])] += 1);
    }
    let long = sizes.range(250..).map(|(_, times)| times).sum::<usize>();
    println!("{images} with an image, {longest} longest verdicts, {codes:?}, {sizes:?}");
    assert!((0..=40).all(|size| sizes.contains_key(&size)) && long >= 5, "{sizes:?}");
    assert!((3_000..5_000).contains(&images) && longest >= 20, "{images} {longest}");
    assert!(codes.iter().enumerate().all(|(code, times)| (code == 1) == (*times == 0)));
}
