//! Traces that end whole, with the ledgers that they start from and the
//! verdicts of the second program's run.

use super::{Asked, Source};
use crate::compare::sides::split;
use crate::generate::measured::{at, FIRST};
use crate::generate::{broken, loose, record, stocked, verdict_record, whole};
use crate::image;
use crate::ledger::Ledger;
use crate::limits::HOLDS;
use crate::random::Random;
use crate::raw::{from_raw, raw};
use crate::records::{write_step, Kind};
use crate::run::{run, End};

/// The most records of a trace: of half of the traces, of most, of nearly all,
/// and of those that are long.
const FEWEST: usize = 4;
const FEW: usize = 10;
const MANY: usize = 40;
const MOST: usize = 500;

#[derive(Debug, Clone)]
pub struct Base {
    pub start: Ledger,
    /// Of no bytes where the start is the fresh ledger without one.
    pub image: Vec<u8>,
    pub records: Vec<Vec<u8>>,
    pub verdicts: Vec<Vec<u8>>,
}

impl Base {
    pub fn empty() -> Self {
        Base { start: Ledger::fresh(), image: vec![], records: vec![], verdicts: vec![] }
    }

    fn new(start: Ledger, image: Vec<u8>, records: Vec<Vec<u8>>) -> Self {
        let done = run(&start, &records.concat(), usize::MAX);
        assert_eq!(done.end, End::Whole, "whole records end whole");
        let verdicts = split(&done.output).into_iter().map(Vec::from).collect();
        Base { start, image, records, verdicts }
    }

    /// Its trace with its own log.
    pub fn asked(&self) -> Asked {
        let (trace, log) = (self.records.concat(), self.verdicts.concat());
        Asked { image: self.image.clone(), trace, log }
    }

    /// The image of the start, also of the fresh ledger.
    pub fn start_image(&self) -> Vec<u8> {
        image_of(&self.start)
    }
}

pub fn image_of(ledger: &Ledger) -> Vec<u8> {
    image::write(&raw(ledger)).expect("the ledger is sound")
}

impl Source {
    /// Another trace takes the place of the one before.
    pub fn turn(&mut self, random: &mut Random) {
        let next = match random.below(200) {
            0 => self.swept(random),
            1..=25 => self.loose(random),
            _ => self.guided(random),
        };
        self.before = std::mem::replace(&mut self.base, next);
    }

    /// The fresh ledger, most often without its image, or a sound one with it,
    /// most often a small one.
    fn start(&mut self, random: &mut Random) -> (Ledger, Vec<u8>) {
        let start = match random.below(8) {
            0..=3 => return (Ledger::fresh(), Vec::new()),
            4 => Ledger::fresh(),
            5 => from_raw(&self.images.ledger(random)).expect("the ledger is sound"),
            _ => stocked::sized(random, 8, 4),
        };
        let image = image_of(&start);
        (start, image)
    }

    fn guided(&mut self, random: &mut Random) -> Base {
        let (start, image) = self.start(random);
        let length = length(random);
        let records = whole::records(random, &mut self.guide, &start, length);
        Base::new(start, image, records)
    }

    /// Records without regard to the ledger, most of them malformed.
    fn loose(&mut self, random: &mut Random) -> Base {
        let (start, image) = self.start(random);
        let records = (0..random.index(FEW + 1)).map(|_| match random.below(4) {
            0 => loose::step(random),
            1 => verdict_record(random),
            2 => record(random),
            _ => {
                let record = record(random);
                broken(random, &record)
            }
        });
        let records = records.filter(|record| split(record).concat() == *record).collect();
        Base::new(start, image, records)
    }

    /// All that there may be collected at once, so the longest verdict, and some
    /// steps behind.
    fn swept(&mut self, random: &mut Random) -> Base {
        let start = self.longest.clone();
        let holds = (FIRST..).take(HOLDS).map(|hold| at(Kind::Release { hold }, &[]));
        let slot = start.current().0 + 1;
        let commit = at(Kind::Commit { epoch: 2, slot }, &[]);
        let steps = holds.chain([commit, at(Kind::Collect, &[])]);
        let mut records: Vec<Vec<u8>> =
            steps.map(|step| write_step(&step).expect("the steps are well formed")).collect();
        let after = run(&start, &records.concat(), usize::MAX).ledger;
        let more = random.index(FEW);
        records.extend(whole::records(random, &mut self.guide, &after, more));
        let image = image_of(&start);
        Base::new(start, image, records)
    }
}

fn length(random: &mut Random) -> usize {
    match random.below(400) {
        0 => MOST / 2 + random.index(MOST / 2 + 1),
        1..=30 => random.index(MANY + 1),
        31..=180 => random.index(FEW + 1),
        _ => random.index(FEWEST + 1),
    }
}
