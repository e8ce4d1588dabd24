//! The ledgers on which desks are compared, and the times, holds and
//! currencies that are asked of them.

use super::Left;
use crate::compare::ledgers::{damage, ledger_numbers, raw_of, Course, LEDGER};
use crate::compare::{count, Answers, MARGIN};
use crate::generate::guided::Guide;
use crate::generate::number;
use crate::ledger::{Ledger, Manifest};
use crate::random::Random;
use crate::raw::{from_raw, raw};
use crate::records::Kind;

/// The most guided steps between two calls where the current list has sheets.
const STEPS: u64 = 6;
/// Currencies that a list has or lacks.
const USUAL: [u64; 6] = [1, 756, 840, 978, 985, 999];
/// Currencies at a limit or at a width; 66,514 is 978 in its last 16 bits.
pub const EDGES: [u64; 8] = [0, 999, 1_000, 65_535, 65_536, 66_514, u64::MAX - 1, u64::MAX];

/// A sound ledger that guided steps and the calls compared lead on.
pub struct Walk {
    course: Course,
    ledger: Ledger,
}

/// The numbers that are lent for a ledger, and whether they were damaged.
pub struct Lent {
    pub ledger: Vec<u64>,
    pub changed: bool,
}

impl Lent {
    /// Whether a call has left another ledger than the undamaged one lent.
    pub fn moved(&self, left: &Left) -> bool {
        !self.changed && self.ledger != left.ledger[MARGIN..MARGIN + LEDGER]
    }
}

impl Walk {
    pub fn new(random: &mut Random, course: Course) -> Self {
        Walk { course, ledger: course.start(random) }
    }

    /// A few steps on, at times none, and more where the current list has no
    /// sheet, so that most looks find one.
    pub fn next(&mut self, random: &mut Random, guide: &mut Guide) -> Lent {
        for _ in 0..random.below(STEPS + 1) {
            self.step(guide);
        }
        while self.listed(0).is_empty() && !random.once_in(20) {
            self.step(guide);
        }
        let sound = ledger_numbers(&raw(&self.ledger));
        let mut ledger = sound.clone();
        if self.course == Course::Damaged && random.below(4) != 0 {
            damage(random, &mut ledger);
        }
        Lent { changed: ledger != sound, ledger }
    }

    fn step(&mut self, guide: &mut Guide) {
        let mut step = guide.next(&self.ledger);
        if let (Course::High, Kind::Hold { hold, .. }) = (self.course, &mut step.kind) {
            *hold = u64::MAX - *hold % 20;
        }
        self.ledger.step(&step);
    }

    /// Goes on with the ledger that a call left, unless it was damaged so that
    /// it is not sound. Gives whether it is sound in spite of damage.
    pub fn go_on(&mut self, lent: &Lent, left: &Left) -> Result<bool, String> {
        match from_raw(&raw_of(&left.ledger[MARGIN..MARGIN + LEDGER])) {
            Some(ledger) => self.ledger = ledger,
            None if lent.changed => return Ok(false),
            None => return Err("the next ledger is not sound".to_string()),
        }
        Ok(lent.changed)
    }

    /// The clock most often, else below it, above it, or at or just behind an
    /// expiry.
    pub fn time(&self, random: &mut Random) -> u64 {
        let clock = self.ledger.clock;
        let expiries = self.ledger.holds.values().map(|hold| hold.expiry);
        let expiries: Vec<u64> = expiries.filter(|expiry| *expiry != 0).collect();
        match random.below(20) {
            0 => clock.saturating_sub(1 + random.below(3)),
            1 => random.below(clock.max(1)),
            2 if !expiries.is_empty() => random.pick(&expiries),
            3 if !expiries.is_empty() => random.pick(&expiries).saturating_add(1),
            4..=9 => clock.saturating_add(1 + random.below(3)),
            10 if random.once_in(100) => u64::MAX - random.below(3),
            _ => clock,
        }
    }

    /// None most often, else one of the ledger, live or expired by the time
    /// asked, or an unknown one.
    pub fn hold(&self, random: &mut Random) -> u64 {
        let kept: Vec<u64> = self.ledger.holds.keys().copied().collect();
        match random.below(16) {
            0 => 1 + random.below(30),
            1 => number(random),
            2..=7 if !kept.is_empty() => random.pick(&kept),
            _ => 0,
        }
    }

    /// One of the list that is asked for most often.
    pub fn currency(&self, random: &mut Random, hold: u64) -> u64 {
        let listed = self.listed(hold);
        match random.below(10) {
            0 => random.pick(&EDGES),
            1 => 1 + random.below(1_000),
            2 => random.pick(&USUAL),
            _ if listed.is_empty() => random.pick(&USUAL),
            _ => random.pick(&listed).1,
        }
    }

    /// The objects in the list that is asked for, and their currencies, of which
    /// none is 0.
    pub fn listed(&self, hold: u64) -> Vec<(u64, u64)> {
        let ledger = &self.ledger;
        let held = ledger.holds.get(&hold).map(|held| &ledger.manifests[&held.manifest]);
        let manifest: &Manifest = held.unwrap_or(ledger.current().1);
        let currency = |name: &u64| u64::from(ledger.objects[name].currency);
        let listed = manifest.list.iter().map(|name| (*name, currency(name)));
        listed.filter(|(_, currency)| *currency != 0).collect()
    }

    /// 0 for hold 0, 1 for a live one, 2 for an expired one, 3 for an unknown.
    pub fn count_hold(&self, holds: &mut Answers, hold: u64, time: u64) {
        let sort = match self.ledger.holds.get(&hold) {
            _ if hold == 0 => 0,
            Some(held) if held.live(time) => 1,
            Some(_) => 2,
            None => 3,
        };
        count(holds, sort);
    }
}
