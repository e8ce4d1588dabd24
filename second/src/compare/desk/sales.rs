//! Comparison of two desks' sales, one after another: document 02, request 2,
//! "The desk gets a ledger" to "otherwise the ledger after the look comes
//! back".

use std::cmp::Ordering;

use super::walk::{Lent, Walk, EDGES};
use super::{cut, resized, week, Calls, Left, DONE, SALE, SHORT, SIZES};
use crate::compare::ledgers::{raw_of, Course, LEDGER};
use crate::compare::records::lent as near;
use crate::compare::{add, count, Answers, MARGIN};
use crate::desk::{self, LARGEST_FARE};
use crate::generate::guided::Guide;
use crate::generate::{damaged, sheets};
use crate::random::Random;
use crate::raw;
use crate::records::{Kind, Step, Verdict};

/// Fares at the limits, and some that are small in their last 32 bits.
const FARES: [u64; 8] = [
    0,
    1,
    LARGEST_FARE - 1,
    LARGEST_FARE,
    LARGEST_FARE + 1,
    1 << 32,
    LARGEST_FARE + (1 << 32),
    u64::MAX,
];

/// What two sides were asked, and how often.
#[derive(Debug, Default)]
pub struct Counts {
    pub sales: usize,
    /// 0 done, 3 too short.
    pub answers: Answers,
    /// By the code of the sale, 0 for charged.
    pub codes: Answers,
    /// By the hold: 0 none, 1 live, 2 expired, 3 unknown.
    pub holds: Answers,
    /// By the time: 0 below the clock, 1 at it, 2 above it.
    pub times: Answers,
    /// The currencies and the fares at a limit or at a width.
    pub currencies: Answers,
    pub fares: Answers,
    /// Charges that are above fare times numerator by denominator.
    pub rounded: usize,
    /// Charged sales whose ledger is another than before.
    pub moved: usize,
    /// Sales refused with 30 at a time above the clock.
    pub held_back: usize,
    /// Sales on a changed ledger that is sound nevertheless.
    pub damaged_sound: usize,
}

impl Counts {
    pub fn add(&mut self, other: Counts) {
        self.sales += other.sales;
        self.rounded += other.rounded;
        self.moved += other.moved;
        self.held_back += other.held_back;
        self.damaged_sound += other.damaged_sound;
        let pairs = [
            (&mut self.answers, other.answers),
            (&mut self.codes, other.codes),
            (&mut self.holds, other.holds),
            (&mut self.times, other.times),
            (&mut self.currencies, other.currencies),
            (&mut self.fares, other.fares),
        ];
        for (sum, counts) in pairs {
            add(sum, counts);
        }
    }

    fn add_sale(&mut self, asked: &Asked, lent: &Lent, left: &Left) {
        let [code, charge] = [MARGIN, MARGIN + 1].map(|place| left.answered[place]);
        let clock = lent.ledger[0];
        count(&mut self.codes, code);
        let time = match asked.time.cmp(&clock) {
            Ordering::Less => 0,
            Ordering::Equal => 1,
            Ordering::Greater => 2,
        };
        count(&mut self.times, time);
        if EDGES.contains(&asked.currency) {
            count(&mut self.currencies, asked.currency);
        }
        if FARES.contains(&asked.fare) {
            count(&mut self.fares, asked.fare);
        }
        match (code, desk::read_sheet(&asked.sheet)) {
            (0, Some(sheet)) => {
                let (paid, due) = (charge * sheet.denominator, asked.fare * sheet.numerator);
                self.rounded += usize::from(paid != due);
                self.moved += usize::from(lent.moved(left));
            }
            (30, _) => self.held_back += usize::from(asked.time > clock),
            _ => {}
        }
    }
}

/// What is asked of a sale beside the ledger.
#[derive(Debug)]
struct Asked {
    time: u64,
    sheet: Vec<u8>,
    currency: u64,
    hold: u64,
    fare: u64,
}

impl Asked {
    fn new(random: &mut Random, walk: &Walk, ledger: &[u64]) -> Self {
        let (time, hold) = (walk.time(random), walk.hold(random));
        let currency = walk.currency(random, hold);
        let mut asked = Asked { time, sheet: vec![], currency, hold, fare: fare(random) };
        asked.sheet = asked.sheet(random, walk, ledger);
        asked
    }

    /// Most often the sheet in force, else one of another object or currency,
    /// or a malformed one.
    fn sheet(&self, random: &mut Random, walk: &Walk, ledger: &[u64]) -> Vec<u8> {
        let mut numbers = sheets::well_formed(random);
        if let Verdict::Found(object) = self.look(ledger) {
            numbers[0] = object;
        }
        if (1..=999).contains(&self.currency) {
            numbers[1] = self.currency;
        }
        let mut others = walk.listed(self.hold);
        others.push((numbers[0].wrapping_add(1).max(1), 1 + random.below(999)));
        let (object, currency) = random.pick(&others);
        match random.below(16) {
            0 => numbers[0] = object,
            1 => numbers[1] = currency,
            // Often the sheet in force of another currency.
            2 => (numbers[0], numbers[1]) = (object, currency),
            3 => return malformed(random, &numbers),
            _ => {}
        }
        sheets::bytes(&numbers)
    }

    /// What the look of the sale is answered.
    fn look(&self, ledger: &[u64]) -> Verdict {
        let kind = Kind::Look { currency: cut(self.currency), hold: self.hold };
        raw::step(&raw_of(ledger), &Step { time: self.time, kind, list: vec![] }).0
    }

    /// What both sides leave, with so many numbers lent for the sale; the error
    /// tells a difference.
    fn compare(
        &self,
        ledger: &[u64],
        room: usize,
        pattern: u64,
        first: Calls,
        second: Calls,
    ) -> Result<Left, String> {
        let Asked { time, ref sheet, currency, hold, fare } = *self;
        let sale = vec![pattern; room];
        let call = |side: Calls| {
            Left::new(ledger, &sale, pattern, |ledger, sale| {
                (side.sell)(ledger, time, sheet, currency, hold, fare, sale)
            })
        };
        call(first).agreed(call(second)).map_err(|told| {
            format!("{told}\n{self:?}, {room} numbers for the sale\nledger before {ledger:?}")
        })
    }
}

/// Mostly one that a sale may have.
fn fare(random: &mut Random) -> u64 {
    match random.below(24) {
        0..=2 => random.pick(&FARES),
        3 => random.magnitude(),
        4 | 5 => random.below(400),
        _ => random.below(LARGEST_FARE + 1),
    }
}

/// The sheet damaged, or with any values, or cut.
fn malformed(random: &mut Random, numbers: &sheets::Numbers) -> Vec<u8> {
    let (sheet, loose) = (sheets::bytes(numbers), sheets::bytes(&sheets::loose(random)));
    match random.below(4) {
        0 => loose,
        1 => sheet[..random.index(sheet.len())].to_vec(),
        _ => damaged(random, &sheet, &loose),
    }
}

/// Compares two desks on that many sales, each on the ledger that the one
/// before and some guided steps led to.
pub fn compare_sequence(
    random: &mut Random,
    guide: &mut Guide,
    course: Course,
    length: usize,
    first: Calls,
    second: Calls,
) -> Result<Counts, String> {
    let mut counts = Counts::default();
    let mut walk = Walk::new(random, course);
    for _ in 0..length {
        let lent = walk.next(random, guide);
        let asked = Asked::new(random, &walk, &lent.ledger);
        let (mut size, mut room) = (LEDGER, SALE);
        if random.once_in(25) {
            (size, room) = (near(random, LEDGER), near(random, SALE));
        }
        let pattern = random.any();
        let ledger = resized(&lent.ledger, size, pattern);
        let left = asked.compare(&ledger, room, pattern, first, second)?;
        counts.sales += 1;
        count(&mut counts.answers, left.answer);
        if left.answer == DONE {
            counts.add_sale(&asked, &lent, &left);
            walk.count_hold(&mut counts.holds, asked.hold, asked.time);
            counts.damaged_sound += usize::from(walk.go_on(&lent, &left)?);
        }
    }
    Ok(counts)
}

/// What is asked of the week's ledger: charged, and refused with each number
/// but 1.
fn asked_of_the_week() -> Vec<Asked> {
    let sheet = |object| sheets::bytes(&[object, 978, 11, 10]);
    let asked = |time, sheet, currency, hold, fare| Asked { time, sheet, currency, hold, fare };
    vec![
        asked(23, sheet(5), 978, 0, 250),
        asked(23, sheet(5)[..40].to_vec(), 978, 0, 250),
        asked(23, vec![], 978, 0, 250),
        asked(23, sheet(5), 978, 0, LARGEST_FARE + 1),
        asked(23, sheet(5), 0, 0, 250),
        asked(21, sheet(5), 978, 0, 250),
        asked(23, sheet(5), 978, 7, 250),
        asked(23, sheet(5), 985, 0, 250),
        asked(23, sheet(4), 978, 0, 250),
    ]
}

/// Compares two desks on slices of every length near the least that is asked
/// for, and checks that 3 is the answer exactly where one is too short.
pub fn compare_lent(random: &mut Random, first: Calls, second: Calls) -> Result<Counts, String> {
    let mut counts = Counts::default();
    for ledger in week() {
        for asked in asked_of_the_week() {
            for (size, room) in SIZES.iter().flat_map(|size| (0..=SALE + 2).map(|r| (*size, r))) {
                let pattern = random.any();
                let lent = resized(&ledger, size, pattern);
                let left = asked.compare(&lent, room, pattern, first, second)?;
                let short = size < LEDGER || room < SALE;
                if short != (left.answer == SHORT) {
                    return Err(format!("{} for {size} and {room} numbers", left.answer));
                }
                counts.sales += 1;
                count(&mut counts.answers, left.answer);
                if left.answer == DONE {
                    count(&mut counts.codes, left.answered[MARGIN]);
                }
            }
        }
    }
    Ok(counts)
}
