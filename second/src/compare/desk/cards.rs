//! Comparison of two desks' route cards: document 02, request 2, from "A route
//! card is a lent row of entries".

use super::walk::{Lent, Walk};
use super::{resized, week, Calls, Left, DONE, ENTRIES, ENTRY, SHORT, SIZES};
use crate::compare::ledgers::{Course, LEDGER};
use crate::compare::records::lent as near;
use crate::compare::{add, count, Answers, MARGIN};
use crate::generate::guided::Guide;
use crate::generate::number;
use crate::random::Random;

/// What two sides were asked, and how often.
#[derive(Debug, Default)]
pub struct Counts {
    pub cards: usize,
    /// 0 done, 2 a count above the card's entries, 3 too few numbers or too
    /// many entries.
    pub answers: Answers,
    /// Entries that were filled in, by their code.
    pub codes: Answers,
    /// Cards by how many entries they have, and those that were filled in by
    /// their count.
    pub entries: Answers,
    pub counts: Answers,
    /// By the hold: 0 none, 1 live, 2 expired, 3 unknown.
    pub holds: Answers,
    /// Cards with an accepted look behind a refused one.
    pub resumed: usize,
    /// Cards whose last look was refused although the ledger is another.
    pub handed_on: usize,
    /// Cards on a changed ledger that is sound nevertheless.
    pub damaged_sound: usize,
}

impl Counts {
    pub fn add(&mut self, other: Counts) {
        self.cards += other.cards;
        self.resumed += other.resumed;
        self.handed_on += other.handed_on;
        self.damaged_sound += other.damaged_sound;
        let pairs = [
            (&mut self.answers, other.answers),
            (&mut self.codes, other.codes),
            (&mut self.entries, other.entries),
            (&mut self.counts, other.counts),
            (&mut self.holds, other.holds),
        ];
        for (sum, counts) in pairs {
            add(sum, counts);
        }
    }

    fn add_card(&mut self, asked: &Asked, lent: &Lent, left: &Left) {
        count(&mut self.counts, asked.count);
        let entries = left.answered[MARGIN..].chunks(ENTRY).take(asked.count as usize);
        let codes: Vec<u64> = entries.map(|entry| entry[1]).collect();
        for code in &codes {
            count(&mut self.codes, *code);
        }
        self.resumed += usize::from(codes.windows(2).any(|pair| pair[0] != 0 && pair[1] == 0));
        self.handed_on += usize::from(codes.last().is_some_and(|c| *c != 0) && lent.moved(left));
    }
}

/// What is asked of a desk beside the ledger; the card's numbers as they stand
/// before.
#[derive(Debug)]
struct Asked {
    time: u64,
    hold: u64,
    count: u64,
    card: Vec<u64>,
}

impl Asked {
    fn new(random: &mut Random, walk: &Walk) -> Self {
        let (time, hold) = (walk.time(random), walk.hold(random));
        let entries = entries(random);
        // Numbers behind the last whole entry, too.
        let mut card = vec![0; entries * ENTRY + random.index(ENTRY)];
        card.fill_with(|| number(random));
        for entry in card.chunks_exact_mut(ENTRY) {
            entry[0] = walk.currency(random, hold);
        }
        Asked { time, hold, count: counted(random, entries as u64), card }
    }

    /// What both sides leave; the error tells a difference.
    fn compare(
        &self,
        ledger: &[u64],
        pattern: u64,
        first: Calls,
        second: Calls,
    ) -> Result<Left, String> {
        let Asked { time, hold, count, ref card } = *self;
        let call = |side: Calls| {
            Left::new(ledger, card, pattern, |ledger, card| {
                (side.fill)(ledger, time, hold, count, card)
            })
        };
        let tell = |told| format!("{told}\n{self:?}\nledger before {ledger:?}");
        call(first).agreed(call(second)).map_err(tell)
    }
}

/// How many entries a card has: a few most often, at times more than it may.
fn entries(random: &mut Random) -> usize {
    match random.below(10) {
        0 => random.pick(&[0, 1, ENTRIES - 1, ENTRIES, ENTRIES + 1, ENTRIES + 2]),
        1 => random.index(ENTRIES + 1),
        _ => random.index(9),
    }
}

/// The count asked for: all of the entries most often, else fewer, one or two
/// more, or so many that three times it or its last bits are small.
fn counted(random: &mut Random, entries: u64) -> u64 {
    match random.below(20) {
        0 => entries + 1,
        1 => entries + 2,
        2 => random.pick(&[u64::MAX, u64::MAX - 1, u64::MAX / 3 + 1, 1 << 63, 1 << 61]),
        3 => entries + random.pick(&[1 << 8, 1 << 16, 1 << 32, 1 << 48]),
        4..=9 => random.below(entries + 1),
        _ => entries,
    }
}

/// Compares two desks on that many cards, each on the ledger that the one
/// before and some guided steps led to.
pub fn compare_sequence(
    random: &mut Random,
    guide: &mut Guide,
    course: Course,
    length: usize,
    first: Calls,
    second: Calls,
) -> Result<Counts, String> {
    let mut counts = Counts::default();
    let mut walk = Walk::new(random, course);
    for _ in 0..length {
        let lent = walk.next(random, guide);
        let asked = Asked::new(random, &walk);
        let size = if random.once_in(40) { near(random, LEDGER) } else { LEDGER };
        let pattern = random.any();
        let ledger = resized(&lent.ledger, size, pattern);
        let left = asked.compare(&ledger, pattern, first, second)?;
        counts.cards += 1;
        count(&mut counts.answers, left.answer);
        count(&mut counts.entries, (asked.card.len() / ENTRY) as u64);
        if left.answer == DONE {
            counts.add_card(&asked, &lent, &left);
            walk.count_hold(&mut counts.holds, asked.hold, asked.time);
            counts.damaged_sound += usize::from(walk.go_on(&lent, &left)?);
        }
    }
    Ok(counts)
}

/// Compares two desks on cards of every length up to a few entries and near the
/// most, with every count around, and on ledgers near the least length; and checks
/// that 3 is the answer exactly where a slice is too short or too long.
pub fn compare_lent(random: &mut Random, first: Calls, second: Calls) -> Result<Counts, String> {
    let mut counts = Counts::default();
    let lengths = (0..=4 * ENTRY).chain((ENTRIES - 1) * ENTRY..=(ENTRIES + 2) * ENTRY);
    for (length, ledger) in lengths.flat_map(|length| week().map(|ledger| (length, ledger))) {
        let entries = length / ENTRY;
        let around = entries.saturating_sub(2)..=entries + 2;
        for count_asked in around.map(|count| count as u64).chain([0, u64::MAX]) {
            let mut card = vec![978; length];
            card.iter_mut().step_by(2 * ENTRY).for_each(|currency| *currency = 985);
            let asked = Asked { time: 23, hold: 0, count: count_asked, card };
            for size in SIZES {
                let pattern = random.any();
                let lent = resized(&ledger, size, pattern);
                let left = asked.compare(&lent, pattern, first, second)?;
                if (size < LEDGER || entries > ENTRIES) != (left.answer == SHORT) {
                    return Err(format!("{} for {size} and {length} numbers", left.answer));
                }
                counts.cards += 1;
                count(&mut counts.answers, left.answer);
            }
        }
    }
    Ok(counts)
}
