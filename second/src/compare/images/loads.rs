//! Sequences of steps among which the ledger is saved, and loaded again, also
//! when it has gone on since: document 02, request 6, the sentence that begins
//! "After a load".

use super::{length, Calls, READ};
use crate::compare::ledgers::{Course, LEDGER};
use crate::compare::sides::{self, asked, code, ledger_of, numbers_of, Answered, Asked};
use crate::compare::{add, count, Answers};
use crate::generate::guided::Guide;
use crate::limits::LONGEST_IMAGE;
use crate::random::Random;

/// One side's steps and images.
#[derive(Clone, Copy)]
pub struct Side {
    pub steps: sides::Calls,
    pub images: Calls,
}

pub const SECOND: Side = Side { steps: sides::SECOND, images: super::SECOND };

/// What was asked, and how often.
#[derive(Debug, Clone, Default)]
pub struct Counts {
    pub steps: usize,
    pub saves: usize,
    /// Loads, and those of them behind which steps were accepted that are
    /// thereby undone.
    pub loads: usize,
    pub older: usize,
    /// Steps behind a load by the row of the table, 0 for accepted.
    pub verdicts: Answers,
    /// Steps that were asked again from the start, without those undone.
    pub replayed: usize,
}

impl Counts {
    pub fn add(&mut self, other: Counts) {
        self.steps += other.steps;
        self.saves += other.saves;
        self.loads += other.loads;
        self.older += other.older;
        self.replayed += other.replayed;
        add(&mut self.verdicts, other.verdicts);
    }
}

/// The steps that were asked, with their verdicts.
type Log = Vec<(Asked, Answered)>;

/// A ledger, and which steps of the log led to it.
#[derive(Clone)]
struct State {
    ledger: Vec<u64>,
    history: Vec<usize>,
}

struct Saved {
    image: Vec<u8>,
    state: State,
}

/// Compares two sides on a sequence of so many steps, saves and loads. At its
/// end the steps that led to the images, and those behind the loads, are asked
/// again from the start: they are answered the same.
pub fn compare_loads(
    random: &mut Random,
    guide: &mut Guide,
    course: Course,
    length: usize,
    first: Side,
    second: Side,
) -> Result<Counts, String> {
    let start = numbers_of(&course.start(random));
    let mut now = State { ledger: start.clone(), history: Vec::new() };
    let (mut counts, mut saved, mut log) = (Counts::default(), Vec::new(), Log::new());
    for _ in 0..length {
        match random.below(20) {
            0 | 1 => {
                let image = save(&now.ledger, first, second)?;
                saved.push(Saved { image, state: now.clone() });
                counts.saves += 1;
            }
            2 if !saved.is_empty() => {
                let older = &saved[random.index(saved.len())];
                counts.older += usize::from(older.state.ledger != now.ledger);
                counts.loads += 1;
                load(random, older, first, second)?;
                now = older.state.clone();
            }
            _ => {
                let row = go_on(guide, &mut now, &mut log, first, second)?;
                counts.steps += 1;
                if counts.loads > 0 {
                    count(&mut counts.verdicts, row);
                }
            }
        }
    }
    counts.replayed = now.history.len();
    for side in [first, second] {
        replay(&start, &now, &log, side)?;
    }
    Ok(counts)
}

/// The image that both sides write.
fn save(ledger: &[u64], first: Side, second: Side) -> Result<Vec<u8>, String> {
    let write = |side: Side| {
        let mut image = vec![0; LONGEST_IMAGE];
        let answer = (side.images.write)(ledger, &mut image);
        image.truncate(length(answer).unwrap_or(0));
        (answer, image)
    };
    let (one, other) = (write(first), write(second));
    if one != other || length(one.0).is_none() {
        return Err(format!("saved: first {one:02X?}, second {other:02X?}\nledger {ledger:?}"));
    }
    Ok(one.1)
}

/// Both sides read the ledger that was saved, whatever stood in its place.
fn load(random: &mut Random, saved: &Saved, first: Side, second: Side) -> Result<(), String> {
    for side in [first, second] {
        let mut ledger = vec![random.any(); LEDGER];
        let answer = (side.images.read)(&saved.image, &mut ledger);
        if (answer, &ledger) != (READ, &saved.state.ledger) {
            let (image, before) = (&saved.image, &saved.state.ledger);
            return Err(format!("loaded: {answer}, {ledger:?} of {image:02X?} for {before:?}"));
        }
    }
    Ok(())
}

/// One step on both sides; its row of the table.
fn go_on(
    guide: &mut Guide,
    now: &mut State,
    log: &mut Log,
    first: Side,
    second: Side,
) -> Result<u64, String> {
    let ledger = ledger_of(&now.ledger).ok_or("the ledger is not sound")?;
    let asked = asked(&guide.next(&ledger));
    let mut next = now.ledger.clone();
    let answered = first.steps.answer(&mut next, &asked)?;
    let mut other = now.ledger.clone();
    if answered != second.steps.answer(&mut other, &asked)? || next != other {
        return Err(format!("{:?} is answered otherwise on {:?}", asked.0, now.ledger));
    }
    now.ledger = next;
    now.history.push(log.len());
    log.push((asked, answered));
    Ok(code(&answered))
}

/// The steps of the history alone, from the start, on that side.
fn replay(start: &[u64], end: &State, log: &Log, side: Side) -> Result<(), String> {
    let mut ledger = start.to_vec();
    for (asked, expected) in end.history.iter().map(|step| &log[*step]) {
        if side.steps.answer(&mut ledger, asked)? != *expected {
            return Err(format!("{:?} is answered otherwise without loads", asked.0));
        }
    }
    match ledger == end.ledger {
        true => Ok(()),
        false => Err(format!("without loads {ledger:?}, with them {:?}", end.ledger)),
    }
}
