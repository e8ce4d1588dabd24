//! What an accepted COMPACT leaves as it was: document 02, request 13, "compare
//! looks just before and just after an accepted COMPACT, both at its time".
//!
//! The looks are asked as single steps on the ledger before and on the one
//! after, and as records before and behind the COMPACT's own in one trace.

use std::collections::{BTreeMap, BTreeSet};

use crate::compare::ledgers::Course;
use crate::compare::sides::{asked, code, ledger_of, numbers_of, split, Answered, Calls, WHOLE};
use crate::compare::{add, count, Answers, MARGIN};
use crate::generate::compactions;
use crate::generate::guided::Guide;
use crate::ledger::{Hold, Ledger};
use crate::random::Random;
use crate::records::{field, read_verdict, write_step, Kind, Step, Verdict, LAST_CODE};

/// The most guided steps before a compaction that is aimed at, how many more
/// where none can be accepted, and the most holds.
const STEPS: u64 = 6;
const MORE: usize = 50;
const HOLDS: u64 = 3;
/// Currencies asked for beside those of the stored objects: none that a look
/// may ask for, one that no object has, the largest, and one too large.
const ASKED: [u16; 4] = [0, 500, 999, 1_000];
/// The bytes of the verdict of an accepted look; a refusal has fewer.
const FOUND: usize = 3 + 4 + 11;

/// What was asked, and how often.
#[derive(Debug, Default, PartialEq, Eq)]
pub struct Counts {
    pub steps: usize,
    /// Accepted COMPACTs.
    pub compactions: usize,
    /// Pairs of looks, before and after, and what the first was answered: 0
    /// found, else the refusal's number.
    pub looks: usize,
    pub answers: Answers,
    /// Looks through a live hold on the manifest that was current.
    pub held_current: usize,
    /// Looks through a live hold that found an object of the compacted currency
    /// which the current manifest no longer has.
    pub held_back: usize,
    /// Compactions by how many objects went out, by how many currencies the
    /// current manifest has, and by how many holds are live.
    pub taken_out: Answers,
    pub currencies: Answers,
    pub live: Answers,
    /// Compactions of currency 0, and of an object that the current manifest
    /// had.
    pub sales: usize,
    pub listed: usize,
    /// Compactions with an expired hold, and with one that expires at their
    /// time and so is live.
    pub expired: usize,
    pub at_expiry: usize,
}

impl Counts {
    pub fn add(&mut self, other: Counts) {
        self.steps += other.steps;
        self.compactions += other.compactions;
        self.looks += other.looks;
        self.held_current += other.held_current;
        self.held_back += other.held_back;
        self.sales += other.sales;
        self.listed += other.listed;
        self.expired += other.expired;
        self.at_expiry += other.at_expiry;
        let pairs = [
            (&mut self.answers, other.answers),
            (&mut self.taken_out, other.taken_out),
            (&mut self.currencies, other.currencies),
            (&mut self.live, other.live),
        ];
        for (sum, counts) in pairs {
            add(sum, counts);
        }
    }

    fn add_compaction(&mut self, compaction: &Compaction) {
        let Compaction { step, object, currency, old, .. } = compaction;
        let lists = by_currency(old);
        let gone = lists[currency].iter().filter(|name| *name != object).count();
        let live = old.holds.values().filter(|hold| hold.live(step.time)).count();
        self.compactions += 1;
        count(&mut self.taken_out, gone as u64);
        count(&mut self.currencies, lists.len() as u64);
        count(&mut self.live, live as u64);
        self.sales += usize::from(*currency == 0);
        self.listed += usize::from(old.current().1.list.contains(object));
        self.expired += usize::from(live < old.holds.len());
        let last = |hold: &Hold| hold.expiry != 0 && hold.expiry == step.time;
        self.at_expiry += usize::from(old.holds.values().any(last));
    }

    /// A look that was answered so before the compaction.
    fn add_look(&mut self, compaction: &Compaction, look: Look, before: &Verdict) {
        let Compaction { step, currency, old, next, .. } = compaction;
        self.looks += 1;
        count(&mut self.answers, before.code().into());
        let Some(hold) = old.holds.get(&look.hold).filter(|hold| hold.live(step.time)) else {
            return;
        };
        self.held_current += usize::from(hold.manifest == old.current().0);
        if let (true, Verdict::Found(object)) = (look.currency == *currency, before) {
            self.held_back += usize::from(!next.current().1.list.contains(object));
        }
    }
}

/// The objects of the current manifest's list by their currency.
fn by_currency(ledger: &Ledger) -> BTreeMap<u16, Vec<u64>> {
    let mut lists: BTreeMap<u16, Vec<u64>> = BTreeMap::new();
    for name in &ledger.current().1.list {
        lists.entry(ledger.objects[name].currency).or_default().push(*name);
    }
    lists
}

#[derive(Debug, Clone, Copy)]
struct Look {
    currency: u16,
    hold: u64,
}

impl Look {
    fn step(self, time: u64) -> Step {
        let Look { currency, hold } = self;
        Step { time, kind: Kind::Look { currency, hold }, list: vec![] }
    }

    /// The record, also of a currency that no reader takes.
    fn record(self, time: u64) -> Vec<u8> {
        let fields = [
            field(0x01, &time.to_be_bytes()),
            field(0x06, &self.currency.to_be_bytes()),
            field(0x08, &self.hold.to_be_bytes()),
        ];
        field(0x18, &fields.concat())
    }
}

/// The error is a verdict that no look has.
fn look_verdict(answered: &Answered) -> Result<Verdict, String> {
    let code = |code: u64| u8::try_from(code).ok().filter(|code| (1..=LAST_CODE).contains(code));
    match answered.0 {
        [0, number, 0] => code(number).map(Verdict::Refused),
        [4, object, 0] => Some(Verdict::Found(object)),
        _ => None,
    }
    .ok_or_else(|| format!("a look is answered {:?}", answered.0))
}

/// An accepted COMPACT, with the ledger just before it and the one just after,
/// each also as the side's numbers.
struct Compaction<'a> {
    step: &'a Step,
    object: u64,
    currency: u16,
    before: &'a [u64],
    after: &'a [u64],
    old: &'a Ledger,
    next: &'a Ledger,
}

impl Compaction<'_> {
    /// "The current manifest has the same currencies", and of all but the
    /// compacted one the same objects.
    fn check_lists(&self) -> Result<(), String> {
        let (mut old, mut next) = (by_currency(self.old), by_currency(self.next));
        if !old.keys().eq(next.keys()) {
            return Err(format!("the currencies {:?} became {:?}", old.keys(), next.keys()));
        }
        let left = next.remove(&self.currency);
        if left != Some(vec![self.object]) {
            return Err(format!("of the compacted currency are left {left:?}"));
        }
        old.remove(&self.currency);
        if old != next {
            return Err(format!("the other currencies' objects {old:?} became {next:?}"));
        }
        Ok(())
    }

    /// Every currency that an object has, and some others, through every hold,
    /// live or not, through one that is none, and of the current manifest.
    fn looks(&self) -> Vec<Look> {
        let stored = self.old.objects.values().map(|object| object.currency);
        let currencies: BTreeSet<u16> = stored.chain(ASKED).collect();
        let none = (1..).find(|hold| !self.old.holds.contains_key(hold));
        let holds = self.old.holds.keys().copied().chain([0]).chain(none);
        let through = |hold| currencies.iter().map(move |currency| (*currency, hold));
        holds.flat_map(through).map(|(currency, hold)| Look { currency, hold }).collect()
    }

    /// "all but the compacted one give the same object; looks through live
    /// holds are the same". The compacted one gives the object that came in.
    fn check_pair(&self, look: Look, before: &Verdict, after: &Verdict) -> Result<(), String> {
        let compacted = look.hold == 0 && look.currency == self.currency && look.currency != 0;
        let right = match (compacted, before) {
            (false, _) => before == after,
            (true, Verdict::Found(_)) => *after == Verdict::Found(self.object),
            (true, _) => false,
        };
        match right {
            true => Ok(()),
            false => Err(format!("{look:?} gave {before:?} before and {after:?} after")),
        }
    }

    fn check_steps(&self, side: Calls, counts: &mut Counts) -> Result<(), String> {
        for look in self.looks() {
            let answer = |ledger: &[u64]| {
                let asked = asked(&look.step(self.step.time));
                look_verdict(&side.answer(&mut ledger.to_vec(), &asked)?)
            };
            let (before, after) = (answer(self.before)?, answer(self.after)?);
            self.check_pair(look, &before, &after)?;
            counts.add_look(self, look, &before);
        }
        Ok(())
    }

    /// The same in one trace, which ends with the ledger after the compaction:
    /// a look at its time changes no more than the compaction does.
    fn check_run(&self, side: Calls) -> Result<(), String> {
        let looks = self.looks();
        let asked = looks.iter().flat_map(|look| look.record(self.step.time));
        let asked: Vec<u8> = asked.collect();
        let compact = write_step(self.step).ok_or("a malformed COMPACT is accepted")?;
        let trace = [&asked[..], &compact, &asked].concat();
        let room = (2 * looks.len() + 1) * FOUND;
        let left = side.run(self.before, &trace, room, 0);
        let written = left.counts[1] as usize;
        let out = left.out[MARGIN..].get(..written).ok_or("more is written than has room")?;
        let verdicts = split(out).into_iter().map(read_verdict);
        let verdicts: Vec<Verdict> = verdicts.collect::<Option<_>>().ok_or("no verdict")?;
        let middle = verdicts.get(looks.len());
        if left.answer != WHOLE || verdicts.len() != 2 * looks.len() + 1 {
            return Err(format!("a run ends with {} and {middle:?}", left.answer));
        }
        if middle != Some(&Verdict::Done) {
            return Err(format!("behind looks the COMPACT is answered {middle:?}"));
        }
        for (place, look) in looks.iter().enumerate() {
            self.check_pair(*look, &verdicts[place], &verdicts[looks.len() + 1 + place])?;
        }
        match left.ledger == self.after {
            true => Ok(()),
            false => Err("a run with looks leaves another ledger".to_string()),
        }
    }

    fn check(&self, side: Calls, counts: &mut Counts) -> Result<(), String> {
        let tell = |told| format!("{told}\nat {:?}\nledger before {:?}", self.step, self.before);
        self.check_lists().map_err(tell)?;
        self.check_steps(side, counts).map_err(tell)?;
        self.check_run(side).map_err(tell)?;
        counts.add_compaction(self);
        Ok(())
    }
}

/// The ledger that the side's steps lead to.
struct Walk {
    side: Calls,
    numbers: Vec<u64>,
    ledger: Ledger,
    counts: Counts,
}

impl Walk {
    /// One step, and the looks around it where it is an accepted COMPACT.
    fn step(&mut self, step: &Step) -> Result<(), String> {
        let before = self.numbers.clone();
        let answered = self.side.answer(&mut self.numbers, &asked(step))?;
        self.counts.steps += 1;
        if code(&answered) != 0 {
            return Ok(());
        }
        let next = ledger_of(&self.numbers).ok_or("the next ledger is not sound")?;
        let old = std::mem::replace(&mut self.ledger, next);
        let Kind::Compact { object, .. } = step.kind else {
            return Ok(());
        };
        let stored = old.objects.get(&object).ok_or("an object that isn't stored came in")?;
        let compaction = Compaction {
            step,
            object,
            currency: stored.currency,
            before: &before,
            after: &self.numbers,
            old: &old,
            next: &self.ledger,
        };
        compaction.check(self.side, &mut self.counts)
    }
}

/// Checks a side at every compaction that it accepts, of guided steps and of
/// that many aimed at.
pub fn check_sequence(
    random: &mut Random,
    guide: &mut Guide,
    course: Course,
    length: usize,
    side: Calls,
) -> Result<Counts, String> {
    let ledger = course.start(random);
    let numbers = numbers_of(&ledger);
    let mut walk = Walk { side, numbers, ledger, counts: Counts::default() };
    for _ in 0..length {
        for _ in 0..random.below(STEPS + 1) {
            walk.step(&guide.next(&walk.ledger))?;
        }
        if random.once_in(2) {
            walk.step(&compactions::commit(random, &walk.ledger))?;
        }
        for _ in 0..random.below(HOLDS + 1) {
            walk.step(&compactions::hold(random, &walk.ledger))?;
        }
        let mut more = MORE;
        while more > 0 && !compactions::possible(&walk.ledger) {
            walk.step(&guide.next(&walk.ledger))?;
            more -= 1;
        }
        if compactions::possible(&walk.ledger) {
            walk.step(&compactions::compact(random, &walk.ledger))?;
        }
    }
    Ok(walk.counts)
}

#[cfg(test)]
mod tests;
