//! Sequences of steps guided by the ledger they meet: document 01, "The ten
//! steps" and "When a step is turned away".
//!
//! The store is filled and emptied in phases, and a part of the steps is aimed
//! at one row of the table each. How many objects and names are allowed is told
//! by the ledger.

mod changes;

use super::{expiry, number, role, step_at};
use crate::ledger::{Ledger, Object};
use crate::limits::Limits;
use crate::random::Random;
use crate::records::{Kind, Role, Step, LAST_CODE};
use changes::{
    break_value, change_currency, change_epoch, change_hold, change_object, change_slot,
};

const CURRENCIES: [u16; 7] = [0, 1, 756, 840, 978, 985, 999];

/// What most steps of a stretch of the sequence do.
#[derive(Debug, Clone, Copy, PartialEq, Eq)]
enum Phase {
    /// Puts alone until the store has as many objects as were set as the goal,
    /// then mostly puts.
    Fill,
    /// New manifests and holds on them, until eight hold eight manifests.
    Hold,
    /// Expiries, fences and collections.
    Empty,
    /// No collection until all objects are dead.
    Sweep,
    /// Every kind alike.
    Mix,
}

#[derive(Debug, Clone, Copy, PartialEq, Eq)]
enum Sort {
    Fence,
    Put,
    Commit,
    Compact,
    Hold,
    Renew,
    Release,
    List,
    Look,
    Collect,
}

const ALL: [Sort; 10] = [
    Sort::Fence,
    Sort::Put,
    Sort::Commit,
    Sort::Compact,
    Sort::Hold,
    Sort::Renew,
    Sort::Release,
    Sort::List,
    Sort::Look,
    Sort::Collect,
];

#[derive(Debug, Clone)]
pub struct Guide {
    random: Random,
    phase: Phase,
    left: usize,
    goal: usize,
}

impl Guide {
    pub fn new(seed: u64) -> Self {
        Guide { random: Random::new(seed), phase: Phase::Mix, left: 10, goal: 0 }
    }

    /// A sequence of that length from the fresh ledger at those limits.
    pub fn sequence(&mut self, limits: Limits, length: usize) -> Vec<Step> {
        let mut ledger = Ledger::fresh_within(limits);
        let mut steps = Vec::with_capacity(length);
        for _ in 0..length {
            let step = self.next(&ledger);
            ledger.step(&step);
            steps.push(step);
        }
        steps
    }

    /// The next step for that ledger.
    pub fn next(&mut self, ledger: &Ledger) -> Step {
        if self.left == 0 {
            self.turn(ledger);
        }
        self.left -= 1;
        let filling = self.phase == Phase::Fill && ledger.objects.len() < self.goal;
        if filling && self.random.below(8) != 0 {
            return self.acceptable(filler(ledger), ledger);
        }
        match self.random.below(20) {
            0 => {
                let time = self.time(ledger);
                step_at(&mut self.random, time, ledger.limits.names)
            }
            1..=6 => {
                let row = 2 + self.random.below(u64::from(LAST_CODE) - 1) as u8;
                self.aimed(row, ledger)
            }
            _ => {
                let sort = self.sort(ledger);
                self.acceptable(sort, ledger)
            }
        }
    }

    /// Begins another phase.
    fn turn(&mut self, ledger: &Ledger) {
        let random = &mut self.random;
        let phases =
            [Phase::Fill, Phase::Fill, Phase::Hold, Phase::Empty, Phase::Sweep, Phase::Mix];
        self.phase = random.pick(&phases);
        // Once 2^64-1 is collected nothing can be put.
        if self.phase == Phase::Fill && ledger.highest_collected == u64::MAX {
            self.phase = Phase::Mix;
        }
        self.left = 20 + random.index(100);
        match self.phase {
            Phase::Fill => {
                let places = ledger.limits.places;
                // Often all places, else any number of them.
                self.goal = if random.once_in(2) { places } else { random.index(places + 1) };
                // Some of the puts on the way are refused or are other steps.
                self.left += self.goal.saturating_sub(ledger.objects.len()) * 5 / 4;
            }
            // A few steps make all dead.
            Phase::Sweep => self.left = 20,
            _ => {}
        }
    }

    fn sort(&mut self, ledger: &Ledger) -> Sort {
        use Sort::*;
        let current = ledger.current().0;
        let held = ledger.holds.values().any(|hold| hold.manifest == current);
        let usual: &[Sort] = match self.phase {
            Phase::Fill => &[Put, Put, Put, Put, Commit, Compact, List, Look],
            // A second hold on one manifest would leave fewer than nine.
            Phase::Hold if held => &[Fence, Commit, Commit, Compact, Put, List],
            Phase::Hold => &[Hold, Hold, Hold, Hold, Fence, Commit, Renew, Put],
            Phase::Empty => &[Fence, Release, Collect, Collect, Commit, List],
            Phase::Sweep => &[sweeper(ledger)],
            Phase::Mix => &ALL,
        };
        self.random.pick(usual)
    }

    /// A time not below the clock, often at or just behind an expiry. While
    /// holds are gathered the clock mostly stands still.
    fn time(&mut self, ledger: &Ledger) -> u64 {
        let clock = ledger.clock;
        let expiries = ledger.holds.values().map(|hold| hold.expiry);
        let expiries: Vec<u64> = expiries.filter(|expiry| *expiry != 0).collect();
        let quiet = matches!(self.phase, Phase::Hold | Phase::Fill);
        match self.random.below(if quiet { 60 } else { 12 }) {
            0 if !expiries.is_empty() => self.random.pick(&expiries),
            1 if !expiries.is_empty() => self.random.pick(&expiries).saturating_add(1),
            2 => clock.saturating_add(self.random.below(8)),
            3 if self.random.once_in(400) => u64::MAX - self.random.below(3),
            _ => clock,
        }
        .max(clock)
    }

    /// A step of that sort that is accepted if the ledger allows one.
    fn acceptable(&mut self, sort: Sort, ledger: &Ledger) -> Step {
        let time = self.time(ledger);
        let slot = ledger.current().0.saturating_add(1);
        let (writer, compactor) = (ledger.epoch(Role::Writer), ledger.epoch(Role::Compactor));
        let random = &mut self.random;
        let expiry = expiry(random, time);
        let hold = live_hold(random, ledger, time);
        let kind = match sort {
            Sort::Fence => Kind::Fence { role: fenced(random, ledger), slot },
            Sort::Put => put(random, ledger),
            Sort::Commit => Kind::Commit { epoch: writer, slot },
            Sort::Compact => {
                let object = compactable(random, ledger);
                Kind::Compact { epoch: compactor, slot, object }
            }
            Sort::Hold => new_hold(random, ledger, time),
            Sort::Renew => Kind::Renew { hold: hold.max(1), expiry },
            Sort::Release => Kind::Release { hold: hold.max(1) },
            Sort::List => Kind::List { hold: random.pick(&[0, hold]) },
            Sort::Look => look(random, ledger, hold),
            Sort::Collect => Kind::Collect,
        };
        let emptied = match self.phase {
            Phase::Empty => random.once_in(2),
            phase => phase == Phase::Sweep,
        };
        let list = match sort {
            Sort::Commit if !emptied => stored_list(random, ledger),
            _ => Vec::new(),
        };
        Step { time, kind, list }
    }

    /// A step to which that row applies if the ledger allows one: one that
    /// might be accepted, changed in what the row looks at.
    fn aimed(&mut self, row: u8, ledger: &Ledger) -> Step {
        use Sort::*;
        let sorts: &[Sort] = match row {
            2 => &[Put, Commit, Compact, Hold, Renew, Release, Look],
            4 => &[Put, Commit, Compact],
            5 => &[Commit, Compact],
            6 | 7 => &[Fence, Commit, Compact],
            8 => &[Commit, Compact],
            9..=11 => &[Put],
            12..=14 => &[Hold],
            15 => &[Renew, Release, List, Look],
            16 => &[Look],
            17 => &[Compact],
            _ => &ALL,
        };
        let sort = self.random.pick(sorts);
        let mut step = self.acceptable(sort, ledger);
        let random = &mut self.random;
        match row {
            2 => break_value(random, &mut step, ledger),
            3 => step.time = ledger.clock.saturating_sub(1 + random.below(3)),
            4 | 5 => change_epoch(random, row, &mut step.kind, ledger),
            6 | 7 => change_slot(random, row, &mut step.kind, ledger),
            8..=11 | 17 => change_object(random, row, &mut step, ledger),
            12..=15 => change_hold(random, row, &mut step, ledger),
            16 => change_currency(random, &mut step.kind),
            _ => {}
        }
        step
    }
}

/// 0 where no hold is live at that time.
fn live_hold(random: &mut Random, ledger: &Ledger, time: u64) -> u64 {
    let holds = ledger.holds.iter().filter(|(_, hold)| hold.live(time));
    let live: Vec<u64> = holds.map(|(number, _)| *number).collect();
    match live.len() {
        0 => 0,
        _ => random.pick(&live),
    }
}

/// The highest number that is stored or was collected.
fn highest(ledger: &Ledger) -> u64 {
    let stored = ledger.objects.last_key_value().map_or(0, |(number, _)| *number);
    stored.max(ledger.highest_collected)
}

/// A number that may be put, above all that are stored or, as when parallel
/// writers land out of order, only above those that were collected.
fn new_number(random: &mut Random, ledger: &Ledger) -> u64 {
    let below = random.pick(&[highest(ledger), ledger.highest_collected]);
    // Once 2^64-1 is collected nothing can be put, so it is rare.
    let gap = match random.below(8000) {
        0 => u64::MAX,
        1..=80 if below < 1 << 63 => random.below(1 << 40),
        _ => 1 + random.below(3),
    };
    let first = below.saturating_add(gap.max(1));
    (first..=u64::MAX).find(|number| !ledger.objects.contains_key(number)).unwrap_or(first)
}

/// What fills the store: puts, once a role has an epoch.
fn filler(ledger: &Ledger) -> Sort {
    match ledger.current().0 {
        0 => Sort::Fence,
        _ => Sort::Put,
    }
}

/// What makes all objects dead, and then collects them.
fn sweeper(ledger: &Ledger) -> Sort {
    let pending = ledger.objects.values().any(|object| pending(ledger, object));
    if !ledger.holds.is_empty() {
        Sort::Release
    } else if !ledger.current().1.list.is_empty() {
        Sort::Commit
    } else if pending {
        Sort::Fence
    } else {
        Sort::Collect
    }
}

fn pending(ledger: &Ledger, object: &Object) -> bool {
    object.epoch == ledger.epoch(object.role) && !object.named
}

/// Mostly a role that has pending objects, so that they become dead.
fn fenced(random: &mut Random, ledger: &Ledger) -> Role {
    let of_pending = ledger.objects.values().find(|object| pending(ledger, object));
    match of_pending {
        Some(object) if random.once_in(2) => object.role,
        _ => role(random),
    }
}

/// A role that has an epoch, if one has.
fn with_epoch(random: &mut Random, ledger: &Ledger) -> Role {
    let roles = [Role::Writer, Role::Compactor];
    let with: Vec<Role> = roles.into_iter().filter(|role| ledger.epoch(*role) > 0).collect();
    random.pick(if with.is_empty() { &roles } else { &with })
}

/// A new number, most often of the role's current epoch.
fn put(random: &mut Random, ledger: &Ledger) -> Kind {
    let role = with_epoch(random, ledger);
    let current = ledger.epoch(role).max(1);
    let epoch = match random.below(4) {
        0 => 1 + random.below(current),
        _ => current,
    };
    let object = new_number(random, ledger);
    let currency = random.pick(&CURRENCIES);
    Kind::Put { role, epoch, object, currency }
}

/// As many of the stored objects as a manifest may name, a few, or any number
/// between.
fn stored_list(random: &mut Random, ledger: &Ledger) -> Vec<u64> {
    let names = ledger.limits.names;
    let wanted = match random.below(4) {
        0 => names,
        1 => random.index(names + 1),
        _ => random.index(6),
    };
    some_stored(random, ledger, wanted)
}

/// So many of the stored objects, or all.
pub fn some_stored(random: &mut Random, ledger: &Ledger, wanted: usize) -> Vec<u64> {
    let mut stored: Vec<u64> = ledger.objects.keys().copied().collect();
    let wanted = wanted.min(stored.len());
    // The chosen ones are moved to the front.
    for place in 0..wanted {
        let other = place + random.index(stored.len() - place);
        stored.swap(place, other);
    }
    stored.truncate(wanted);
    stored.sort();
    stored
}

/// A stored object of a currency in the current list, else any number.
fn compactable(random: &mut Random, ledger: &Ledger) -> u64 {
    let listed = &ledger.current().1.list;
    let currencies: Vec<u16> = listed.iter().map(|n| ledger.objects[n].currency).collect();
    let stored = ledger.objects.iter();
    let fitting = stored.filter(|(_, object)| currencies.contains(&object.currency));
    let fitting: Vec<u64> = fitting.map(|(number, _)| *number).collect();
    match fitting.len() {
        0 => number(random).max(1),
        _ => random.pick(&fitting),
    }
}

/// A hold of a free number on an active manifest, most often the current one,
/// and then of a long expiry, so that holds gather.
fn new_hold(random: &mut Random, ledger: &Ledger, time: u64) -> Kind {
    let taken = |hold: &u64| ledger.holds.get(hold).is_some_and(|held| held.live(time));
    let mut hold = 1 + random.below(20);
    while taken(&hold) {
        hold += 1;
    }
    let active: Vec<u64> = ledger.active(time).into_iter().collect();
    let manifest = match random.below(5) {
        0 => random.pick(&active),
        _ => ledger.current().0,
    };
    let expiry = match random.below(3) {
        0 => expiry(random, time),
        _ => time.saturating_add(random.below(200)),
    };
    Kind::Hold { hold, manifest, expiry }
}

/// A currency of the list that is asked for, if there is one.
fn look(random: &mut Random, ledger: &Ledger, hold: u64) -> Kind {
    let hold = random.pick(&[0, hold]);
    let manifest = match ledger.holds.get(&hold) {
        Some(held) => &ledger.manifests[&held.manifest],
        None => ledger.current().1,
    };
    let currencies = manifest.list.iter().map(|name| ledger.objects[name].currency);
    let mut fitting: Vec<u16> = currencies.filter(|currency| *currency != 0).collect();
    if fitting.is_empty() {
        fitting.push(1);
    }
    let currency = random.pick(&fitting);
    Kind::Look { currency, hold }
}

#[cfg(test)]
mod tests;
