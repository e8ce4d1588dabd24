//! The ledger: document 01, "What the ledger holds", "The ten steps" and
//! "When a step is turned away", as requests 1 and 4 of document 02 change
//! them.
//!
//! The ledger here is always sound, so row 1 of the table is not in this
//! file; `raw` has it, for ledgers described place by place.

use std::collections::{BTreeMap, BTreeSet};

use crate::limits::{Limits, HOLDS};
use crate::records::{Kind, Role, Step, Verdict, LAST_CODE};

#[derive(Debug, Clone, Copy, PartialEq, Eq)]
pub struct Object {
    /// Counted from 0; a put takes the lowest that is free.
    pub place: usize,
    pub role: Role,
    pub epoch: u64,
    pub currency: u16,
    /// Whether a manifest has ever named it.
    pub named: bool,
}

#[derive(Debug, Clone, PartialEq, Eq)]
pub struct Manifest {
    pub writer: u64,
    pub compactor: u64,
    pub list: BTreeSet<u64>,
}

#[derive(Debug, Clone, Copy, PartialEq, Eq)]
pub struct Hold {
    pub manifest: u64,
    pub expiry: u64,
}

/// Objects, manifests and holds stand under their numbers.
#[derive(Debug, Clone, PartialEq, Eq)]
pub struct Ledger {
    /// Those of now, unless a trace is run at the old ones.
    pub limits: Limits,
    pub clock: u64,
    /// The highest object number ever collected, 0 at first.
    pub highest_collected: u64,
    pub objects: BTreeMap<u64, Object>,
    pub manifests: BTreeMap<u64, Manifest>,
    pub holds: BTreeMap<u64, Hold>,
}

impl Manifest {
    pub fn epoch(&self, role: Role) -> u64 {
        match role {
            Role::Writer => self.writer,
            Role::Compactor => self.compactor,
        }
    }
}

impl Hold {
    /// An expiry equal to the time is live.
    pub fn live(&self, time: u64) -> bool {
        self.expiry == 0 || self.expiry >= time
    }
}

impl Ledger {
    pub fn fresh() -> Self {
        Ledger::fresh_within(Limits::NOW)
    }

    /// The fresh ledger at those limits.
    pub fn fresh_within(limits: Limits) -> Self {
        let first = Manifest { writer: 0, compactor: 0, list: BTreeSet::new() };
        Ledger {
            limits,
            clock: 0,
            highest_collected: 0,
            objects: BTreeMap::new(),
            manifests: BTreeMap::from([(0, first)]),
            holds: BTreeMap::new(),
        }
    }

    /// One step. A refusal changes nothing.
    pub fn step(&mut self, step: &Step) -> Verdict {
        if let Some(row) = (2..=LAST_CODE).find(|row| self.applies(*row, step)) {
            return Verdict::Refused(row);
        }
        self.clock = step.time;
        self.holds.retain(|_, hold| hold.live(step.time));
        let verdict = self.act(step);
        let active = self.active(self.clock);
        self.manifests.retain(|number, _| active.contains(number));
        verdict
    }

    /// The number and contents of the current manifest.
    pub fn current(&self) -> (u64, &Manifest) {
        let (number, manifest) = self.manifests.last_key_value().expect("one is always kept");
        (*number, manifest)
    }

    /// The role's current epoch.
    pub fn epoch(&self, role: Role) -> u64 {
        self.current().1.epoch(role)
    }

    /// The numbers of the manifests that are active at that time.
    pub fn active(&self, time: u64) -> BTreeSet<u64> {
        let held = self.holds.values().filter(|hold| hold.live(time));
        let held = held.map(|hold| hold.manifest);
        held.chain([self.current().0]).collect()
    }

    /// Whether a row of the table, 2 to 17, applies to the step.
    fn applies(&self, row: u8, step: &Step) -> bool {
        let time = step.time;
        let stored = |object: &u64| self.objects.contains_key(object);
        let live = |hold: &u64| self.holds.get(hold).is_some_and(|held| held.live(time));
        match (row, step.kind) {
            (2, _) => !step.well_formed_within(self.limits.names),
            (3, _) => time < self.clock,
            (4..=5, kind) => self.epoch_refused(row, kind),
            (6..=7, kind) => self.slot_refused(row, kind),
            (8, Kind::Commit { .. }) => !step.list.iter().all(stored),
            (8, Kind::Compact { object, .. }) => !stored(&object),
            (9, Kind::Put { object, .. }) => stored(&object),
            (10, Kind::Put { object, .. }) => !stored(&object) && object <= self.highest_collected,
            (11, Kind::Put { .. }) => self.objects.len() >= self.limits.places,
            (12, Kind::Hold { hold, .. }) => live(&hold),
            (13, Kind::Hold { manifest, .. }) => !self.active(time).contains(&manifest),
            (14, Kind::Hold { .. }) => {
                self.holds.values().filter(|hold| hold.live(time)).count() >= HOLDS
            }
            (15, Kind::Renew { hold, .. } | Kind::Release { hold })
            | (15, Kind::List { hold } | Kind::Look { hold, .. }) => hold != 0 && !live(&hold),
            (16, Kind::Look { currency, hold }) => self.highest(currency, hold).is_none(),
            (17, Kind::Compact { object, .. }) => self
                .objects
                .get(&object)
                .is_some_and(|object| self.highest(object.currency, 0).is_none()),
            _ => false,
        }
    }

    /// Rows 4 and 5. A put of an older epoch is accepted.
    fn epoch_refused(&self, row: u8, kind: Kind) -> bool {
        let (role, asked) = match kind {
            Kind::Put { role, epoch, .. } => (role, epoch),
            Kind::Commit { epoch, .. } => (Role::Writer, epoch),
            Kind::Compact { epoch, .. } => (Role::Compactor, epoch),
            _ => return false,
        };
        let epoch = self.epoch(role);
        match row {
            4 => asked == 0 || asked > epoch,
            _ => asked < epoch && !matches!(kind, Kind::Put { .. }),
        }
    }

    /// Rows 6 and 7. The difference is tested, for the current number plus
    /// one may not fit 64 bits.
    fn slot_refused(&self, row: u8, kind: Kind) -> bool {
        match kind {
            Kind::Fence { slot, .. } | Kind::Commit { slot, .. } | Kind::Compact { slot, .. } => {
                match slot.checked_sub(self.current().0) {
                    None | Some(0) => row == 6,
                    Some(above) => row == 7 && above > 1,
                }
            }
            _ => false,
        }
    }

    /// The manifest a LIST or LOOK asks for; hold 0 means the current one.
    fn asked(&self, hold: u64) -> Option<(u64, &Manifest)> {
        if hold == 0 {
            return Some(self.current());
        }
        let number = self.holds.get(&hold)?.manifest;
        Some((number, &self.manifests[&number]))
    }

    /// The highest object of that currency in the list that is asked for.
    fn highest(&self, currency: u16, hold: u64) -> Option<u64> {
        let (_, manifest) = self.asked(hold)?;
        let mut falling = manifest.list.iter().rev();
        falling.find(|name| self.objects[name].currency == currency).copied()
    }

    /// What an accepted step does once the clock is set and the expired holds
    /// are gone.
    fn act(&mut self, step: &Step) -> Verdict {
        match step.kind {
            Kind::Fence { role, slot } => return self.fence(role, slot),
            Kind::Put { role, epoch, object, currency } => {
                let place = self.lowest_free_place();
                self.objects.insert(object, Object { place, role, epoch, currency, named: false });
            }
            Kind::Commit { slot, .. } => self.publish(slot, step.list.iter().copied().collect()),
            Kind::Compact { slot, object, .. } => self.compact(slot, object),
            Kind::Hold { hold, manifest, expiry } => {
                self.holds.insert(hold, Hold { manifest, expiry });
            }
            Kind::Renew { hold, expiry } => {
                self.holds.get_mut(&hold).expect("row 15").expiry = expiry;
            }
            Kind::Release { hold } => {
                self.holds.remove(&hold);
            }
            Kind::List { hold } => {
                let (manifest, contents) = self.asked(hold).expect("row 15");
                let list = contents.list.iter().copied().collect();
                return Verdict::Listed { manifest, list };
            }
            Kind::Look { currency, hold } => {
                return Verdict::Found(self.highest(currency, hold).expect("row 16"));
            }
            Kind::Collect => return Verdict::Collected(self.collect()),
        }
        Verdict::Done
    }

    fn fence(&mut self, role: Role, slot: u64) -> Verdict {
        let mut next = self.current().1.clone();
        // Soundness keeps the epochs' sum at or below the current number, and
        // row 6 has excluded 2^64-1, so one more fits.
        match role {
            Role::Writer => next.writer += 1,
            Role::Compactor => next.compactor += 1,
        }
        let epoch = next.epoch(role);
        self.manifests.insert(slot, next);
        Verdict::Epoch(epoch)
    }

    /// A new manifest with that list and the epochs of the current one.
    fn publish(&mut self, slot: u64, list: BTreeSet<u64>) {
        for name in &list {
            self.objects.get_mut(name).expect("row 8").named = true;
        }
        let next = Manifest { list, ..*self.current().1 };
        self.manifests.insert(slot, next);
    }

    fn compact(&mut self, slot: u64, object: u64) {
        let currency = self.objects[&object].currency;
        let mut list = self.current().1.list.clone();
        list.retain(|name| self.objects[name].currency != currency);
        list.insert(object);
        self.publish(slot, list);
    }

    /// Removes the dead objects and lists them, rising.
    fn collect(&mut self) -> Vec<u64> {
        let reached: BTreeSet<u64> = self
            .active(self.clock)
            .iter()
            .flat_map(|number| &self.manifests[number].list)
            .copied()
            .collect();
        let dead = |name: &u64, object: &Object| {
            let pending = object.epoch == self.epoch(object.role) && !object.named;
            !pending && !reached.contains(name)
        };
        let stored = self.objects.iter();
        let dead: Vec<u64> =
            stored.filter(|(name, object)| dead(name, object)).map(|(name, _)| *name).collect();
        // The list rises, as the objects do.
        self.objects.retain(|name, _| dead.binary_search(name).is_err());
        if let Some(highest) = dead.last() {
            self.highest_collected = self.highest_collected.max(*highest);
        }
        dead
    }

    /// Places are numbered across the occupancy words in order.
    fn lowest_free_place(&self) -> usize {
        let mut taken = vec![false; self.limits.places];
        for object in self.objects.values() {
            taken[object.place] = true;
        }
        taken.iter().position(|taken| !taken).expect("row 11")
    }
}

#[cfg(test)]
mod tests;
