//! A ledger described place by place, and which of them are sound: document
//! 01, "What the ledger holds", in particular "A ledger is sound when" and
//! "Unused places are all zero", with the four occupancy words of request 4 of
//! document 02.

use crate::ledger::{Hold, Ledger, Manifest, Object};
use crate::limits::{Limits, HOLDS, MANIFESTS, NAMES, PLACES, WORD, WORDS};
use crate::records::{Role, Step, Verdict};

/// A role is 0 for the writer and 1 for the compactor; named is 0 or 1.
#[derive(Debug, Clone, Copy, Default, PartialEq, Eq)]
pub struct RawObject {
    pub number: u64,
    pub role: u64,
    pub epoch: u64,
    pub currency: u64,
    pub named: u64,
}

#[derive(Debug, Clone, PartialEq, Eq)]
pub struct RawManifest {
    pub number: u64,
    pub writer: u64,
    pub compactor: u64,
    pub length: u64,
    pub names: Vec<u64>,
}

#[derive(Debug, Clone, Copy, Default, PartialEq, Eq)]
pub struct RawHold {
    pub number: u64,
    pub manifest: u64,
    pub expiry: u64,
}

/// Any numbers may stand here. Bit i of occupancy word k is place
/// `WORD * k + i`.
#[derive(Debug, Clone, PartialEq, Eq)]
pub struct Raw {
    pub clock: u64,
    pub highest_collected: u64,
    pub occupancy: [u64; WORDS],
    pub objects: Vec<RawObject>,
    pub manifest_count: u64,
    pub manifests: Vec<RawManifest>,
    pub hold_count: u64,
    pub holds: Vec<RawHold>,
}

impl RawManifest {
    pub fn unused() -> Self {
        RawManifest { number: 0, writer: 0, compactor: 0, length: 0, names: vec![0; NAMES] }
    }

    /// The names within the length; `None` where it is above the places.
    pub fn list(&self) -> Option<&[u64]> {
        self.names.get(..usize::try_from(self.length).ok()?)
    }

    fn epoch(&self, role: u64) -> u64 {
        if role == 0 {
            self.writer
        } else {
            self.compactor
        }
    }
}

impl Raw {
    /// With these two numbers, and all places unused.
    pub fn unused(clock: u64, highest_collected: u64) -> Self {
        Raw {
            clock,
            highest_collected,
            occupancy: [0; WORDS],
            objects: vec![RawObject::default(); PLACES],
            manifest_count: 0,
            manifests: vec![RawManifest::unused(); MANIFESTS],
            hold_count: 0,
            holds: vec![RawHold::default(); HOLDS],
        }
    }

    pub fn occupied(&self, place: usize) -> bool {
        self.occupancy[place / WORD] >> (place % WORD) & 1 == 1
    }

    /// The stored objects by rising number.
    fn stored(&self) -> Vec<&RawObject> {
        let places = self.objects.iter().enumerate();
        let stored = places.filter(|(place, _)| self.occupied(*place));
        let mut stored: Vec<&RawObject> = stored.map(|(_, object)| object).collect();
        stored.sort_unstable_by_key(|object| object.number);
        stored
    }

    /// The manifests within the count, which must be one that a ledger has.
    pub fn kept(&self) -> &[RawManifest] {
        &self.manifests[..self.manifest_count as usize]
    }

    /// The holds within the count, which must be one that a ledger has.
    pub fn held(&self) -> &[RawHold] {
        &self.holds[..self.hold_count as usize]
    }
}

pub fn sound(raw: &Raw) -> bool {
    // The later clauses rely on the counts, which the layout bounds.
    if !layout(raw) {
        return false;
    }
    let stored = raw.stored();
    objects_sound(raw, &stored)
        && lists_sound(raw, &stored)
        && epochs_sound(raw)
        && holds_sound(raw)
}

fn layout(raw: &Raw) -> bool {
    let places = raw.objects.len() == PLACES
        && raw.manifests.len() == MANIFESTS
        && raw.manifests.iter().all(|m| m.names.len() == NAMES)
        && raw.holds.len() == HOLDS;
    places
        && (1..=MANIFESTS as u64).contains(&raw.manifest_count)
        && raw.hold_count <= HOLDS as u64
        && object_layout(raw)
        && manifest_layout(raw)
        && hold_layout(raw)
}

fn object_layout(raw: &Raw) -> bool {
    raw.objects.iter().enumerate().all(|(place, object)| {
        if raw.occupied(place) {
            object.number != 0 && object.role <= 1 && object.currency <= 999 && object.named <= 1
        } else {
            *object == RawObject::default()
        }
    })
}

fn manifest_layout(raw: &Raw) -> bool {
    let unused = &raw.manifests[raw.manifest_count as usize..];
    rising(raw.kept().iter().map(|manifest| manifest.number))
        && unused.iter().all(|place| *place == RawManifest::unused())
        && raw.kept().iter().all(|manifest| {
            manifest.list().is_some_and(|list| {
                let beyond = &manifest.names[list.len()..];
                rising(list.iter().copied()) && beyond.iter().all(|name| *name == 0)
            })
        })
}

fn hold_layout(raw: &Raw) -> bool {
    let unused = &raw.holds[raw.hold_count as usize..];
    rising(raw.held().iter().map(|hold| hold.number))
        && raw.held().iter().all(|hold| hold.number != 0)
        && unused.iter().all(|place| *place == RawHold::default())
}

fn rising(numbers: impl Iterator<Item = u64>) -> bool {
    numbers.is_sorted_by(|one, next| one < next)
}

/// "stored objects have distinct numbers .. and an epoch from 1 to their role's
/// current epoch"; of the numbers document 02, request 1, asks "only that they
/// are distinct and not 0"
fn objects_sound(raw: &Raw, stored: &[&RawObject]) -> bool {
    let current = &raw.kept()[raw.kept().len() - 1];
    rising(stored.iter().map(|object| object.number))
        && stored.iter().all(|object| {
            object.number != 0 && (1..=current.epoch(object.role)).contains(&object.epoch)
        })
}

/// "every listed object is stored and marked as named"
fn lists_sound(raw: &Raw, stored: &[&RawObject]) -> bool {
    let named = |name: &u64| {
        let found = stored.binary_search_by_key(name, |object| object.number);
        found.is_ok_and(|place| stored[place].named == 1)
    };
    let mut lists = raw.kept().iter().filter_map(RawManifest::list);
    lists.all(|list| list.iter().all(named))
}

/// "the two epochs of a manifest add to at most its number and neither falls
/// from one kept manifest to the next"
fn epochs_sound(raw: &Raw) -> bool {
    let sum = |m: &RawManifest| u128::from(m.writer) + u128::from(m.compactor);
    let mut pairs = raw.kept().windows(2);
    raw.kept().iter().all(|m| sum(m) <= u128::from(m.number))
        && pairs.all(|m| m[0].writer <= m[1].writer && m[0].compactor <= m[1].compactor)
}

/// "each hold names a kept manifest and has expiry 0 or not below the clock;
/// each manifest but the current one is held"
fn holds_sound(raw: &Raw) -> bool {
    let (_, earlier) = raw.kept().split_last().expect("the layout keeps one");
    let kept = |hold: &RawHold| raw.kept().iter().any(|m| m.number == hold.manifest);
    let held = |m: &RawManifest| raw.held().iter().any(|hold| hold.manifest == m.number);
    let lasting = |hold: &RawHold| hold.expiry == 0 || hold.expiry >= raw.clock;
    raw.held().iter().all(|hold| kept(hold) && lasting(hold)) && earlier.iter().all(held)
}

pub fn raw(ledger: &Ledger) -> Raw {
    let mut raw = Raw::unused(ledger.clock, ledger.highest_collected);
    raw.manifest_count = ledger.manifests.len() as u64;
    raw.hold_count = ledger.holds.len() as u64;
    for (number, object) in &ledger.objects {
        raw.occupancy[object.place / WORD] |= 1 << (object.place % WORD);
        raw.objects[object.place] = RawObject {
            number: *number,
            role: u64::from(object.role == Role::Compactor),
            epoch: object.epoch,
            currency: object.currency.into(),
            named: object.named.into(),
        };
    }
    for (place, (number, manifest)) in raw.manifests.iter_mut().zip(&ledger.manifests) {
        place.number = *number;
        place.writer = manifest.writer;
        place.compactor = manifest.compactor;
        place.length = manifest.list.len() as u64;
        for (entry, name) in place.names.iter_mut().zip(&manifest.list) {
            *entry = *name;
        }
    }
    for (place, (number, hold)) in raw.holds.iter_mut().zip(&ledger.holds) {
        place.number = *number;
        place.manifest = hold.manifest;
        place.expiry = hold.expiry;
    }
    raw
}

/// `None` for a ledger that is not sound.
pub fn from_raw(raw: &Raw) -> Option<Ledger> {
    if !sound(raw) {
        return None;
    }
    let places = raw.objects.iter().enumerate();
    let stored = places.filter(|(place, _)| raw.occupied(*place));
    Some(Ledger {
        limits: Limits::NOW,
        clock: raw.clock,
        highest_collected: raw.highest_collected,
        objects: stored.map(|(place, o)| (o.number, object(place, o))).collect(),
        manifests: raw.kept().iter().map(|m| (m.number, manifest(m))).collect(),
        holds: raw.held().iter().map(|h| (h.number, hold(h))).collect(),
    })
}

fn object(place: usize, raw: &RawObject) -> Object {
    let role = if raw.role == 0 { Role::Writer } else { Role::Compactor };
    Object { place, role, epoch: raw.epoch, currency: raw.currency as u16, named: raw.named == 1 }
}

fn manifest(raw: &RawManifest) -> Manifest {
    Manifest {
        writer: raw.writer,
        compactor: raw.compactor,
        list: raw.list().unwrap_or_default().iter().copied().collect(),
    }
}

fn hold(raw: &RawHold) -> Hold {
    Hold { manifest: raw.manifest, expiry: raw.expiry }
}

/// One step on any ledger, row 1 included: a ledger that is not sound comes
/// back as it is, unused places too.
pub fn step(before: &Raw, step: &Step) -> (Verdict, Raw) {
    match from_raw(before) {
        None => (Verdict::Refused(1), before.clone()),
        Some(mut ledger) => {
            let verdict = ledger.step(step);
            (verdict, raw(&ledger))
        }
    }
}

#[cfg(test)]
mod tests;
