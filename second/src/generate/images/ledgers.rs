//! The numbers of ledgers that are sound, or are damaged in one respect.

use super::Source;
use crate::compare::ledgers::{damage, ledger_numbers};
use crate::limits::{HOLDS, MANIFESTS, NAMES, PLACES, WORD, WORDS};
use crate::random::Random;
use crate::raw::{Raw, RawObject};

/// How a ledger's numbers were made of a sound one's.
#[derive(Debug, Clone, Copy, PartialEq, Eq, PartialOrd, Ord)]
pub enum Damage {
    None,
    /// One number is changed, or two numbers or places are swapped; the ledger
    /// may still be sound.
    Any,
    /// A role, a currency or a mark that no object can have.
    Wide,
    /// A number in a place that is not used.
    Unused,
    /// A bit of an occupancy word.
    Bit,
    /// How many manifests, holds or names there are.
    Count,
}

pub const DAMAGES: [Damage; 6] =
    [Damage::None, Damage::Any, Damage::Wide, Damage::Unused, Damage::Bit, Damage::Count];

impl Source {
    /// A ledger's numbers, and how they are damaged.
    pub fn numbers(&mut self, random: &mut Random) -> (Damage, Vec<u64>) {
        let wanted = if random.once_in(4) { Damage::None } else { random.pick(&DAMAGES) };
        loop {
            let mut ledger = self.ledger(random);
            if change(random, wanted, &mut ledger).is_none() {
                continue;
            }
            let mut numbers = ledger_numbers(&ledger);
            if wanted == Damage::Any {
                damage(random, &mut numbers);
            }
            return (wanted, numbers);
        }
    }
}

/// `None` where the ledger has too little to be damaged so.
fn change(random: &mut Random, wanted: Damage, ledger: &mut Raw) -> Option<()> {
    match wanted {
        Damage::None | Damage::Any => {}
        Damage::Wide => widen(random, ledger)?,
        Damage::Unused => mark_unused(random, ledger)?,
        Damage::Bit => ledger.occupancy[random.index(WORDS)] ^= 1 << random.index(WORD),
        Damage::Count => miscount(random, ledger),
    }
    Some(())
}

/// Also numbers that would be right if they were cut to their width.
fn widen(random: &mut Random, ledger: &mut Raw) -> Option<()> {
    let taken: Vec<usize> = (0..PLACES).filter(|place| ledger.occupied(*place)).collect();
    if taken.is_empty() {
        return None;
    }
    let RawObject { role, currency, named, .. } = &mut ledger.objects[random.pick(&taken)];
    let more = random.pick(&[1 << 8, 1 << 16, 1 << 32, 1 << 63]);
    match random.below(6) {
        0 => *role = random.pick(&[2, 7, 255, u64::MAX]),
        1 => *role += more,
        2 => *named = random.pick(&[2, 255, u64::MAX]),
        3 => *named += more,
        4 => *currency = 1000 + random.below(70_000),
        // The least is more than every currency.
        _ => *currency += more.max(1 << 16),
    }
    Some(())
}

/// A number other than 0 in a free place of an object, behind a list's end, or
/// in a place behind the last manifest or hold.
fn mark_unused(random: &mut Random, ledger: &mut Raw) -> Option<()> {
    let number = random.magnitude().max(1);
    let (kept, held) = (ledger.kept().len(), ledger.held().len());
    let place = random.index(PLACES);
    match random.below(5) {
        0 if !ledger.occupied(place) => {
            let RawObject { number: object, role, epoch, currency, named } =
                &mut ledger.objects[place];
            let parts = [object, role, epoch, currency, named];
            *parts.into_iter().nth(random.index(5))? = random.pick(&[1, number]);
        }
        1 => {
            let manifest = &mut ledger.manifests[random.index(kept)];
            let used = manifest.length as usize;
            let beyond = NAMES.checked_sub(used + 1)?;
            manifest.names[used + random.index(beyond + 1)] = number;
        }
        2 if kept < MANIFESTS => {
            let manifest = &mut ledger.manifests[kept + random.index(MANIFESTS - kept)];
            match random.below(3) {
                0 => manifest.number = number,
                1 => manifest.length = 1 + random.below(NAMES as u64),
                _ => manifest.names[random.index(NAMES)] = number,
            }
        }
        3 if held < HOLDS => {
            let hold = &mut ledger.holds[held + random.index(HOLDS - held)];
            match random.below(3) {
                0 => hold.number = number,
                1 => hold.manifest = number,
                _ => hold.expiry = number,
            }
        }
        _ => return None,
    }
    Some(())
}

/// One more or one fewer, one more than there may be, or far more.
fn miscount(random: &mut Random, ledger: &mut Raw) {
    let kept = ledger.kept().len();
    let (count, most) = match random.below(3) {
        0 => (&mut ledger.manifest_count, MANIFESTS),
        1 => (&mut ledger.hold_count, HOLDS),
        _ => (&mut ledger.manifests[random.index(kept)].length, NAMES),
    };
    *count = match random.below(4) {
        0 => *count + 1,
        1 => count.wrapping_sub(1),
        2 => most as u64 + 1,
        _ => *count + (1 << random.pick(&[8, 16, 32, 63])),
    };
}
