//! Changes that make a row of the table apply to a step: document 01, "When a
//! step is turned away".

use super::{highest, some_stored, CURRENCIES};
use crate::ledger::Ledger;
use crate::random::Random;
use crate::records::{Kind, Role, Step};

/// Row 2: one value that no record may have.
pub fn break_value(random: &mut Random, step: &mut Step, ledger: &Ledger) {
    let time = step.time;
    let past = time.saturating_sub(1);
    match &mut step.kind {
        Kind::Put { object, currency, .. } => match random.below(2) {
            0 => *object = 0,
            _ => *currency = 1000 + random.below(64_536) as u16,
        },
        Kind::Compact { object, .. } => *object = 0,
        Kind::Hold { hold, expiry, .. } | Kind::Renew { hold, expiry } => match random.below(2) {
            0 => *hold = 0,
            _ => *expiry = past,
        },
        Kind::Release { hold } => *hold = 0,
        Kind::Look { currency, .. } => *currency = random.pick(&[0, 1000, u16::MAX]),
        Kind::Commit { .. } => match random.below(6) {
            0 => step.list.insert(0, 0),
            1 => step.list.extend([7, 7]),
            2 => step.list.extend([9, 8]),
            _ => step.list = too_long(random, ledger),
        },
        _ => step.list.push(1),
    }
}

/// One name more than a manifest may have, all of them stored if so many are.
fn too_long(random: &mut Random, ledger: &Ledger) -> Vec<u64> {
    let length = ledger.limits.names + 1;
    let stored = some_stored(random, ledger, length);
    if stored.len() == length {
        return stored;
    }
    (1..=length as u64).collect()
}

/// Rows 4 and 5.
pub fn change_epoch(random: &mut Random, row: u8, kind: &mut Kind, ledger: &Ledger) {
    let role = match kind {
        Kind::Put { role, .. } => *role,
        Kind::Commit { .. } => Role::Writer,
        _ => Role::Compactor,
    };
    let current = ledger.epoch(role);
    let changed = match row {
        4 => random.pick(&[0, current.saturating_add(1), u64::MAX]),
        _ => current.saturating_sub(1 + random.below(2)),
    };
    if let Kind::Put { epoch, .. } | Kind::Commit { epoch, .. } | Kind::Compact { epoch, .. } = kind
    {
        *epoch = changed;
    }
}

/// Rows 6 and 7.
pub fn change_slot(random: &mut Random, row: u8, kind: &mut Kind, ledger: &Ledger) {
    let current = ledger.current().0;
    let changed = match row {
        6 => random.pick(&[0, current, current.saturating_sub(1)]),
        _ => random.pick(&[current.saturating_add(2), u64::MAX]),
    };
    if let Kind::Fence { slot, .. } | Kind::Commit { slot, .. } | Kind::Compact { slot, .. } = kind
    {
        *slot = changed;
    }
}

/// Rows 8 to 11 and 17. Row 11 needs no change: a full store refuses what is
/// acceptable otherwise.
pub fn change_object(random: &mut Random, row: u8, step: &mut Step, ledger: &Ledger) {
    let mut stored: Vec<u64> = ledger.objects.keys().copied().collect();
    if stored.is_empty() {
        stored.push(1);
    }
    let absent = match random.below(2) {
        0 => highest(ledger).saturating_add(1),
        _ => 1 + random.below(highest(ledger).max(1)),
    };
    match (&mut step.kind, row) {
        (Kind::Commit { .. }, 8) => {
            // With the absent one the list may not be too long.
            step.list.truncate(ledger.limits.names - 1);
            step.list.push(absent);
            step.list.sort();
            step.list.dedup();
        }
        (Kind::Compact { object, .. }, 8) => *object = absent,
        (Kind::Compact { object, .. }, 17) | (Kind::Put { object, .. }, 9) => {
            *object = random.pick(&stored);
        }
        (Kind::Put { object, .. }, 10) => {
            let collected = ledger.highest_collected.max(1);
            let spent = 1 + random.below(collected);
            *object = random.pick(&[absent, collected, spent]);
        }
        _ => {}
    }
}

/// Rows 12 to 15. Row 14 needs no change: eight live holds refuse what is
/// acceptable otherwise.
pub fn change_hold(random: &mut Random, row: u8, step: &mut Step, ledger: &Ledger) {
    let kept: Vec<u64> = ledger.holds.keys().copied().collect();
    let any = match kept.len() {
        0 => 1 + random.below(20),
        _ => random.pick(&kept),
    };
    let current = ledger.current().0;
    match (&mut step.kind, row) {
        (Kind::Hold { hold, .. }, 12) => *hold = any,
        (Kind::Hold { manifest, .. }, 13) => {
            *manifest = match random.below(3) {
                0 => current.saturating_add(1),
                1 => current.saturating_sub(1),
                _ => random.below(current.max(1)),
            };
        }
        (Kind::Renew { hold, .. } | Kind::Release { hold }, 15)
        | (Kind::List { hold } | Kind::Look { hold, .. }, 15) => match random.below(2) {
            // One that is in the ledger; it may have expired by the step's time.
            0 => *hold = any,
            _ => *hold = 1 + random.below(30),
        },
        _ => {}
    }
}

/// Row 16.
pub fn change_currency(random: &mut Random, kind: &mut Kind) {
    if let Kind::Look { currency, .. } = kind {
        *currency = random.pick(&CURRENCIES).max(1);
    }
}
