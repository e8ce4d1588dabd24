//! Records: document 01, "The ten steps" for what a step holds, row 2 of
//! "When a step is turned away" for which steps are malformed, and "Records
//! and names" for the bytes of steps and verdicts.

use crate::limits::{NAMES, PLACES};

/// The highest code in the table of refusals.
pub const LAST_CODE: u8 = 17;

const CODE: u8 = 0x00;
const TIME: u8 = 0x01;
const ROLE: u8 = 0x02;
const EPOCH: u8 = 0x03;
const SLOT: u8 = 0x04;
pub const OBJECT: u8 = 0x05;
pub const CURRENCY: u8 = 0x06;
const LIST: u8 = 0x07;
const HOLD: u8 = 0x08;
const MANIFEST: u8 = 0x09;
const EXPIRY: u8 = 0x0A;
const VERDICT: u8 = 0x40;

#[derive(Debug, Clone, Copy, PartialEq, Eq)]
pub enum Role {
    Writer,
    Compactor,
}

#[derive(Debug, Clone, Copy, PartialEq, Eq)]
pub enum Kind {
    Fence { role: Role, slot: u64 },
    Put { role: Role, epoch: u64, object: u64, currency: u16 },
    Commit { epoch: u64, slot: u64 },
    Compact { epoch: u64, slot: u64, object: u64 },
    Hold { hold: u64, manifest: u64, expiry: u64 },
    Renew { hold: u64, expiry: u64 },
    Release { hold: u64 },
    List { hold: u64 },
    Look { currency: u16, hold: u64 },
    Collect,
}

/// The list is COMMIT's; beside every other kind it is empty.
#[derive(Debug, Clone, PartialEq, Eq)]
pub struct Step {
    pub time: u64,
    pub kind: Kind,
    pub list: Vec<u64>,
}

#[derive(Debug, Clone, PartialEq, Eq)]
pub enum Verdict {
    /// A refusal with its number.
    Refused(u8),
    /// An acceptance that answers with the code alone.
    Done,
    Epoch(u64),
    Listed {
        manifest: u64,
        list: Vec<u64>,
    },
    Found(u64),
    Collected(Vec<u64>),
}

#[derive(Debug, Clone, Copy, PartialEq, Eq)]
pub enum Next {
    /// No bytes remain.
    End,
    /// Fewer bytes remain than a header, or than the header claims.
    Torn,
    /// A record of that length, header included.
    Record(usize),
}

impl Step {
    /// False exactly where row 2 applies.
    pub fn well_formed(&self) -> bool {
        self.well_formed_within(NAMES)
    }

    /// The same where COMMIT's list may be at most that long.
    pub fn well_formed_within(&self, names: usize) -> bool {
        // Compared with the step's own time, so the ledger plays no part.
        let lasting = |expiry: u64| expiry == 0 || expiry >= self.time;
        let list = match self.kind {
            Kind::Commit { .. } => rising(&self.list, names),
            _ => self.list.is_empty(),
        };
        list && match self.kind {
            Kind::Fence { .. } | Kind::Commit { .. } | Kind::List { .. } | Kind::Collect => true,
            Kind::Put { object, currency, .. } => object != 0 && currency <= 999,
            Kind::Compact { object, .. } => object != 0,
            Kind::Hold { hold, expiry, .. } | Kind::Renew { hold, expiry } => {
                hold != 0 && lasting(expiry)
            }
            Kind::Release { hold } => hold != 0,
            Kind::Look { currency, .. } => (1..=999).contains(&currency),
        }
    }
}

impl Verdict {
    /// The number in the table; 0 for an acceptance.
    pub fn code(&self) -> u8 {
        match self {
            Verdict::Refused(code) => *code,
            _ => 0,
        }
    }

    pub fn well_formed(&self) -> bool {
        match self {
            Verdict::Refused(code) => (1..=LAST_CODE).contains(code),
            Verdict::Done => true,
            Verdict::Epoch(value) | Verdict::Found(value) => *value != 0,
            Verdict::Listed { list, .. } => rising(list, NAMES),
            Verdict::Collected(list) => rising(list, PLACES),
        }
    }
}

fn rising(list: &[u64], longest: usize) -> bool {
    list.len() <= longest && !list.contains(&0) && list.windows(2).all(|pair| pair[0] < pair[1])
}

/// Looks at the header of the next record only; its tag plays no part.
pub fn next_record(bytes: &[u8]) -> Next {
    match bytes {
        [] => Next::End,
        [_, high, low, value @ ..] => {
            let length = usize::from(u16::from_be_bytes([*high, *low]));
            if value.len() < length {
                Next::Torn
            } else {
                Next::Record(3 + length)
            }
        }
        _ => Next::Torn,
    }
}

/// Reads all the bytes as one step; `None` is the answer 2.
pub fn read_step(bytes: &[u8]) -> Option<Step> {
    let (tag, fields) = split_record(bytes)?;
    let [(TIME, time), rest @ ..] = &fields[..] else {
        return None;
    };
    // Only COMMIT has a list; `read_kind` refuses one elsewhere.
    let list = match rest {
        [.., (LIST, names)] => longs(names)?,
        _ => Vec::new(),
    };
    let step = Step { time: long(time)?, kind: read_kind(tag, rest)?, list };
    step.well_formed().then_some(step)
}

/// The kind that an outer tag and the fields behind the time make.
fn read_kind(tag: u8, fields: &[Field]) -> Option<Kind> {
    let kind = match (tag, fields) {
        (0x10, [(ROLE, role), (SLOT, slot)]) => {
            Kind::Fence { role: read_role(role)?, slot: long(slot)? }
        }
        (0x11, [(ROLE, role), (EPOCH, epoch), (OBJECT, object), (CURRENCY, currency)]) => {
            Kind::Put {
                role: read_role(role)?,
                epoch: long(epoch)?,
                object: long(object)?,
                currency: short(currency)?,
            }
        }
        (0x12, [(EPOCH, epoch), (SLOT, slot), (LIST, _)]) => {
            Kind::Commit { epoch: long(epoch)?, slot: long(slot)? }
        }
        (0x13, [(EPOCH, epoch), (SLOT, slot), (OBJECT, object)]) => {
            Kind::Compact { epoch: long(epoch)?, slot: long(slot)?, object: long(object)? }
        }
        (0x14, [(HOLD, hold), (MANIFEST, manifest), (EXPIRY, expiry)]) => {
            Kind::Hold { hold: long(hold)?, manifest: long(manifest)?, expiry: long(expiry)? }
        }
        (0x15, [(HOLD, hold), (EXPIRY, expiry)]) => {
            Kind::Renew { hold: long(hold)?, expiry: long(expiry)? }
        }
        (0x16, [(HOLD, hold)]) => Kind::Release { hold: long(hold)? },
        (0x17, [(HOLD, hold)]) => Kind::List { hold: long(hold)? },
        (0x18, [(CURRENCY, currency), (HOLD, hold)]) => {
            Kind::Look { currency: short(currency)?, hold: long(hold)? }
        }
        (0x19, []) => Kind::Collect,
        _ => return None,
    };
    Some(kind)
}

/// Writes a step; `None` is the answer 2, for what no reader takes.
pub fn write_step(step: &Step) -> Option<Vec<u8>> {
    if !step.well_formed() {
        return None;
    }
    let eight = |tag: u8, value: u64| field(tag, &value.to_be_bytes());
    let two = |tag: u8, value: u16| field(tag, &value.to_be_bytes());
    let (tag, rest) = match step.kind {
        Kind::Fence { role, slot } => (0x10, vec![write_role(role), eight(SLOT, slot)]),
        Kind::Put { role, epoch, object, currency } => {
            let named = [eight(OBJECT, object), two(CURRENCY, currency)].concat();
            (0x11, vec![write_role(role), eight(EPOCH, epoch), named])
        }
        Kind::Commit { epoch, slot } => {
            (0x12, vec![eight(EPOCH, epoch), eight(SLOT, slot), list_field(&step.list)])
        }
        Kind::Compact { epoch, slot, object } => {
            (0x13, vec![eight(EPOCH, epoch), eight(SLOT, slot), eight(OBJECT, object)])
        }
        Kind::Hold { hold, manifest, expiry } => {
            (0x14, vec![eight(HOLD, hold), eight(MANIFEST, manifest), eight(EXPIRY, expiry)])
        }
        Kind::Renew { hold, expiry } => (0x15, vec![eight(HOLD, hold), eight(EXPIRY, expiry)]),
        Kind::Release { hold } => (0x16, vec![eight(HOLD, hold)]),
        Kind::List { hold } => (0x17, vec![eight(HOLD, hold)]),
        Kind::Look { currency, hold } => (0x18, vec![two(CURRENCY, currency), eight(HOLD, hold)]),
        Kind::Collect => (0x19, vec![]),
    };
    let inner = [eight(TIME, step.time), rest.concat()].concat();
    Some(field(tag, &inner))
}

/// Reads all the bytes as one verdict; `None` is the answer 2.
pub fn read_verdict(bytes: &[u8]) -> Option<Verdict> {
    let (tag, fields) = split_record(bytes)?;
    let [(CODE, [code]), rest @ ..] = &fields[..] else {
        return None;
    };
    let verdict = match (tag, code, rest) {
        (VERDICT, 0, []) => Verdict::Done,
        (VERDICT, 0, [(EPOCH, epoch)]) => Verdict::Epoch(long(epoch)?),
        (VERDICT, 0, [(LIST, list), (MANIFEST, manifest)]) => {
            Verdict::Listed { manifest: long(manifest)?, list: longs(list)? }
        }
        (VERDICT, 0, [(OBJECT, object)]) => Verdict::Found(long(object)?),
        (VERDICT, 0, [(LIST, list)]) => Verdict::Collected(longs(list)?),
        (VERDICT, 1.., []) => Verdict::Refused(*code),
        _ => return None,
    };
    verdict.well_formed().then_some(verdict)
}

/// Writes a verdict; `None` is the answer 2, for what no reader takes.
pub fn write_verdict(verdict: &Verdict) -> Option<Vec<u8>> {
    if !verdict.well_formed() {
        return None;
    }
    let eight = |tag: u8, value: u64| field(tag, &value.to_be_bytes());
    let rest = match verdict {
        Verdict::Refused(_) | Verdict::Done => vec![],
        Verdict::Epoch(epoch) => eight(EPOCH, *epoch),
        Verdict::Listed { manifest, list } => {
            [list_field(list), eight(MANIFEST, *manifest)].concat()
        }
        Verdict::Found(object) => eight(OBJECT, *object),
        Verdict::Collected(list) => list_field(list),
    };
    let inner = [field(CODE, &[verdict.code()]), rest].concat();
    Some(field(VERDICT, &inner))
}

/// A tag and its value.
pub type Field<'a> = (u8, &'a [u8]);

/// The tag and the inner fields of bytes that are one record.
pub fn split_record(bytes: &[u8]) -> Option<(u8, Vec<Field<'_>>)> {
    let outer = split(bytes)?;
    let [(tag, value)] = outer[..] else {
        return None;
    };
    Some((tag, split(value)?))
}

/// Bytes that are fields from the first to the last.
fn split(mut bytes: &[u8]) -> Option<Vec<Field<'_>>> {
    let mut fields = Vec::new();
    loop {
        match next_record(bytes) {
            Next::End => return Some(fields),
            Next::Torn => return None,
            Next::Record(length) => {
                fields.push((bytes[0], &bytes[3..length]));
                bytes = &bytes[length..];
            }
        }
    }
}

pub fn long(value: &[u8]) -> Option<u64> {
    Some(u64::from_be_bytes(value.try_into().ok()?))
}

pub fn short(value: &[u8]) -> Option<u16> {
    Some(u16::from_be_bytes(value.try_into().ok()?))
}

/// A length that is no multiple of 8 leaves a short chunk, which `long` refuses.
fn longs(value: &[u8]) -> Option<Vec<u64>> {
    value.chunks(8).map(long).collect()
}

fn read_role(value: &[u8]) -> Option<Role> {
    match value {
        [0] => Some(Role::Writer),
        [1] => Some(Role::Compactor),
        _ => None,
    }
}

fn write_role(role: Role) -> Vec<u8> {
    match role {
        Role::Writer => field(ROLE, &[0]),
        Role::Compactor => field(ROLE, &[1]),
    }
}

fn list_field(list: &[u64]) -> Vec<u8> {
    let values: Vec<u8> = list.iter().flat_map(|name| name.to_be_bytes()).collect();
    field(LIST, &values)
}

pub fn field(tag: u8, value: &[u8]) -> Vec<u8> {
    let length = u16::try_from(value.len()).expect("well-formed values are short");
    let [high, low] = length.to_be_bytes();
    [&[tag, high, low], value].concat()
}

#[cfg(test)]
mod tests;
