//! The ledger's image: document 02, request 6.

use crate::limits::{
    HEADER, HOLDS, HOLD_VALUE, IMAGE, MANIFESTS, MANIFEST_VALUE, NAME, NAMES, OBJECT_VALUE, WORD,
};
use crate::raw::{sound, Raw, RawHold, RawManifest, RawObject};
use crate::records::long;

pub const OUTER: u8 = 0x60;
pub const EDITION: u8 = 0x61;
pub const CLOCK: u8 = 0x62;
pub const COLLECTED: u8 = 0x63;
pub const OBJECT: u8 = 0x64;
pub const MANIFEST: u8 = 0x65;
pub const HOLD: u8 = 0x66;
/// The one edition there is.
const FIRST: u8 = 1;

/// Why bytes are no ledger's image.
#[derive(Debug, Clone, Copy, PartialEq, Eq)]
pub enum Refused {
    /// They have the form, and their ledger is not sound.
    Unsound,
    /// They break the form, or have more entries than places.
    Malformed,
}

impl Refused {
    pub fn code(self) -> u64 {
        match self {
            Refused::Unsound => 1,
            Refused::Malformed => 2,
        }
    }
}

/// All the bytes as one image. The whole form goes before soundness.
pub fn read(bytes: &[u8]) -> Result<Raw, Refused> {
    let raw = formed(bytes).ok_or(Refused::Malformed)?;
    match sound(&raw) {
        true => Ok(raw),
        false => Err(Refused::Unsound),
    }
}

/// The ledger that the fields say, sound or not; `None` where they break the
/// form.
fn formed(bytes: &[u8]) -> Option<Raw> {
    let mut rest = bytes;
    let mut fields = take(&mut rest, OUTER)?;
    if !rest.is_empty() || take(&mut fields, EDITION)? != [FIRST] {
        return None;
    }
    let clock = long(take(&mut fields, CLOCK)?)?;
    let mut raw = Raw::unused(clock, long(take(&mut fields, COLLECTED)?)?);
    let mut lowest = 0;
    while fields.first() == Some(&OBJECT) {
        let place = add_object(&mut raw, take(&mut fields, OBJECT)?, lowest)?;
        lowest = place + 1;
    }
    while fields.first() == Some(&MANIFEST) {
        add_manifest(&mut raw, take(&mut fields, MANIFEST)?)?;
    }
    while fields.first() == Some(&HOLD) {
        add_hold(&mut raw, take(&mut fields, HOLD)?)?;
    }
    // A field that is left is out of order, or of no known tag.
    fields.is_empty().then_some(raw)
}

/// The value of the first field, where it has that tag and is whole.
fn take<'a>(bytes: &mut &'a [u8], tag: u8) -> Option<&'a [u8]> {
    let ([found, high, low], behind) = bytes.split_first_chunk::<HEADER>()?;
    if *found != tag {
        return None;
    }
    let length = u16::from_be_bytes([*high, *low]);
    let (value, rest) = behind.split_at_checked(length.into())?;
    *bytes = rest;
    Some(value)
}

/// The place of the object, which may not be below the lowest that is left.
fn add_object(raw: &mut Raw, value: &[u8], lowest: usize) -> Option<usize> {
    let value: &[u8; OBJECT_VALUE] = value.try_into().ok()?;
    let (place, role, named) = (usize::from(value[0]), value[9], value[20]);
    if place < lowest || role > 1 || named > 1 {
        return None;
    }
    // The entry takes the place, so that one that is all zero is not sound.
    raw.occupancy[place / WORD] |= 1 << (place % WORD);
    raw.objects[place] = RawObject {
        number: long(&value[1..9])?,
        role: role.into(),
        epoch: long(&value[10..18])?,
        currency: u16::from_be_bytes([value[18], value[19]]).into(),
        named: named.into(),
    };
    Some(place)
}

fn add_manifest(raw: &mut Raw, value: &[u8]) -> Option<()> {
    let (head, list) = value.split_at_checked(MANIFEST_VALUE)?;
    let length = list.len() / NAME;
    if list.len() % NAME != 0 || length > NAMES || raw.kept().len() == MANIFESTS {
        return None;
    }
    let RawManifest { number, writer, compactor, length: count, names } =
        &mut raw.manifests[raw.manifest_count as usize];
    [*number, *writer, *compactor] = three(head)?;
    *count = length as u64;
    for (place, name) in names.iter_mut().zip(list.chunks_exact(NAME)) {
        *place = long(name)?;
    }
    raw.manifest_count += 1;
    Some(())
}

fn add_hold(raw: &mut Raw, value: &[u8]) -> Option<()> {
    if value.len() != HOLD_VALUE || raw.held().len() == HOLDS {
        return None;
    }
    let [number, manifest, expiry] = three(value)?;
    raw.holds[raw.hold_count as usize] = RawHold { number, manifest, expiry };
    raw.hold_count += 1;
    Some(())
}

/// Three numbers of eight bytes.
fn three(value: &[u8]) -> Option<[u64; 3]> {
    Some([long(&value[..8])?, long(&value[8..16])?, long(&value[16..])?])
}

/// The image of a sound ledger; `None` for another.
pub fn write(raw: &Raw) -> Option<Vec<u8>> {
    if !sound(raw) {
        return None;
    }
    let length = length(raw);
    let mut bytes = Vec::with_capacity(length);
    header(&mut bytes, OUTER, length - HEADER);
    header(&mut bytes, EDITION, 1);
    bytes.push(FIRST);
    for (tag, number) in [(CLOCK, raw.clock), (COLLECTED, raw.highest_collected)] {
        header(&mut bytes, tag, 8);
        numbers(&mut bytes, &[number]);
    }
    let places = raw.objects.iter().enumerate();
    for (place, object) in places.filter(|(place, _)| raw.occupied(*place)) {
        put_object(&mut bytes, place, object);
    }
    for RawManifest { number, writer, compactor, length, names } in raw.kept() {
        let list = &names[..*length as usize];
        header(&mut bytes, MANIFEST, MANIFEST_VALUE + NAME * list.len());
        numbers(&mut bytes, &[*number, *writer, *compactor]);
        numbers(&mut bytes, list);
    }
    for RawHold { number, manifest, expiry } in raw.held() {
        header(&mut bytes, HOLD, HOLD_VALUE);
        numbers(&mut bytes, &[*number, *manifest, *expiry]);
    }
    Some(bytes)
}

/// How many bytes the image of a sound ledger has.
fn length(raw: &Raw) -> usize {
    let objects: u32 = raw.occupancy.iter().map(|word| word.count_ones()).sum();
    let manifest = |m: &RawManifest| HEADER + MANIFEST_VALUE + NAME * m.length as usize;
    IMAGE
        + objects as usize * (HEADER + OBJECT_VALUE)
        + raw.kept().iter().map(manifest).sum::<usize>()
        + raw.held().len() * (HEADER + HOLD_VALUE)
}

fn put_object(bytes: &mut Vec<u8>, place: usize, object: &RawObject) {
    // A sound ledger's numbers have these widths.
    header(bytes, OBJECT, OBJECT_VALUE);
    bytes.push(place as u8);
    numbers(bytes, &[object.number]);
    bytes.push(object.role as u8);
    numbers(bytes, &[object.epoch]);
    bytes.extend((object.currency as u16).to_be_bytes());
    bytes.push(object.named as u8);
}

fn header(bytes: &mut Vec<u8>, tag: u8, length: usize) {
    bytes.push(tag);
    bytes.extend((length as u16).to_be_bytes());
}

fn numbers(bytes: &mut Vec<u8>, numbers: &[u64]) {
    for number in numbers {
        bytes.extend(number.to_be_bytes());
    }
}

#[cfg(test)]
mod tests;
