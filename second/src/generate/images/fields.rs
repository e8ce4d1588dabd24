//! Images damaged field by field, under an outer length that is true, so that
//! the damage is met within.

use super::{Fields, Sort};
use crate::generate::number;
use crate::image::{HOLD, MANIFEST, OBJECT};
use crate::limits::{
    HOLDS, HOLD_VALUE, MANIFESTS, MANIFEST_VALUE, NAME, NAMES, OBJECT_VALUE, PLACES,
};
use crate::random::Random;
use crate::records::long;

/// How many fields stand before the entries.
const HEADS: usize = 3;
/// Where the parts of an object's value begin.
const NUMBER: usize = 1;
const ROLE: usize = 9;
const EPOCH: usize = 10;
const CURRENCY: usize = 18;
const NAMED: usize = 20;

/// `None` where there is too little to be changed so.
pub fn change(random: &mut Random, sort: Sort, fields: &mut Fields) -> Option<()> {
    match sort {
        Sort::FieldsSwapped => swap(random, fields),
        Sort::FieldDoubled => double(random, fields),
        Sort::FieldDropped => drop(fields.remove(random.index(fields.len()))),
        Sort::FieldMoved => move_one(random, fields),
        Sort::FieldRetagged => retag(random, fields),
        Sort::FieldResized => resize(random, fields),
        Sort::HeadFieldWrong => wrong_head(random, fields),
        Sort::OtherEdition => fields[0].1[0] = random.pick(&[0, 2, 3, 128, 255]),
        Sort::OtherFlag => other_flag(random, fields)?,
        Sort::PlacesNotRising => fall(random, fields)?,
        Sort::TooMany => overfill(random, fields)?,
        Sort::FormBeforeSoundness => both(random, fields)?,
        Sort::AsManyAsPlaces => fill(random, fields, 0)?,
        Sort::PlacesSpread => spread(random, fields)?,
        Sort::MarkTurned => turn_mark(random, fields)?,
        Sort::ZeroEntry => zero_entry(random, fields)?,
        Sort::AllZero => all_zero(random, fields),
        Sort::LargeCurrency => large_currency(random, fields)?,
        Sort::ZeroNumber => zero_number(random, fields)?,
        Sort::ListNotRising => unsort(random, fields)?,
        Sort::EntriesSwapped => swap_entries(random, fields)?,
        Sort::NoManifest => fields.retain(|(tag, _)| *tag != MANIFEST),
        Sort::NumberChanged => change_number(random, fields),
        _ => return None,
    }
    Some(())
}

/// The places of the fields of that tag.
fn all_of(fields: &Fields, tag: u8) -> Vec<usize> {
    (0..fields.len()).filter(|place| fields[*place].0 == tag).collect()
}

/// The place of one of them.
fn of(random: &mut Random, fields: &Fields, tag: u8) -> Option<usize> {
    let places = all_of(fields, tag);
    (!places.is_empty()).then(|| random.pick(&places))
}

/// Another place than that one; there are four fields or more.
fn another(random: &mut Random, fields: &Fields, place: usize) -> usize {
    let near = random.once_in(2);
    let other = if near { place + 1 } else { place + 1 + random.index(fields.len() - 1) };
    other % fields.len()
}

fn swap(random: &mut Random, fields: &mut Fields) {
    let place = random.index(fields.len());
    let other = another(random, fields, place);
    fields.swap(place, other);
}

fn double(random: &mut Random, fields: &mut Fields) {
    let place = random.index(fields.len());
    // Beside itself, or anywhere.
    let at = if random.once_in(2) { place } else { random.index(fields.len() + 1) };
    fields.insert(at, fields[place].clone());
}

fn move_one(random: &mut Random, fields: &mut Fields) {
    let place = random.index(fields.len());
    let at = another(random, fields, place);
    let field = fields.remove(place);
    fields.insert(at, field);
}

/// The tag of another field, or of none. The first hold may well be a manifest,
/// for its value has the length of one.
fn retag(random: &mut Random, fields: &mut Fields) {
    let hold = fields.iter().position(|(tag, _)| *tag == HOLD);
    if let (Some(hold), true) = (hold, random.once_in(4)) {
        fields[hold].0 = MANIFEST;
        return;
    }
    let place = random.index(fields.len());
    let before = fields[place].0;
    let tag = random.pick(&[0x00, 0x60, 0x61, 0x62, 0x63, OBJECT, MANIFEST, HOLD, 0x67, 0xE4]);
    fields[place].0 = if tag == before { !before } else { tag };
}

/// A value one byte or eight shorter or longer; a list that ends elsewhere has
/// the form.
fn resize(random: &mut Random, fields: &mut Fields) {
    let place = match of(random, fields, MANIFEST) {
        Some(manifest) if random.once_in(2) => manifest,
        _ => random.index(fields.len()),
    };
    let value = &mut fields[place].1;
    let length = value.len();
    let other = match random.below(4) {
        0 => length + 1,
        1 => length - 1,
        2 => length + 8,
        _ => length.saturating_sub(8),
    };
    let filling = random.pick(&[0, 0xFF]);
    value.resize(other, filling);
}

/// One of the first three missing, doubled, of another length, or behind the
/// next.
fn wrong_head(random: &mut Random, fields: &mut Fields) {
    let head = random.index(HEADS);
    match random.below(5) {
        0 => drop(fields.remove(head)),
        1 => fields.insert(head, fields[head].clone()),
        2 => fields[head].1.push(0),
        3 => drop(fields[head].1.remove(0)),
        _ => fields.swap(head, head + 1),
    }
}

fn other_flag(random: &mut Random, fields: &mut Fields) -> Option<()> {
    let object = of(random, fields, OBJECT)?;
    let part = random.pick(&[ROLE, NAMED]);
    fields[object].1[part] = random.pick(&[2, 3, 128, 129, 254, 255]);
    Some(())
}

fn turn_mark(random: &mut Random, fields: &mut Fields) -> Option<()> {
    let object = of(random, fields, OBJECT)?;
    fields[object].1[NAMED] ^= 1;
    Some(())
}

/// A place equal to the one before or below it, or two objects swapped.
fn fall(random: &mut Random, fields: &mut Fields) -> Option<()> {
    let objects = all_of(fields, OBJECT);
    let (_, later) = objects.split_first()?;
    if later.is_empty() {
        return None;
    }
    let object = random.pick(later);
    let before = fields[object - 1].1[0];
    match random.below(3) {
        0 => fields[object].1[0] = before,
        1 => fields[object].1[0] = random.below(u64::from(before) + 1) as u8,
        _ => fields.swap(object, object - 1),
    }
    Some(())
}

/// As many manifests, holds or names as there are places, and so many more.
fn fill(random: &mut Random, fields: &mut Fields, more: usize) -> Option<()> {
    match random.below(3) {
        0 => fill_manifests(random, fields, MANIFESTS + more)?,
        1 => fill_holds(fields, HOLDS + more)?,
        _ => {
            let manifest = of(random, fields, MANIFEST)?;
            let first = random.below(1000);
            let names = (first..).take(NAMES + more).flat_map(u64::to_be_bytes);
            fields[manifest].1.truncate(MANIFEST_VALUE);
            fields[manifest].1.extend(names);
        }
    }
    Some(())
}

/// Copies of the last one without its list; their numbers at times rise.
fn fill_manifests(random: &mut Random, fields: &mut Fields, wanted: usize) -> Option<()> {
    let rises = random.once_in(2);
    let manifests = all_of(fields, MANIFEST);
    let last = *manifests.last()?;
    let mut value = fields[last].1[..MANIFEST_VALUE].to_vec();
    let more: Fields = (manifests.len()..wanted)
        .map(|_| {
            add_one(&mut value[..NAME], rises);
            (MANIFEST, value.clone())
        })
        .collect();
    fields.splice(last + 1..last + 1, more);
    Some(())
}

/// Holds of the current manifest without an end, so that a ledger stays sound
/// where they have places.
fn fill_holds(fields: &mut Fields, wanted: usize) -> Option<()> {
    let current = fields[*all_of(fields, MANIFEST).last()?].1[..NAME].to_vec();
    let holds = all_of(fields, HOLD);
    let mut number = holds.last().map_or(vec![0; NAME], |last| fields[*last].1[..NAME].to_vec());
    for _ in holds.len()..wanted {
        add_one(&mut number, true);
        fields.push((HOLD, [&number[..], &current, &[0; NAME]].concat()));
    }
    Some(())
}

/// One more than there are places, now and then as many more as a field can
/// hold.
fn overfill(random: &mut Random, fields: &mut Fields) -> Option<()> {
    let more = if random.once_in(40) { 1 + random.index(1_900) } else { 1 };
    fill(random, fields, more)
}

/// The next number, where that is wanted.
fn add_one(bytes: &mut [u8], wanted: bool) {
    let number = long(bytes).expect("a number has eight bytes");
    bytes.copy_from_slice(&number.wrapping_add(wanted.into()).to_be_bytes());
}

/// Unsound first, and behind it a fault of the form.
fn both(random: &mut Random, fields: &mut Fields) -> Option<()> {
    match random.below(4) {
        0 => large_currency(random, fields)?,
        1 => zero_number(random, fields)?,
        2 => zero_entry(random, fields)?,
        _ => fields.retain(|(tag, _)| *tag != MANIFEST),
    }
    match random.below(6) {
        0 => fields.last_mut()?.1.push(0),
        1 => drop(fields.last_mut()?.1.pop()),
        2 => fields.push((random.pick(&[0x60, 0x61, 0x63, 0x67]), vec![0; HOLD_VALUE])),
        3 => fields.push((OBJECT, vec![0; OBJECT_VALUE - 1])),
        4 => fields.extend((0..=HOLDS).map(|_| (HOLD, vec![0; HOLD_VALUE]))),
        _ => other_flag(random, fields)?,
    }
    Some(())
}

/// Other places that rise: the ledger stays sound.
fn spread(random: &mut Random, fields: &mut Fields) -> Option<()> {
    let objects = all_of(fields, OBJECT);
    let mut free = PLACES - objects.len();
    if objects.is_empty() || free == 0 {
        return None;
    }
    let mut place = 0;
    for object in objects {
        let any = random.index(free + 1);
        let skipped = random.pick(&[0, 0, 1, any, free]).min(free);
        place += skipped;
        free -= skipped;
        fields[object].1[0] = place as u8;
        place += 1;
    }
    Some(())
}

/// An object whose fields are all zero, at a place of its own, or in place of
/// another.
fn zero_entry(random: &mut Random, fields: &mut Fields) -> Option<()> {
    let objects = all_of(fields, OBJECT);
    if !objects.is_empty() && random.once_in(4) {
        fields[random.pick(&objects)].1[1..].fill(0);
        return Some(());
    }
    let taken = |place: u8| objects.iter().any(|object| fields[*object].1[0] == place);
    let free: Vec<u8> = (0..=u8::MAX).filter(|place| !taken(*place)).collect();
    if free.is_empty() {
        return None;
    }
    let any = random.pick(&free);
    let place = random.pick(&[free[0], free[free.len() - 1], any]);
    let below = objects.iter().filter(|object| fields[**object].1[0] < place).count();
    let mut value = vec![0; OBJECT_VALUE];
    value[0] = place;
    fields.insert(HEADS + below, (OBJECT, value));
    Some(())
}

/// All entries of one tag, or of all; places stay, and lists keep their length.
fn all_zero(random: &mut Random, fields: &mut Fields) {
    let tags = random.pick(&[[OBJECT; 3], [MANIFEST; 3], [HOLD; 3], [OBJECT, MANIFEST, HOLD]]);
    for (tag, value) in fields.iter_mut().filter(|(tag, _)| tags.contains(tag)) {
        let kept = usize::from(*tag == OBJECT);
        value[kept..].fill(0);
    }
}

fn large_currency(random: &mut Random, fields: &mut Fields) -> Option<()> {
    let object = of(random, fields, OBJECT)?;
    let any = 1000 + random.below(64_536) as u16;
    let currency = random.pick(&[1000, 1001, 1024, u16::MAX, any]);
    fields[object].1[CURRENCY..NAMED].copy_from_slice(&currency.to_be_bytes());
    Some(())
}

/// An object's number or epoch, a hold's number, or a name.
fn zero_number(random: &mut Random, fields: &mut Fields) -> Option<()> {
    let (tag, at) =
        random.pick(&[(OBJECT, NUMBER), (OBJECT, EPOCH), (HOLD, 0), (MANIFEST, MANIFEST_VALUE)]);
    let entry = of(random, fields, tag)?;
    let value = &mut fields[entry].1;
    let names = (value.len() - at) / NAME;
    if tag == MANIFEST && names == 0 {
        return None;
    }
    let at = if tag == MANIFEST { at + NAME * random.index(names) } else { at };
    value[at..at + NAME].fill(0);
    Some(())
}

/// Two names side by side swapped or made equal.
fn unsort(random: &mut Random, fields: &mut Fields) -> Option<()> {
    let manifest = of(random, fields, MANIFEST)?;
    let (_, list) = fields[manifest].1.split_at_mut(MANIFEST_VALUE);
    let names = list.len() / NAME;
    if names < 2 {
        return None;
    }
    let at = NAME * random.index(names - 1);
    match random.once_in(2) {
        true => list[at..at + 2 * NAME].rotate_left(NAME),
        false => list.copy_within(at..at + NAME, at + NAME),
    }
    Some(())
}

/// Two manifests, or two holds.
fn swap_entries(random: &mut Random, fields: &mut Fields) -> Option<()> {
    let tag = random.pick(&[MANIFEST, HOLD]);
    let entries = all_of(fields, tag);
    if entries.len() < 2 {
        return None;
    }
    let place = random.index(entries.len());
    let other = (place + 1 + random.index(entries.len() - 1)) % entries.len();
    fields.swap(entries[place], entries[other]);
    Some(())
}

/// One number replaced by a near one, by another of the image, or by any.
fn change_number(random: &mut Random, fields: &mut Fields) {
    let one_of = |random: &mut Random, fields: &Fields| {
        let place = 1 + random.index(fields.len() - 1);
        let (tag, value) = &fields[place];
        let at = match *tag {
            OBJECT => random.pick(&[NUMBER, EPOCH]),
            _ => NAME * random.index(value.len() / NAME),
        };
        (place, at..at + NAME)
    };
    let (place, at) = one_of(random, fields);
    let (other, from) = one_of(random, fields);
    let copied = long(&fields[other].1[from]).expect("it has eight bytes");
    let value = &mut fields[place].1[at];
    let before = long(value).expect("it has eight bytes");
    let changed = match random.below(5) {
        0 => before.wrapping_add(1),
        1 => before.wrapping_sub(1),
        2 => before ^ 1 << random.below(64),
        3 => number(random),
        _ => copied,
    };
    value.copy_from_slice(&changed.to_be_bytes());
}
