//! Listings for comparisons of listing readers, whole and damaged: document
//! 02, request 5.

use std::collections::BTreeSet;

use crate::names::{self, Name};
use crate::random::Random;

/// How a listing was made.
#[derive(Debug, Clone, Copy, PartialEq, Eq, PartialOrd, Ord)]
pub enum Sort {
    Whole,
    Empty,
    Shuffled,
    Swapped,
    Cut,
    WithoutLastEnd,
    EqualLines,
    CrossedFolder,
    BareName,
    ObjectZero,
    EmptyLine,
    SeveralEnds,
    ReturnsBeforeEnds,
    ManifestBehindObject,
    ByteChanged,
    ByteInserted,
    ByteRemoved,
    LineTooLong,
    NumberTooLarge,
    RandomBytes,
}

use Sort::*;

pub const SORTS: [Sort; 20] = [
    Whole,
    Empty,
    Shuffled,
    Swapped,
    Cut,
    WithoutLastEnd,
    EqualLines,
    CrossedFolder,
    BareName,
    ObjectZero,
    EmptyLine,
    SeveralEnds,
    ReturnsBeforeEnds,
    ManifestBehindObject,
    ByteChanged,
    ByteInserted,
    ByteRemoved,
    LineTooLong,
    NumberTooLarge,
    RandomBytes,
];

/// Each with its end.
type Lines = Vec<Vec<u8>>;

fn line(name: Name) -> Vec<u8> {
    let mut line = names::write(name).expect("it is no object 0");
    line.push(b'\n');
    line
}

/// A line that is none of a whole listing.
fn other_line(folder: &str, digits: impl std::fmt::Display, suffix: &str) -> Vec<u8> {
    format!("{folder}{digits:0>20}{suffix}\n").into_bytes()
}

/// A few lines mostly, at times none and at times hundreds.
fn count(random: &mut Random) -> usize {
    match random.below(80) {
        0 => random.index(400),
        1..=3 => random.index(40),
        _ => random.index(6),
    }
}

/// A number of that manner: small, sparse, around a power of ten, or near the
/// highest; any other is one of these.
fn number(random: &mut Random, manner: u64, spread: u64) -> u64 {
    match manner {
        0 => random.below(spread),
        1 => random.magnitude(),
        2 => 10_u64.pow(random.below(20) as u32).saturating_sub(3) + random.below(6),
        3 => u64::MAX - random.below(spread),
        _ => {
            let manner = random.below(4);
            number(random, manner, spread)
        }
    }
}

/// At most so many numbers of one manner, or a row without a gap.
fn numbers(random: &mut Random, count: usize) -> BTreeSet<u64> {
    let spread = 2 * count as u64 + 2;
    let manner = random.below(6);
    if manner == 5 {
        let start = random.magnitude().min(u64::MAX - spread);
        return (start..start + count as u64).collect();
    }
    (0..count).map(|_| number(random, manner, spread)).collect()
}

/// The lines of a whole listing, at least so many.
fn whole(random: &mut Random, least: usize) -> Lines {
    loop {
        let (manifests, objects) = (count(random), count(random));
        let manifests = numbers(random, manifests).into_iter().map(Name::Manifest);
        let objects = numbers(random, objects).into_iter().filter(|number| *number != 0);
        let lines: Lines = manifests.chain(objects.map(Name::Object)).map(line).collect();
        if lines.len() >= least {
            return lines;
        }
    }
}

/// How many of the lines are manifests'.
fn manifests(lines: &Lines) -> usize {
    lines.iter().filter(|line| line.starts_with(b"manifest/")).count()
}

/// A listing of any sort.
pub fn random(random: &mut Random) -> (Sort, Vec<u8>) {
    // Whole ones are wanted more often than each other sort.
    let sort = match random.below(5) {
        0 => Whole,
        _ => random.pick(&SORTS),
    };
    (sort, of_sort(random, sort))
}

fn of_sort(random: &mut Random, sort: Sort) -> Vec<u8> {
    match sort {
        Whole => whole(random, 0).concat(),
        Empty => Vec::new(),
        RandomBytes => random_bytes(random),
        Shuffled | Swapped | EqualLines => other_order(random, sort).concat(),
        ManifestBehindObject => manifest_behind_object(random).concat(),
        Cut | WithoutLastEnd | ByteChanged | ByteInserted | ByteRemoved => {
            let listing = whole(random, 1).concat();
            one_byte(random, sort, listing)
        }
        SeveralEnds | EmptyLine | ReturnsBeforeEnds => other_ends(random, sort).concat(),
        CrossedFolder | BareName | ObjectZero | LineTooLong | NumberTooLarge => {
            one_line(random, sort).concat()
        }
    }
}

/// Lines that are names all, but do not rise, or need not.
fn other_order(random: &mut Random, sort: Sort) -> Lines {
    let mut lines = whole(random, 2);
    let (one, other) = (random.index(lines.len()), random.index(lines.len() - 1));
    match sort {
        Shuffled => {
            for place in 1..lines.len() {
                lines.swap(place, random.index(place + 1));
            }
        }
        // Two places that differ.
        Swapped => lines.swap(one, if other < one { other } else { other + 1 }),
        _ => lines.insert(one, lines[one].clone()),
    }
    lines
}

/// Any manifest, or the highest once more, anywhere behind the first object.
fn manifest_behind_object(random: &mut Random) -> Lines {
    let mut lines = whole(random, 1);
    let first = manifests(&lines);
    if first == lines.len() {
        lines.push(line(Name::Object(random.magnitude().max(1))));
    }
    let place = first + 1 + random.index(lines.len() - first);
    let manifest = match lines[..first].last() {
        Some(highest) if random.once_in(2) => highest.clone(),
        _ => line(Name::Manifest(random.magnitude())),
    };
    lines.insert(place, manifest);
    lines
}

/// A listing cut, or with one byte fewer, more or changed.
fn one_byte(random: &mut Random, sort: Sort, mut listing: Vec<u8>) -> Vec<u8> {
    let place = random.index(listing.len());
    match sort {
        Cut => listing.truncate(place),
        WithoutLastEnd => listing.truncate(listing.len() - 1),
        ByteChanged => match random.below(3) {
            0 => listing[place] ^= 1 << random.below(8),
            1 => listing[place] = random.pick(b"0123456789/.\n\r\x00\xFF"),
            _ => listing[place] = random.any() as u8,
        },
        ByteInserted => match random.below(2) {
            0 => listing.insert(place, random.pick(b"019/.\n\r \x00\xFF")),
            _ => listing.insert(place, random.any() as u8),
        },
        _ => {
            listing.remove(place);
        }
    }
    listing
}

/// Empty lines, or returns before the ends of one line or of all.
fn other_ends(random: &mut Random, sort: Sort) -> Lines {
    let mut lines = whole(random, 1);
    let place = random.index(lines.len() + 1);
    match sort {
        EmptyLine => lines.insert(place, b"\n".to_vec()),
        SeveralEnds => {
            let ends = vec![b'\n'; 2 + random.index(4)];
            match random.below(8) {
                0 => lines = vec![ends],
                _ => lines.insert(place, ends),
            }
        }
        _ => {
            let only = random.once_in(2).then_some(place % lines.len());
            for (place, line) in lines.iter_mut().enumerate() {
                if only.is_none_or(|only| only == place) {
                    line.insert(line.len() - 1, b'\r');
                }
            }
        }
    }
    lines
}

/// A listing one of whose lines is replaced by one that is no name, or that
/// has one such line more.
fn one_line(random: &mut Random, sort: Sort) -> Lines {
    let mut lines = whole(random, 1);
    let place = random.index(lines.len());
    let (number, manifest) = (random.magnitude(), lines[place].starts_with(b"manifest/"));
    let (folder, suffix) = if manifest { ("manifest/", ".manifest") } else { ("wal/", ".sst") };
    let crossed = if manifest { "wal/" } else { "manifest/" };
    match sort {
        CrossedFolder => lines[place] = other_line(crossed, number, suffix),
        BareName => {
            lines[place].drain(..folder.len());
        }
        // At times where it would rise, before all objects.
        ObjectZero => {
            let first = manifests(&lines);
            let place = if random.once_in(2) { first } else { place };
            lines.insert(place, other_line("wal/", 0, ".sst"));
        }
        NumberTooLarge => {
            let digits = too_large(random);
            lines[place] = other_line(folder, digits, suffix);
        }
        _ => {
            let more = too_much(random, &lines[place]);
            let end = lines[place].len() - 1;
            lines[place].splice(end..end, more);
        }
    }
    lines
}

/// Above 2^64-1, often just above, and of twenty digits.
fn too_large(random: &mut Random) -> u128 {
    let (lowest, highest) = (1 << 64, 10_u128.pow(20) - 1);
    match random.below(3) {
        0 => lowest,
        1 => lowest + u128::from(random.magnitude()),
        _ => highest - u128::from(random.magnitude()),
    }
}

/// What makes a line too long, before its end.
fn too_much(random: &mut Random, line: &[u8]) -> Vec<u8> {
    match random.below(5) {
        0 => b".tmp".to_vec(),
        1 => b"/".to_vec(),
        2 => line[..line.len() - 1].to_vec(),
        3 => vec![b'0'; 1 + random.index(300)],
        // No end among them.
        _ => (0..1 + random.index(20)).map(|_| 0x80 | random.any() as u8).collect(),
    }
}

/// Any bytes, or only such as listings have.
fn random_bytes(random: &mut Random) -> Vec<u8> {
    let length = random.index(150);
    let few = random.once_in(2);
    let byte = |_| match few {
        true => random.pick(b"manifestwal/.0189\n\n"),
        false => random.any() as u8,
    };
    (0..length).map(byte).collect()
}

/// The listings that every comparison starts with.
pub fn fixed() -> Vec<Vec<u8>> {
    let mut listings = Vec::new();
    for numbers in [[1, 2], [9, 10], [u64::MAX - 1, u64::MAX]] {
        let manifests = numbers.map(Name::Manifest);
        let objects = numbers.map(Name::Object);
        let lines: Lines = manifests.into_iter().chain(objects).map(line).collect();
        listings.extend(choices(&lines));
        listings.extend(one_byte_replaced(&lines.concat()));
    }
    listings.extend(long());
    listings
}

/// More manifests and more objects than a byte counts, whole and with an empty
/// line where a count in a byte would begin again.
fn long() -> Vec<Vec<u8>> {
    let manifests = (0..300).map(Name::Manifest);
    let lines: Lines = manifests.chain((1..=300).map(Name::Object)).map(line).collect();
    let mut listings = vec![lines.concat()];
    for place in [0, 254, 255, 256, 257, 299, 300, 301, 511, 512, 555, 556, 557, 599, 600] {
        listings.push([lines[..place].concat(), b"\n".to_vec(), lines[place..].concat()].concat());
    }
    listings
}

/// None of the lines up to as many as there are, in every choice and order,
/// repeated ones too.
fn choices(lines: &Lines) -> Vec<Vec<u8>> {
    let mut all: Vec<Vec<u8>> = vec![Vec::new()];
    let mut last = all.clone();
    for _ in 0..lines.len() {
        last = last
            .iter()
            .flat_map(|start| lines.iter().map(|line| [&start[..], line].concat()))
            .collect();
        all.extend(last.clone());
    }
    all
}

/// Every byte replaced by every other, removed, and with an end, a return or a
/// digit before it; and the listing cut before it.
fn one_byte_replaced(listing: &[u8]) -> Vec<Vec<u8>> {
    let mut listings = Vec::new();
    for place in 0..listing.len() {
        let (start, rest) = listing.split_at(place);
        listings.push(start.to_vec());
        listings.push([start, &rest[1..]].concat());
        listings.extend(b"\n\r0".map(|byte| [start, &[byte], rest].concat()));
        listings.extend((0..=255).map(|byte| [start, &[byte], &rest[1..]].concat()));
    }
    listings
}

#[cfg(test)]
mod tests {
    use super::*;
    use crate::listing::{read, Listing};

    const EACH: usize = 2_000;

    fn made(sort: Sort) -> Vec<Vec<u8>> {
        let mut random = Random::new(sort as u64);
        (0..EACH).map(|_| of_sort(&mut random, sort)).collect()
    }

    /// How many of them have no bad line.
    fn wholes(listings: &[Vec<u8>]) -> usize {
        listings.iter().filter(|listing| read(listing).bad.is_none()).count()
    }

    #[test]
    fn whole_listings_are_whole() {
        for sort in [Whole, Empty] {
            assert_eq!(wholes(&made(sort)), EACH, "{sort:?}");
        }
    }

    /// Of none, one and many lines, and with and without each kind.
    #[test]
    fn whole_listings_are_of_every_size() {
        let (mut lines, mut kinds) = ([0; 4], [0; 4]);
        let mut longest = 0;
        for listing in made(Whole) {
            let Listing { manifest, objects, .. } = read(&listing);
            let count = listing.split_inclusive(|byte| *byte == b'\n').count();
            lines[count.min(3)] += 1;
            kinds[usize::from(manifest.is_some()) + 2 * usize::from(objects > 0)] += 1;
            longest = longest.max(count);
        }
        assert!(lines.iter().all(|times| *times > 20), "{lines:?}");
        assert!(kinds.iter().all(|times| *times > 20), "{kinds:?}");
        assert!(longest > 200, "{longest}");
    }

    #[test]
    fn damage_that_makes_a_line_bad_always_does() {
        for sort in SORTS {
            match sort {
                Whole | Empty | Shuffled | Cut | ByteChanged | ByteInserted | ByteRemoved => {}
                // No byte at all is a whole listing.
                RandomBytes => assert!(wholes(&made(sort)) < EACH / 50),
                _ => assert_eq!(wholes(&made(sort)), 0, "{sort:?}"),
            }
        }
    }

    /// A digit changed, the lines shuffled into order, and a cut behind a line.
    #[test]
    fn other_damage_leaves_some_listings_whole() {
        for sort in [Shuffled, Cut, ByteChanged] {
            let whole = wholes(&made(sort));
            assert!((20..EACH - 20).contains(&whole), "{sort:?}: {whole}");
        }
    }

    #[test]
    fn too_large_numbers_have_twenty_digits() {
        let mut random = Random::new(1);
        for _ in 0..1_000 {
            let digits = too_large(&mut random).to_string();
            assert!(digits.len() == 20 && digits.parse::<u64>().is_err(), "{digits}");
        }
    }

    #[test]
    fn every_sort_is_made() {
        let mut seed = Random::new(2);
        let mut times = [0; SORTS.len()];
        for _ in 0..20_000 {
            times[random(&mut seed).0 as usize] += 1;
        }
        assert!(times.iter().all(|times| *times > 500), "{times:?}");
        assert!(SORTS.iter().enumerate().all(|(place, sort)| place == *sort as usize));
    }
}
