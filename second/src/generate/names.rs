//! Names for comparisons of name readers, well formed and damaged: document
//! 01, the paragraph that begins "A manifest's name is", with the folders of
//! document 02, request 5.

use crate::random::Random;

/// The folder and the suffix of a manifest's name and of an object's.
const KINDS: [(&str, &str); 2] = [("manifest/", ".manifest"), ("wal/", ".sst")];
/// Folders of both kinds, which cross where the suffix is the other's, and
/// others that belong to no kind.
const FOLDERS: [&str; 14] = [
    "manifest/",
    "wal/",
    "",
    "/",
    "wal",
    "manifest",
    "WAL/",
    "MANIFEST/",
    "wal/wal/",
    "manifest/manifest/",
    "manifest/wal/",
    "wal/manifest/",
    "/wal/",
    "./manifest/",
];
/// Some bytes more than the longest name, which has 38.
const LONGEST: usize = 48;

/// Twenty digits between a folder and a suffix.
fn text(folder: &str, value: impl std::fmt::Display, suffix: &str) -> Vec<u8> {
    format!("{folder}{value:0>20}{suffix}").into_bytes()
}

/// The values where the number of digits, or of bits, changes.
pub fn edge_values() -> Vec<u64> {
    let tens = (0..20).map(|power| 10_u64.pow(power));
    let twos = (0..64).map(|power| 1_u64 << power);
    let around = |value: u64| [value - 1, value, value + 1];
    let edges = tens.chain(twos).flat_map(around);
    edges.chain([u64::MAX - 1, u64::MAX]).collect()
}

/// The names that every comparison starts with.
pub fn fixed() -> Vec<Vec<u8>> {
    let mut names = Vec::new();
    for (folder, suffix) in KINDS {
        names.extend(edge_values().into_iter().map(|value| text(folder, value, suffix)));
        for digits in [
            "18446744073709551616",
            "18446744073709551620",
            "20000000000000000000",
            "99999999999999999999",
        ] {
            names.push(text(folder, digits, suffix));
        }
        for value in ["12345678909876543210", "18446744073709551615", "1", "0"] {
            let name = text(folder, value, suffix);
            names.extend(one_byte_replaced(&name));
            names.extend((0..=name.len()).map(|length| name[..length].to_vec()));
            names.extend((0..=name.len()).map(|start| name[start..].to_vec()));
            names.extend(FOLDERS.map(|folder| text(folder, value, suffix)));
        }
    }
    for length in 0..=LONGEST {
        names.extend([b'0', b'9', b'.', b'/', 0, 0xFF].map(|byte| vec![byte; length]));
        for (folder, suffix) in KINDS {
            let mut lengthened = text(folder, 7, suffix);
            lengthened.resize(length, b'0');
            names.push(lengthened);
        }
    }
    names
}

/// Every byte of the name replaced by every other.
fn one_byte_replaced(name: &[u8]) -> Vec<Vec<u8>> {
    let mut names = Vec::new();
    for place in 0..name.len() {
        for byte in 0..=255 {
            let mut other = name.to_vec();
            other[place] = byte;
            names.push(other);
        }
    }
    names
}

/// A well-formed name most often, else a damaged one or random bytes.
pub fn random(random: &mut Random) -> Vec<u8> {
    let (folder, suffix) = random.pick(&KINDS);
    let value = match random.below(4) {
        0 => random.pick(&[0, 1, u64::MAX]),
        _ => random.magnitude(),
    };
    let name = text(folder, value, suffix);
    match random.below(10) {
        0..=2 => name,
        3 => (0..random.index(LONGEST + 1)).map(|_| random.any() as u8).collect(),
        4 => digits(random, folder, suffix),
        5 | 6 => [other_folder(random, folder), name[folder.len()..].to_vec()].concat(),
        _ => {
            let once = damage(random, &name);
            match random.below(3) {
                0 => damage(random, &once),
                _ => once,
            }
        }
    }
}

/// Twenty random digits, half of them above the largest value, at times with
/// the wrong number of digits.
fn digits(random: &mut Random, folder: &str, suffix: &str) -> Vec<u8> {
    let count = random.pick(&[19, 20, 20, 20, 20, 21]);
    let mut digits: Vec<u8> = (0..count).map(|_| b'0' + random.below(10) as u8).collect();
    if random.once_in(2) {
        // Close to the largest value, 18446744073709551615, on both sides.
        digits.splice(..16, b"1844674407370955".iter().copied());
    }
    [folder.as_bytes(), &digits, suffix.as_bytes()].concat()
}

/// In the folder's place nothing, a folder of either kind, or the folder
/// doubled, in upper case, cut, lengthened or with one byte changed.
fn other_folder(random: &mut Random, folder: &str) -> Vec<u8> {
    let mut bytes = folder.as_bytes().to_vec();
    let place = random.index(bytes.len());
    match random.below(8) {
        0 => bytes.clear(),
        1 => bytes = random.pick(&FOLDERS).into(),
        2 => bytes = folder.repeat(2).into(),
        3 => bytes.make_ascii_uppercase(),
        4 => bytes.truncate(place),
        5 => {
            bytes.drain(..=place);
        }
        6 => bytes.insert(place, random.pick(b"./0awm \x00\xFF")),
        _ => bytes[place] ^= 1 << random.below(8),
    }
    bytes
}

fn damage(random: &mut Random, name: &[u8]) -> Vec<u8> {
    let mut bytes = name.to_vec();
    let place = random.index(bytes.len().max(1));
    if bytes.is_empty() {
        return bytes;
    }
    match random.below(8) {
        0 => bytes[place] ^= 1 << random.below(8),
        1 => bytes[place] = random.any() as u8,
        2 => bytes.truncate(place),
        3 => bytes.extend((0..1 + random.below(5)).map(|_| random.any() as u8)),
        4 => bytes.insert(place, random.pick(b"0019.+-")),
        5 => {
            let digits_end = bytes.iter().position(|byte| *byte == b'.').unwrap_or(bytes.len());
            bytes.truncate(digits_end);
            bytes.extend_from_slice(random.pick(&[".sst", ".manifest", ".ssT", ""]).as_bytes());
        }
        6 => bytes[place] = random.pick(b"./:;+- \x00\xFF"),
        _ => {
            bytes.remove(place);
        }
    }
    bytes
}

#[cfg(test)]
mod tests {
    use super::*;
    use crate::names::{read, write, Name};

    #[test]
    fn generated_names_are_of_every_sort() {
        let mut seed = Random::new(4);
        let mut count = [0; 3];
        let mut lengths = [0; LONGEST + 1];
        let random = (0..50_000).map(|_| random(&mut seed));
        for name in fixed().into_iter().chain(random) {
            let read = read(&name);
            count[match read {
                Some(Name::Manifest(_)) => 0,
                Some(Name::Object(_)) => 1,
                None => 2,
            }] += 1;
            if let Some(read) = read {
                assert_eq!(write(read), Some(name.clone()));
            }
            if let Some(times) = lengths.get_mut(name.len()) {
                *times += 1;
            }
        }
        assert!(count.iter().all(|&times| times > 5000), "{count:?}");
        assert!(lengths.iter().all(|&times| times > 5), "{lengths:?}");
    }

    /// What stands before twenty digits and a suffix, and the two folders that
    /// the suffix asks for and does not.
    fn folders(name: &[u8]) -> Option<(&[u8], [&'static str; 2])> {
        let [manifest, object] = KINDS;
        for ((own, suffix), (other, _)) in [(manifest, object), (object, manifest)] {
            let Some(rest) = name.strip_suffix(suffix.as_bytes()) else { continue };
            let (folder, digits) = rest.split_at_checked(rest.len().checked_sub(20)?)?;
            return digits.iter().all(u8::is_ascii_digit).then_some((folder, [own, other]));
        }
        None
    }

    fn sort(folder: &[u8], [own, other]: [&str; 2]) -> &'static str {
        let (own, other) = (own.as_bytes(), other.as_bytes());
        let changed = folder.iter().zip(own).filter(|(one, other)| one != other).count();
        match folder {
            b"" => "none",
            _ if folder == own => "own",
            _ if folder == other => "crossed",
            _ if folder == own.repeat(2) => "doubled",
            _ if folder == own.to_ascii_uppercase() => "upper case",
            _ if folder.len() == own.len() && changed == 1 => "one byte changed",
            _ if own.starts_with(folder) => "cut at its end",
            _ if own.ends_with(folder) => "cut at its start",
            _ if folder.len() == own.len() + 1 => "lengthened",
            _ => "another",
        }
    }

    #[test]
    fn generated_names_have_folders_of_every_sort() {
        let mut seed = Random::new(5);
        let mut sorts = std::collections::BTreeMap::new();
        for _ in 0..50_000 {
            let name = random(&mut seed);
            if let Some((folder, asked)) = folders(&name) {
                let times: &mut usize = sorts.entry(sort(folder, asked)).or_default();
                *times += 1;
                assert!(*folder == *asked[0].as_bytes() || read(&name).is_none());
            }
        }
        assert_eq!(sorts.len(), 10, "{sorts:?}");
        assert!(sorts.values().all(|times| *times > 200), "{sorts:?}");
    }
}
