//! A listing of the store's bucket, and the program that reads one: document
//! 02, request 5.

use crate::names::{self, Name};

/// The longest listing that the program reads.
pub const LONGEST_LISTING: usize = 65_536;
/// The byte that ends a line.
const END: u8 = 0x0A;

/// What a listing says.
#[derive(Debug, Clone, Copy, PartialEq, Eq)]
pub struct Listing {
    /// The highest manifest number before the first bad line.
    pub manifest: Option<u64>,
    /// How many objects are listed before the first bad line.
    pub objects: u64,
    /// The first bad line, counted from 0.
    pub bad: Option<u64>,
}

/// Reads all the bytes as one listing.
pub fn read(bytes: &[u8]) -> Listing {
    let lines: Vec<&[u8]> = bytes.split_inclusive(|byte| *byte == END).collect();
    let bad = (0..lines.len()).find(|place| is_bad(&lines, *place));
    let before = &lines[..bad.unwrap_or(lines.len())];
    let names = || before.iter().filter_map(|line| name(line));
    // The highest, whatever the order: that the lines rise plays no part here.
    let manifests = names().filter_map(|name| match name {
        Name::Manifest(number) => Some(number),
        Name::Object(_) => None,
    });
    Listing {
        manifest: manifests.max(),
        objects: names().filter(|name| matches!(name, Name::Object(_))).count() as u64,
        bad: bad.map(|place| place as u64),
    }
}

/// The name in a line, which its end must follow.
fn name(line: &[u8]) -> Option<Name> {
    names::read(line.strip_suffix(&[END])?)
}

/// "A line is bad if it isn't a name, lacks 0A, or isn't above its predecessor
/// in byte order"; the first line has none.
fn is_bad(lines: &[&[u8]], place: usize) -> bool {
    let rises = place == 0 || lines[place] > lines[place - 1];
    name(lines[place]).is_none() || !rises
}

/// What the program prints for that input.
pub fn list_bucket(input: &[u8]) -> String {
    if input.len() > LONGEST_LISTING {
        return "too long\n".to_string();
    }
    let Listing { manifest, objects, bad } = read(input);
    let manifest = manifest.map_or("no manifest".to_string(), |it| format!("manifest {it}"));
    let bad = bad.map_or("whole".to_string(), |line| format!("bad {line}"));
    format!("{manifest}\nobjects {objects}\n{bad}\n")
}

#[cfg(test)]
mod tests;
