//! Comparison of two listing readers, given as functions: document 02, request
//! 5.
//!
//! Both sides keep the calling convention of the proved library's C call: what
//! a listing says is four numbers, of which also those beyond and beside them
//! are compared.

use std::collections::BTreeMap;

use crate::compare::records::lent;
use crate::compare::{count, Answers, MARGIN};
use crate::generate::listings::{self, Sort};
use crate::listing::{self, Listing};
use crate::random::Random;

/// How many numbers say what a listing says.
pub const LISTING: usize = 4;
/// The answers where no line is bad, where one is, and where too few numbers
/// are lent.
pub const WHOLE: u64 = 0;
pub const BAD: u64 = 1;
pub const SHORT: u64 = 3;

/// 0 where no line is bad, 1 where one is, with four numbers: whether there is
/// a manifest, the highest one, the number of objects and the first bad line;
/// 3 where too few are lent.
pub fn read_listing(bytes: &[u8], numbers: &mut [u64]) -> u64 {
    let Some(room) = numbers.get_mut(..LISTING) else {
        return SHORT;
    };
    let Listing { manifest, objects, bad } = listing::read(bytes);
    let found = u64::from(manifest.is_some());
    room.copy_from_slice(&[found, manifest.unwrap_or(0), objects, bad.unwrap_or(0)]);
    match bad {
        None => WHOLE,
        Some(_) => BAD,
    }
}

pub type ReadCall = fn(&[u8], &mut [u64]) -> u64;

/// Where among a listing's lines the first bad one stands.
#[derive(Debug, Clone, Copy, PartialEq, Eq, PartialOrd, Ord)]
pub enum Place {
    Only,
    First,
    Middle,
    Last,
}

/// What was compared, and what was answered.
#[derive(Debug, Clone, Default)]
pub struct Counts {
    /// The fixed listings and the random ones.
    pub listings: usize,
    /// The random ones, by how they were made.
    pub sorts: BTreeMap<Sort, usize>,
    pub answers: Answers,
    /// Listings without a manifest, and with one.
    pub manifests: Answers,
    /// By the number of objects.
    pub objects: Answers,
    /// By the first bad line, and by where it stands.
    pub bad: Answers,
    pub places: BTreeMap<Place, usize>,
}

impl Counts {
    /// Counts what both sides answered, with the numbers lent.
    fn answered(&mut self, listing: &[u8], answer: u64, numbers: &[u64]) {
        self.listings += 1;
        count(&mut self.answers, answer);
        let [found, _, objects, bad, ..] = *numbers else {
            return;
        };
        count(&mut self.manifests, found);
        count(&mut self.objects, objects);
        if answer == BAD {
            count(&mut self.bad, bad);
            *self.places.entry(place(listing, bad)).or_default() += 1;
        }
    }
}

fn place(listing: &[u8], bad: u64) -> Place {
    let lines = listing.split_inclusive(|byte| *byte == b'\n').count() as u64;
    match (bad, bad + 1 == lines) {
        (0, true) => Place::Only,
        (0, false) => Place::First,
        (_, false) => Place::Middle,
        (_, true) => Place::Last,
    }
}

/// Compares two readers on the fixed listings and on `random_listings` others;
/// the error describes the first difference.
pub fn compare_reads(
    random: &mut Random,
    random_listings: usize,
    first: ReadCall,
    second: ReadCall,
) -> Result<Counts, String> {
    let mut counts = Counts::default();
    for listing in listings::fixed() {
        let (answer, numbers) = compare_read(random, &listing, first, second)?;
        counts.answered(&listing, answer, &numbers);
    }
    for _ in 0..random_listings {
        let (sort, listing) = listings::random(random);
        let (answer, numbers) = compare_read(random, &listing, first, second)
            .map_err(|difference| format!("{sort:?}: {difference}"))?;
        counts.answered(&listing, answer, &numbers);
        *counts.sorts.entry(sort).or_default() += 1;
    }
    Ok(counts)
}

/// Compares two readers on one listing; the answer and the numbers lent.
fn compare_read(
    random: &mut Random,
    listing: &[u8],
    first: ReadCall,
    second: ReadCall,
) -> Result<(u64, Vec<u64>), String> {
    let (lent, pattern) = (lent(random, LISTING), random.any());
    let call = |read: ReadCall| {
        let mut numbers = vec![pattern; lent + 2 * MARGIN];
        let answer = read(listing, &mut numbers[MARGIN..MARGIN + lent]);
        (answer, numbers)
    };
    let (one, other) = (call(first), call(second));
    if one != other {
        return Err(format!(
            "listing \"{}\", {lent} numbers filled with {pattern}: \
             first {one:?}, second {other:?}",
            listing.escape_ascii()
        ));
    }
    Ok((one.0, one.1[MARGIN..MARGIN + lent].to_vec()))
}

#[cfg(test)]
mod tests;
