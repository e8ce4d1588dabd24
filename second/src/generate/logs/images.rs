//! Other images than the one that the trace starts from.

use super::bases::{image_of, Base};
use super::{records, verdicts, Asked, Sort, MALFORMED, UNSOUND};
use crate::generate::images::{self, Source};
use crate::image;
use crate::random::Random;
use crate::run::run;

/// `None` where there is too little to be damaged so.
pub fn of_sort(random: &mut Random, sort: Sort, base: &Base, source: &mut Source) -> Option<Asked> {
    let kept = base.asked();
    let image = match sort {
        Sort::ImageDropped if base.image.is_empty() => return None,
        Sort::ImageDropped => Vec::new(),
        Sort::ImageAdded if !base.image.is_empty() => return None,
        Sort::ImageAdded => image::write(&source.ledger(random)).expect("the ledger is sound"),
        Sort::ImageLater if base.records.is_empty() => return None,
        Sort::ImageLater => later(random, base),
        Sort::ImageOneByte => vec![random.any() as u8],
        Sort::ImageMalformed => refused(random, base, MALFORMED),
        _ => refused(random, base, UNSOUND),
    };
    let refused = matches!(sort, Sort::ImageOneByte | Sort::ImageMalformed | Sort::ImageUnsound);
    let asked = if refused { damaged_too(random, base, kept) } else { kept };
    Some(Asked { image, ..asked })
}

/// The image of the ledger that some of the first records lead to.
fn later(random: &mut Random, base: &Base) -> Vec<u8> {
    let count = 1 + random.index(base.records.len());
    let first = base.records[..count].concat();
    image_of(&run(&base.start, &first, usize::MAX).ledger)
}

/// The start's image damaged in a way that is always given that refusal.
fn refused(random: &mut Random, base: &Base, refusal: u64) -> Vec<u8> {
    let sorts = images::SORTS.iter().filter(|(_, answers)| *answers == [refusal]);
    let sorts: Vec<images::Sort> = sorts.map(|(sort, _)| *sort).collect();
    let image = base.start_image();
    loop {
        let sort = random.pick(&sorts);
        // No bytes would be no image.
        let damaged = images::of_sort(random, sort, &image).filter(|bytes| !bytes.is_empty());
        if let Some(damaged) = damaged {
            return damaged;
        }
    }
}

/// Whatever trace and log say plays no part once the image is refused.
fn damaged_too(random: &mut Random, base: &Base, kept: Asked) -> Asked {
    match random.below(4) {
        0 => Asked { log: verdicts::any(random, &base.verdicts), ..kept },
        1 => records::of_sort(random, Sort::TraceTorn, base).unwrap_or(kept),
        _ => kept,
    }
}
