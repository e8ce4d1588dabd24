//! Ledgers and images for comparisons of image codecs, sound and damaged:
//! document 02, request 6.

mod bytes;
mod fields;
pub mod ledgers;

use super::guided::Guide;
use super::{measured, stocked};
use crate::compare::ledgers::high;
use crate::image;
use crate::ledger::Ledger;
use crate::limits::Limits;
use crate::random::Random;
use crate::raw::{raw, Raw};
use crate::records::{field, split_record};

/// How an image was made of a sound ledger's.
#[derive(Debug, Clone, Copy, PartialEq, Eq, PartialOrd, Ord)]
pub enum Sort {
    Whole,
    /// Of bytes, whatever they say.
    ByteChanged,
    Cut,
    CutMended,
    Lengthened,
    LengthenedMended,
    OuterTag,
    OuterLength,
    InnerLength,
    Short,
    RandomBytes,
    /// Of whole fields.
    FieldsSwapped,
    FieldDoubled,
    FieldDropped,
    FieldMoved,
    FieldRetagged,
    FieldResized,
    HeadFieldWrong,
    /// Of values, where they break the form.
    OtherEdition,
    OtherFlag,
    PlacesNotRising,
    TooMany,
    FormBeforeSoundness,
    /// Of values, where they are a matter of soundness.
    AsManyAsPlaces,
    PlacesSpread,
    MarkTurned,
    ZeroEntry,
    AllZero,
    LargeCurrency,
    ZeroNumber,
    ListNotRising,
    EntriesSwapped,
    NoManifest,
    NumberChanged,
}

use Sort::*;

/// Each with the answers that it can have.
pub const SORTS: [(Sort, &[u64]); 34] = [
    (Whole, &[0]),
    (ByteChanged, &[0, 1, 2]),
    (Cut, &[2]),
    (CutMended, &[0, 1, 2]),
    (Lengthened, &[2]),
    (LengthenedMended, &[2]),
    (OuterTag, &[2]),
    (OuterLength, &[2]),
    (InnerLength, &[2]),
    (Short, &[2]),
    (RandomBytes, &[2]),
    (FieldsSwapped, &[1, 2]),
    (FieldDoubled, &[1, 2]),
    (FieldDropped, &[0, 1, 2]),
    (FieldMoved, &[1, 2]),
    (FieldRetagged, &[1, 2]),
    (FieldResized, &[0, 1, 2]),
    (HeadFieldWrong, &[2]),
    (OtherEdition, &[2]),
    (OtherFlag, &[2]),
    (PlacesNotRising, &[2]),
    (TooMany, &[2]),
    (FormBeforeSoundness, &[2]),
    (AsManyAsPlaces, &[0, 1]),
    (PlacesSpread, &[0]),
    (MarkTurned, &[0, 1]),
    (ZeroEntry, &[1]),
    (AllZero, &[0, 1]),
    (LargeCurrency, &[1]),
    (ZeroNumber, &[1]),
    (ListNotRising, &[1]),
    (EntriesSwapped, &[1]),
    (NoManifest, &[1]),
    (NumberChanged, &[0, 1]),
];

/// The fields of an image, each with its tag and value.
pub type Fields = Vec<(u8, Vec<u8>)>;

/// The fields of bytes that are an image.
pub fn split(image: &[u8]) -> Fields {
    let (_, fields) = split_record(image).expect("it is an image");
    fields.into_iter().map(|(tag, value)| (tag, value.to_vec())).collect()
}

/// Under the outer tag, with an outer length that agrees with them.
pub fn joined(fields: &Fields) -> Vec<u8> {
    let inner: Vec<Vec<u8>> = fields.iter().map(|(tag, value)| field(*tag, value)).collect();
    field(image::OUTER, &inner.concat())
}

/// Sound ledgers from several sources, and images that are made of theirs.
#[derive(Debug, Clone)]
pub struct Source {
    guide: Guide,
    guided: Ledger,
    longest: Raw,
    image: Vec<u8>,
    left: usize,
}

/// How many images are made of one ledger's.
const OF_ONE: usize = 6;

impl Source {
    pub fn new(seed: u64) -> Self {
        let longest = raw(&measured::full(Limits::NOW, [756, 978]));
        let (guide, guided) = (Guide::new(seed), Ledger::fresh());
        Source { guide, guided, longest, image: Vec::new(), left: 0 }
    }

    /// A sound ledger, most often a small one.
    pub fn ledger(&mut self, random: &mut Random) -> Raw {
        match random.below(24) {
            0 => raw(&Ledger::fresh()),
            1 => raw(&high(random)),
            2 => Raw { clock: random.magnitude(), ..self.longest.clone() },
            3 | 4 => raw(&stocked::ledger(random)),
            5..=9 => raw(&self.guided(random)),
            _ => raw(&stocked::sized(random, 8, 4)),
        }
    }

    /// The ledger some guided steps later; at times they begin again.
    fn guided(&mut self, random: &mut Random) -> Ledger {
        if random.once_in(200) {
            self.guided = Ledger::fresh();
        }
        for _ in 0..1 + random.below(30) {
            let step = self.guide.next(&self.guided);
            self.guided.step(&step);
        }
        self.guided.clone()
    }

    /// An image of any sort, and of which.
    pub fn image(&mut self, random: &mut Random) -> (Sort, Vec<u8>) {
        // Whole ones are wanted more often than each other sort.
        let sort = if random.once_in(8) { Whole } else { random.pick(&SORTS).0 };
        loop {
            if self.left == 0 {
                self.image = image::write(&self.ledger(random)).expect("the ledger is sound");
                self.left = OF_ONE;
            }
            self.left -= 1;
            if let Some(image) = of_sort(random, sort, &self.image) {
                return (sort, image);
            }
        }
    }
}

/// `None` where the image has too little to be damaged so.
pub fn of_sort(random: &mut Random, sort: Sort, image: &[u8]) -> Option<Vec<u8>> {
    match sort {
        Whole => Some(image.to_vec()),
        ByteChanged | Cut | CutMended | Lengthened | LengthenedMended | OuterTag | OuterLength
        | InnerLength | Short | RandomBytes => Some(bytes::of_sort(random, sort, image)),
        _ => {
            let mut fields = split(image);
            fields::change(random, sort, &mut fields)?;
            Some(joined(&fields))
        }
    }
}

#[cfg(test)]
mod tests;
