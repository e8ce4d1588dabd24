//! The limits of document 01 as request 4 of document 02 raises them, each in
//! this place alone, and the lengths that follow from them.

/// How many occupancy words a ledger has.
pub const WORDS: usize = 4;
/// How many places an occupancy word tells of: its bits.
pub const WORD: usize = u64::BITS as usize;
/// The most objects a ledger stores, and so the longest collected list.
pub const PLACES: usize = WORDS * WORD;
/// The longest list of a manifest.
pub const NAMES: usize = 64;
/// The most manifests kept.
pub const MANIFESTS: usize = 9;
/// The most holds kept.
pub const HOLDS: usize = 8;

/// The bytes of an accepted COLLECT's verdict beside its names: the header, the
/// code's field and the list's header.
pub const COLLECTED: usize = 3 + 4 + 3;
/// The bytes of a COMMIT beside its names: the header, the fields of three
/// numbers and the list's header.
pub const COMMIT: usize = 3 + 3 * 11 + 3;
/// The bytes of a name in a list.
pub const NAME: usize = 8;
/// The longest verdict is COLLECT's, the longest step COMMIT's.
pub const LONGEST_VERDICT: usize = COLLECTED + NAME * PLACES;
pub const LONGEST_STEP: usize = COMMIT + NAME * NAMES;

/// The bytes of a field's tag and length.
pub const HEADER: usize = 3;
/// The bytes of an image beside its entries: the header, and the fields of the
/// edition and of two numbers.
pub const IMAGE: usize = HEADER + HEADER + 1 + 2 * (HEADER + 8);
/// The bytes of an object's value in an image (place, object, role, epoch,
/// currency, named), of a manifest's beside its names, and of a hold's.
pub const OBJECT_VALUE: usize = 1 + 8 + 1 + 8 + 2 + 1;
pub const MANIFEST_VALUE: usize = 8 + 8 + 8;
pub const HOLD_VALUE: usize = 8 + 8 + 8;
/// The longest image has as many entries and names as there are places.
pub const LONGEST_IMAGE: usize = IMAGE
    + PLACES * (HEADER + OBJECT_VALUE)
    + MANIFESTS * (HEADER + MANIFEST_VALUE + NAME * NAMES)
    + HOLDS * (HEADER + HOLD_VALUE);

/// The two limits that request 4 raises, as a value: traces are also run at
/// the old ones.
#[derive(Debug, Clone, Copy, PartialEq, Eq)]
pub struct Limits {
    pub places: usize,
    pub names: usize,
}

impl Limits {
    pub const NOW: Limits = Limits { places: PLACES, names: NAMES };
    /// Those of document 01.
    pub const OLD: Limits = Limits { places: 64, names: 16 };
}

#[cfg(test)]
mod tests {
    use super::*;

    #[test]
    fn the_limits_are_those_of_the_documents() {
        assert_eq!(Limits::NOW, Limits { places: 256, names: 64 });
        assert_eq!((MANIFESTS, HOLDS), (9, 8));
        assert_eq!((LONGEST_VERDICT, LONGEST_STEP), (2058, 551));
        assert_eq!((OBJECT_VALUE, MANIFEST_VALUE, HOLD_VALUE), (21, 24, 24));
        assert_eq!(LONGEST_IMAGE, 11_240);
    }
}
