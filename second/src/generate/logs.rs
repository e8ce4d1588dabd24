//! Traces with logs of another maker, of an image's ledger or of the fresh one:
//! our own run's log, and damaged: document 02, request 12.

mod bases;
mod images;
mod records;
mod verdicts;

use super::guided::Guide;
use super::images::Source as Images;
use super::measured;
use crate::ledger::Ledger;
use crate::limits::Limits;
use crate::random::Random;
use bases::Base;

/// How image, trace and log were made of those that agree.
#[derive(Debug, Clone, Copy, PartialEq, Eq, PartialOrd, Ord)]
pub enum Sort {
    Whole,
    /// The log's bytes, whatever they say.
    LogCut,
    BitChanged,
    ByteChanged,
    ByteInserted,
    ByteRemoved,
    LengthOff,
    TornAppended,
    EmptyLog,
    RandomBytes,
    /// Whole verdicts of the log.
    VerdictsMissing,
    VerdictLeftOut,
    VerdictDoubled,
    NeighboursExchanged,
    FarExchanged,
    RefusalAppended,
    VerdictAppended,
    ContentsChanged,
    AcceptedAsRefused,
    RefusedAsAccepted,
    OtherRefusal,
    LogOfAnother,
    RandomVerdicts,
    /// The trace, with the log kept.
    EmptyTrace,
    TraceCut,
    TraceLengthened,
    RecordLeftOut,
    RecordDoubled,
    RecordsExchanged,
    RecordChanged,
    /// A torn trace, with the verdicts of its whole records, with one more, and
    /// with a log that is damaged, too.
    TraceTorn,
    TraceTornOneMore,
    TraceTornDamaged,
    /// The image, with trace and log kept, or damaged too where it is refused.
    ImageDropped,
    ImageAdded,
    ImageLater,
    ImageOneByte,
    ImageMalformed,
    ImageUnsound,
}

use Sort::*;

/// The answers: all agree, the image's refusals, and a difference.
const AGREE: u64 = 0;
const UNSOUND: u64 = 1;
const MALFORMED: u64 = 2;
const DIFFERS: u64 = 4;

const EITHER: &[u64] = &[AGREE, DIFFERS];

/// Each with the answers that it can have. Of what was exchanged, or put in
/// another's place, both may be the same.
pub const SORTS: [(Sort, &[u64]); 39] = [
    (Whole, &[AGREE]),
    (LogCut, &[DIFFERS]),
    (BitChanged, &[DIFFERS]),
    (ByteChanged, &[DIFFERS]),
    (ByteInserted, &[DIFFERS]),
    (ByteRemoved, &[DIFFERS]),
    (LengthOff, &[DIFFERS]),
    (TornAppended, &[DIFFERS]),
    (EmptyLog, EITHER),
    (RandomBytes, &[DIFFERS]),
    (VerdictsMissing, &[DIFFERS]),
    (VerdictLeftOut, &[DIFFERS]),
    (VerdictDoubled, &[DIFFERS]),
    (NeighboursExchanged, EITHER),
    (FarExchanged, EITHER),
    (RefusalAppended, &[DIFFERS]),
    (VerdictAppended, &[DIFFERS]),
    (ContentsChanged, &[DIFFERS]),
    (AcceptedAsRefused, &[DIFFERS]),
    (RefusedAsAccepted, &[DIFFERS]),
    (OtherRefusal, &[DIFFERS]),
    (LogOfAnother, EITHER),
    (RandomVerdicts, EITHER),
    (EmptyTrace, EITHER),
    (TraceCut, &[DIFFERS]),
    (TraceLengthened, &[DIFFERS]),
    (RecordLeftOut, &[DIFFERS]),
    (RecordDoubled, &[DIFFERS]),
    (RecordsExchanged, EITHER),
    (RecordChanged, EITHER),
    (TraceTorn, &[DIFFERS]),
    (TraceTornOneMore, &[DIFFERS]),
    (TraceTornDamaged, &[DIFFERS]),
    (ImageDropped, EITHER),
    (ImageAdded, EITHER),
    (ImageLater, EITHER),
    (ImageOneByte, &[MALFORMED]),
    (ImageMalformed, &[MALFORMED]),
    (ImageUnsound, &[UNSOUND]),
];

/// What a checker is asked: no bytes of an image are the fresh ledger.
#[derive(Debug, Clone, PartialEq, Eq)]
pub struct Asked {
    pub image: Vec<u8>,
    pub trace: Vec<u8>,
    pub log: Vec<u8>,
}

/// Traces from several ledgers, and what is made of each and of its log.
#[derive(Debug, Clone)]
pub struct Source {
    guide: Guide,
    images: Images,
    /// A ledger with as much of all as there may be.
    longest: Ledger,
    base: Base,
    /// The one before it, whose log is another's.
    before: Base,
    left: usize,
}

/// How much is made of one trace.
const OF_ONE: usize = 12;

impl Source {
    pub fn new(seed: u64) -> Self {
        Source {
            guide: Guide::new(seed),
            images: Images::new(seed + 1),
            longest: measured::full(Limits::NOW, [756, 978]),
            base: Base::empty(),
            before: Base::empty(),
            left: 0,
        }
    }

    /// Image, trace and log of any sort, and of which.
    pub fn asked(&mut self, random: &mut Random) -> (Sort, Asked) {
        if self.left == 0 {
            self.turn(random);
            self.left = OF_ONE;
        }
        self.left -= 1;
        loop {
            // Whole ones are wanted more often than each other sort.
            let sort = if random.once_in(8) { Whole } else { random.pick(&SORTS).0 };
            if let Some(asked) = self.of_sort(random, sort) {
                return (sort, asked);
            }
        }
    }

    /// `None` where the trace has too little to be damaged so.
    fn of_sort(&mut self, random: &mut Random, sort: Sort) -> Option<Asked> {
        let base = &self.base;
        match sort {
            Whole => Some(base.asked()),
            LogOfAnother => Some(Asked { log: self.before.verdicts.concat(), ..base.asked() }),
            EmptyTrace | TraceCut | TraceLengthened | RecordLeftOut | RecordDoubled
            | RecordsExchanged | RecordChanged | TraceTorn | TraceTornOneMore
            | TraceTornDamaged => records::of_sort(random, sort, base),
            ImageDropped | ImageAdded | ImageLater | ImageOneByte | ImageMalformed
            | ImageUnsound => images::of_sort(random, sort, base, &mut self.images),
            _ => Some(Asked { log: verdicts::log(random, sort, &base.verdicts)?, ..base.asked() }),
        }
    }
}

#[cfg(test)]
mod tests;
