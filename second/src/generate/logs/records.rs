//! Traces that are damaged, most often with the log that was right before.

use super::bases::Base;
use super::{verdicts, Asked, Sort};
use crate::random::Random;

/// `None` where there is too little to be damaged so.
pub fn of_sort(random: &mut Random, sort: Sort, base: &Base) -> Option<Asked> {
    let mut asked = base.asked();
    match sort {
        Sort::EmptyTrace => asked.trace.clear(),
        Sort::TraceLengthened => asked.trace.extend(more(random)),
        _ if base.records.is_empty() => return None,
        Sort::TraceCut => asked.trace.truncate(random.index(asked.trace.len())),
        Sort::RecordChanged => {
            let place = random.index(asked.trace.len());
            asked.trace[place] ^= 1 << random.below(8);
        }
        Sort::TraceTorn | Sort::TraceTornOneMore | Sort::TraceTornDamaged => {
            return Some(torn(random, sort, base));
        }
        _ => asked.trace = changed(random, sort, base.records.clone())?.concat(),
    }
    Some(asked)
}

/// Bytes behind the trace: most often they are torn, else a record or more.
fn more(random: &mut Random) -> Vec<u8> {
    match random.below(4) {
        0 => vec![0; 3 + random.index(9)],
        1 => vec![random.any() as u8],
        _ => (0..1 + random.index(12)).map(|_| random.any() as u8).collect(),
    }
}

fn changed(random: &mut Random, sort: Sort, mut records: Vec<Vec<u8>>) -> Option<Vec<Vec<u8>>> {
    let place = random.index(records.len());
    match sort {
        Sort::RecordLeftOut => drop(records.remove(place)),
        Sort::RecordDoubled => records.insert(place, records[place].clone()),
        _ if records.len() < 2 => return None,
        // Beside each other, or any two.
        _ => {
            let beside = if place == 0 { 1 } else { place - 1 };
            let other = random.index(records.len());
            records.swap(place, if random.once_in(2) { beside } else { other });
        }
    }
    Some(records)
}

/// Some records, of which the last is cut.
fn torn(random: &mut Random, sort: Sort, base: &Base) -> Asked {
    let last = random.index(base.records.len());
    let cut = 1 + random.index(base.records[last].len() - 1);
    let trace = [&base.records[..last].concat(), &base.records[last][..cut]].concat();
    let log = match sort {
        Sort::TraceTorn => base.verdicts[..last].concat(),
        Sort::TraceTornOneMore => base.verdicts[..=last].concat(),
        _ => verdicts::any(random, &base.verdicts[..last]),
    };
    Asked { image: base.image.clone(), trace, log }
}
