//! The depot's week with its log cut at every byte and with every bit of it
//! turned, and with its trace cut at every byte. What has to come of it is
//! counted from the paper's table, by the record that the byte belongs to.

use super::{CheckCall, AGREE, DIFFERS};
use crate::compare::sides::split;
use crate::depot;
use crate::image;
use crate::ledger::Ledger;
use crate::raw::raw;
use crate::records::write_verdict;

/// What the numbers lent are before a call.
const BEFORE: [u64; 3] = [u64::MAX, 7, 0x5555_5555_5555_5555];

/// The week's records, and its verdicts as the paper's table has them.
fn week() -> (Vec<Vec<u8>>, Vec<Vec<u8>>) {
    let records = split(&depot::trace()).into_iter().map(Vec::from).collect();
    let verdicts = depot::week().into_iter().map(|(_, verdict)| write_verdict(&verdict));
    (records, verdicts.map(|verdict| verdict.expect("it is well formed")).collect())
}

/// Which of the records each byte belongs to.
fn owners(records: &[Vec<u8>]) -> Vec<usize> {
    let numbered = records.iter().enumerate();
    numbered.flat_map(|(index, record)| vec![index; record.len()]).collect()
}

/// A side, and how often it was asked.
struct Asking {
    side: CheckCall,
    asked: usize,
}

impl Asking {
    /// From fresh, without an image and with its own: `None` where all agree.
    fn hold(&mut self, trace: &[u8], log: &[u8], index: Option<usize>) -> Result<(), String> {
        let fresh = image::write(&raw(&Ledger::fresh())).expect("the ledger is sound");
        for image in [&[][..], &fresh] {
            let (mut at, mut expected) = (BEFORE, BEFORE);
            let answer = (self.side)(image, trace, log, &mut at);
            if let Some(index) = index {
                expected[0] = index as u64;
            }
            let right = if index.is_some() { DIFFERS } else { AGREE };
            if (answer, at) != (right, expected) {
                let told = format!("{answer}, {at:?} in place of {right}, {expected:?}");
                return Err(format!("{told}\ntrace {trace:02X?}\nlog {log:02X?}"));
            }
            self.asked += 1;
        }
        Ok(())
    }
}

/// Checks a side on the week; how often it was asked.
pub fn check_week(side: CheckCall) -> Result<usize, String> {
    let (records, verdicts) = week();
    let (trace, log) = (records.concat(), verdicts.concat());
    let mut asking = Asking { side, asked: 0 };
    asking.hold(&trace, &log, None)?;
    for (place, owner) in owners(&verdicts).into_iter().enumerate() {
        asking.hold(&trace, &log[..place], Some(owner))?;
        for bit in 0..8 {
            let mut turned = log.clone();
            turned[place] ^= 1 << bit;
            asking.hold(&trace, &turned, Some(owner))?;
        }
    }
    cut_traces(&mut asking, &records, &verdicts)?;
    behind(&mut asking, &trace, &log, verdicts.len())?;
    Ok(asking.asked)
}

/// With all verdicts, and with those of the whole records: they agree only
/// where the cut is between two records.
fn cut_traces(
    asking: &mut Asking,
    records: &[Vec<u8>],
    verdicts: &[Vec<u8>],
) -> Result<(), String> {
    let (trace, owners) = (records.concat(), owners(records));
    for (place, owner) in owners.iter().enumerate() {
        asking.hold(&trace[..place], &verdicts.concat(), Some(*owner))?;
        let between = place == 0 || owners[place - 1] != *owner;
        let torn = (!between).then_some(*owner);
        asking.hold(&trace[..place], &verdicts[..*owner].concat(), torn)?;
    }
    Ok(())
}

/// Up to nine bytes of any one value behind the log, or behind the trace.
fn behind(asking: &mut Asking, trace: &[u8], log: &[u8], count: usize) -> Result<(), String> {
    for value in 0..=u8::MAX {
        for length in 1..=9 {
            let more = vec![value; length];
            asking.hold(trace, &[log, &more].concat(), Some(count))?;
            asking.hold(&[trace, &more].concat(), log, Some(count))?;
        }
    }
    Ok(())
}
