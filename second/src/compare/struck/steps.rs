//! Refused single steps struck from a sequence, also steps that no record can
//! say.

use super::{choices, length, refused, start, stayed, Counts};
use crate::compare::count;
use crate::compare::ledgers::Course;
use crate::compare::records::{replacement, write_step, STEP};
use crate::compare::sides::{asked, code, ledger_of, numbers_of, Answered, Asked, Calls, SECOND};
use crate::generate::guided::Guide;
use crate::ledger::Ledger;
use crate::limits::{LONGEST_STEP, NAMES};
use crate::random::Random;

/// That many steps, guided by the ledger that they lead to, some of them with
/// any number or any name replaced.
fn sequence(
    random: &mut Random,
    guide: &mut Guide,
    start: &Ledger,
    length: usize,
) -> Result<Vec<Asked>, String> {
    let (mut ledger, mut numbers) = (start.clone(), numbers_of(start));
    let mut steps = Vec::with_capacity(length);
    for _ in 0..length {
        let mut step = asked(&guide.next(&ledger));
        if random.once_in(15) {
            let place = random.index(STEP);
            step.0[place] = replacement(random, step.0[1], step.0[STEP - 1]);
        }
        if random.once_in(50) {
            let place = random.index(NAMES);
            step.1[place] = replacement(random, step.0[1], step.1[0]);
        }
        SECOND.answer(&mut numbers, &step)?;
        ledger = ledger_of(&numbers).ok_or("the next ledger is not sound")?;
        steps.push(step);
    }
    Ok(steps)
}

/// What each step is answered, and the last ledger.
fn answers<'a>(
    side: Calls,
    start: &[u64],
    steps: impl IntoIterator<Item = &'a Asked>,
) -> Result<(Vec<Answered>, Vec<u64>), String> {
    let mut ledger = start.to_vec();
    let answered: Result<Vec<Answered>, String> =
        steps.into_iter().map(|step| side.answer(&mut ledger, step)).collect();
    Ok((answered?, ledger))
}

/// Whether some record says the step.
fn sayable(step: &Asked) -> bool {
    write_step(&step.0, &step.1, &mut [0; LONGEST_STEP]) > 2
}

/// Checks a side on that many sequences of single steps.
pub fn check_steps(
    random: &mut Random,
    guide: &mut Guide,
    course: Course,
    sequences: usize,
    side: Calls,
) -> Result<Counts, String> {
    let mut counts = Counts::default();
    for _ in 0..sequences {
        let (start, ledger) = start(random, course);
        let length = length(random);
        let steps = sequence(random, guide, &ledger, length)?;
        let (all, last) = answers(side, &start, &steps)?;
        let codes: Vec<u64> = all.iter().map(code).collect();
        counts.add_trace(&start, &codes);
        for struck in choices(random, &refused(&codes)) {
            let (others, other_last) = answers(side, &start, stayed(&steps, &struck))?;
            let same = others.iter().eq(stayed(&all, &struck));
            if !same || other_last != last {
                let what = if same { "another last ledger" } else { "another verdict" };
                let told = format!("struck {struck:?}: {what}\nsteps {steps:?}");
                return Err(format!("{told}\nledger before {start:?}"));
            }
            counts.strikes += 1;
            for place in &struck {
                count(&mut counts.struck, codes[*place]);
                counts.malformed += usize::from(!sayable(&steps[*place]));
            }
            for code in stayed(&codes, &struck) {
                count(&mut counts.stayed, *code);
            }
        }
    }
    Ok(counts)
}
