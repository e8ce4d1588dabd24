//! Compares the proved library's runs with the second program's on that many
//! steps, in two threads: `compare_traces 50000000 [SEED]`. Prints how often
//! each ending and each row of the table was met, and any difference.

use std::process::ExitCode;
use std::thread;

use second::compare::traces::{
    compare_lent, compare_rooms, compare_sequence, Calls, Counts, COURSES, SECOND,
};
use second::generate::guided::Guide;
use second::proved;
use second::random::Random;

const PROVED: Calls = Calls { run: proved::run, run_on: proved::run_on };
const THREADS: u64 = 2;
const LENGTH: usize = 1_000;
const SHORT_TRACES: usize = 50;

/// Every comparison in turn, until that many steps are compared.
fn compare(seed: u64, steps: usize) -> Result<Counts, String> {
    let (mut random, mut guide) = (Random::new(seed), Guide::new(!seed));
    let mut counts = compare_lent(&mut random, PROVED, SECOND)?;
    counts.add(compare_rooms(&mut random, &mut guide, SHORT_TRACES, PROVED, SECOND)?);
    while counts.steps < steps {
        for course in COURSES {
            let compared =
                compare_sequence(&mut random, &mut guide, course, LENGTH, PROVED, SECOND);
            counts.add(compared.map_err(|told| format!("{course:?}: {told}"))?);
        }
    }
    Ok(counts)
}

/// The counts of all threads, and the differences found.
fn compare_all(seed: u64, steps: usize) -> (Counts, Vec<String>) {
    let (mut counts, mut differences) = (Counts::default(), Vec::new());
    thread::scope(|scope| {
        let share = steps.div_ceil(THREADS as usize);
        let threads: Vec<_> = (0..THREADS)
            .map(|thread| scope.spawn(move || compare(seed.wrapping_add(thread), share)))
            .collect();
        for (thread, compared) in threads.into_iter().enumerate() {
            match compared.join().unwrap_or_else(|_| Err("panicked".to_string())) {
                Ok(some) => counts.add(some),
                Err(told) => differences.push(format!("thread {thread}: {told}")),
            }
        }
    });
    (counts, differences)
}

fn main() -> ExitCode {
    let mut numbers = std::env::args().skip(1).map(|argument| argument.parse::<u64>());
    let (Some(Ok(steps)), seed) = (numbers.next(), numbers.next()) else {
        eprintln!("usage: compare_traces STEPS [SEED]");
        return ExitCode::FAILURE;
    };
    let Ok(seed) = seed.unwrap_or(Ok(1)) else {
        eprintln!("the seed is no number");
        return ExitCode::FAILURE;
    };
    let (counts, differences) = compare_all(seed, steps as usize);
    println!("seed {seed}: {} runs, {} steps", counts.runs, counts.steps);
    println!("runs by ending (0 whole, 1 torn, 2 full, 3 short): {:?}", counts.answers);
    println!("steps by row of the table: {:?}", counts.verdicts);
    println!("accepted steps by kind: {:?}", counts.accepted);
    println!("steps by stored objects: {:?}", counts.objects);
    println!("steps by manifests: {:?}", counts.manifests);
    println!("steps by holds: {:?}", counts.holds);
    println!("commits by names: {:?}", counts.committed);
    println!("collections by names: {:?}", counts.collected);
    println!("runs on changed ledgers that are sound: {}", counts.damaged_sound);
    println!("{} differences", differences.len());
    for difference in &differences {
        println!("{difference}");
    }
    if differences.is_empty() {
        ExitCode::SUCCESS
    } else {
        ExitCode::FAILURE
    }
}
