//! Document 02, request 4: "A trace that never met an old limit keeps its
//! verdicts."

use second::depot;
use second::generate::guided::Guide;
use second::generate::trace;
use second::ledger::Ledger;
use second::limits::Limits;
use second::random::Random;
use second::records::{next_record, read_step, write_step, Kind, Next, Role, Step};
use second::run::{run, Run};

const TRACES: u64 = 32_000;
const LONGEST: usize = 150;

fn run_within(limits: Limits, trace: &[u8]) -> Run<Ledger> {
    run(&Ledger::fresh_within(limits), trace, usize::MAX)
}

/// The records of a trace or of an output, from the first to the last whole one.
fn records(mut bytes: &[u8]) -> Vec<&[u8]> {
    let mut records = Vec::new();
    while let Next::Record(length) = next_record(bytes) {
        let (record, rest) = bytes.split_at(length);
        records.push(record);
        bytes = rest;
    }
    records
}

/// Whether the run at the old limits gave 11, or a COMMIT that is well formed
/// now has a longer list than was allowed.
fn met(trace: &[u8], old: &Run<Ledger>) -> bool {
    // The code's one byte follows two headers of three bytes.
    let full = records(&old.output).iter().any(|verdict| verdict[6] == 11);
    let long = |step: Step| step.list.len() > Limits::OLD.names;
    full || records(trace).into_iter().filter_map(read_step).any(long)
}

#[test]
fn traces_that_met_no_old_limit_keep_their_verdicts() {
    let mut random = Random::new(20_240_681);
    let (mut kept, mut changed) = (0, 0);
    for seed in 0..TRACES {
        let length = 1 + random.index(LONGEST);
        let steps = Guide::new(seed).sequence(Limits::OLD, length);
        let trace = trace(&mut random, &steps);
        let (old, now) = (run_within(Limits::OLD, &trace), run_within(Limits::NOW, &trace));
        if met(&trace, &old) {
            changed += usize::from(old.output != now.output);
            continue;
        }
        kept += 1;
        assert_eq!((old.end, old.read), (now.end, now.read), "trace {seed}");
        assert!(old.output == now.output, "trace {seed}");
        let next = Ledger { limits: Limits::NOW, ..old.ledger };
        assert!(next == now.ledger, "trace {seed}");
    }
    println!("{kept} traces met no old limit; {changed} met one and are answered differently");
    assert!(kept >= 20_000 && changed >= 1_000, "{kept} {changed}");
}

/// One object more than the old places, and a list of one name more than the
/// old ones.
#[test]
fn the_old_limits_are_no_longer_met() {
    let Limits { places, names } = Limits::OLD;
    let role = Role::Writer;
    let mut trace = depot::record(0, Kind::Fence { role, slot: 1 });
    for object in 1..=places as u64 + 1 {
        trace.extend(depot::record(0, Kind::Put { role, epoch: 1, object, currency: 978 }));
    }
    for (slot, longest) in [(2, names), (3, names + 1)] {
        let list = (1..=longest as u64).collect();
        let step = Step { time: 0, kind: Kind::Commit { epoch: 1, slot }, list };
        trace.extend(write_step(&step).expect("it is well formed now"));
    }
    let codes = |limits: Limits| -> Vec<u8> {
        let done = run_within(limits, &trace);
        records(&done.output).iter().map(|verdict| verdict[6]).collect()
    };
    let (old, now) = (codes(Limits::OLD), codes(Limits::NOW));
    assert!(now.iter().all(|code| *code == 0), "{now:?}");
    let refused: Vec<(usize, u8)> =
        old.into_iter().enumerate().filter(|(_, code)| *code != 0).collect();
    // The last put and the last commit.
    assert_eq!(refused, [(places + 1, 11), (places + 3, 2)]);
}
