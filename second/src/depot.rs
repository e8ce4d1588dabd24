//! Tables of steps and what each is answered, in order from fresh: document
//! 01, "One week at the depot", and document 02, request 1.

use crate::records::{write_step, Kind, Role, Step, Verdict};

/// The record of a step without a list, which must be well formed.
pub fn record(time: u64, kind: Kind) -> Vec<u8> {
    write_step(&Step { time, kind, list: vec![] }).expect("the step is well formed")
}

/// The records of a table's steps, one behind the other.
pub fn records(cases: &[(Step, Verdict)]) -> Vec<u8> {
    let records = cases.iter().map(|(step, _)| write_step(step));
    records.map(|record| record.expect("the steps are well formed")).collect::<Vec<_>>().concat()
}

/// The records of the week.
pub fn trace() -> Vec<u8> {
    records(&week())
}

/// The week's 23 steps; case 19 has five.
pub fn week() -> Vec<(Step, Verdict)> {
    let mut week = start();
    week.extend(fenced());
    week.extend(compacted());
    week
}

fn at(time: u64, kind: Kind, verdict: Verdict) -> (Step, Verdict) {
    (Step { time, kind, list: vec![] }, verdict)
}

fn commit(time: u64, epoch: u64, slot: u64, list: &[u64], verdict: Verdict) -> (Step, Verdict) {
    (Step { time, kind: Kind::Commit { epoch, slot }, list: list.to_vec() }, verdict)
}

fn put(epoch: u64, object: u64, currency: u16) -> Kind {
    Kind::Put { role: Role::Writer, epoch, object, currency }
}

fn fence(slot: u64) -> Kind {
    Kind::Fence { role: Role::Writer, slot }
}

fn collect(time: u64, list: &[u64]) -> (Step, Verdict) {
    at(time, Kind::Collect, Verdict::Collected(list.to_vec()))
}

/// Parallel writers land out of order: "12 may arrive before 11", a number is
/// spent once it or a higher one was collected, and once 2^64-1 was collected
/// every number is that isn't stored.
pub fn out_of_order() -> Vec<(Step, Verdict)> {
    let put = |epoch, object, code| {
        let verdict = if code == 0 { Verdict::Done } else { Verdict::Refused(code) };
        at(1, put(epoch, object, 978), verdict)
    };
    vec![
        at(1, fence(1), Verdict::Epoch(1)),
        put(1, 12, 0),
        put(1, 11, 0),
        put(1, 11, 9),
        commit(1, 1, 2, &[11, 12], Verdict::Done),
        commit(1, 1, 3, &[11], Verdict::Done),
        collect(1, &[12]),
        put(1, 11, 9),
        put(1, 12, 10),
        put(1, 10, 10),
        put(1, u64::MAX, 0),
        put(1, 13, 0),
        at(1, fence(4), Verdict::Epoch(2)),
        collect(1, &[13, u64::MAX]),
        put(2, 11, 9),
        put(2, 14, 10),
        put(2, u64::MAX, 10),
        commit(1, 2, 5, &[], Verdict::Done),
        collect(1, &[11]),
        put(2, 14, 10),
    ]
}

/// Cases 1 to 8, the first writer.
fn start() -> Vec<(Step, Verdict)> {
    vec![
        at(10, fence(1), Verdict::Epoch(1)),
        at(10, put(1, 1, 978), Verdict::Done),
        at(10, put(1, 2, 756), Verdict::Done),
        commit(11, 1, 2, &[1, 2], Verdict::Done),
        at(11, Kind::Look { currency: 985, hold: 0 }, Verdict::Refused(16)),
        at(12, Kind::Hold { hold: 7, manifest: 2, expiry: 20 }, Verdict::Done),
        at(12, fence(2), Verdict::Refused(6)),
        at(12, fence(3), Verdict::Epoch(2)),
    ]
}

/// Cases 9 to 18, the first writer fenced and the hold expired.
fn fenced() -> Vec<(Step, Verdict)> {
    vec![
        at(13, put(1, 3, 978), Verdict::Done),
        commit(13, 1, 4, &[3], Verdict::Refused(5)),
        at(14, put(2, 4, 978), Verdict::Done),
        collect(14, &[3]),
        commit(15, 2, 4, &[2, 4], Verdict::Done),
        collect(20, &[]),
        collect(21, &[1]),
        at(21, Kind::Look { currency: 978, hold: 7 }, Verdict::Refused(15)),
        at(21, put(2, 3, 978), Verdict::Refused(10)),
        at(20, Kind::List { hold: 0 }, Verdict::Refused(3)),
    ]
}

/// Case 19.
fn compacted() -> Vec<(Step, Verdict)> {
    let role = Role::Compactor;
    vec![
        at(22, Kind::Fence { role, slot: 5 }, Verdict::Epoch(1)),
        at(22, Kind::Put { role, epoch: 1, object: 5, currency: 978 }, Verdict::Done),
        at(22, Kind::Compact { epoch: 1, slot: 6, object: 5 }, Verdict::Done),
        at(22, Kind::List { hold: 0 }, Verdict::Listed { manifest: 6, list: vec![2, 5] }),
        collect(22, &[4]),
    ]
}
