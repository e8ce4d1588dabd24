//! The whole case, the ends of a run, and what the program prints.

use super::*;
use crate::records::{write_step, Kind, Role, Step};

fn record(time: u64, kind: Kind, list: &[u64]) -> Vec<u8> {
    let list = list.to_vec();
    write_step(&Step { time, kind, list }).unwrap()
}

fn fence(slot: u64) -> Vec<u8> {
    let role = Role::Writer;
    record(0, Kind::Fence { role, slot }, &[])
}

fn fresh_run(trace: &[u8], room: usize) -> Run<Ledger> {
    run(&Ledger::fresh(), trace, room)
}

#[test]
fn whole_case() {
    let trace = [
        0x10, 0x00, 0x1A, 0x01, 0x00, 0x08, 0, 0, 0, 0, 0, 0, 0, 0, 0x02, 0x00, 0x01, 0x00, 0x04,
        0x00, 0x08, 0, 0, 0, 0, 0, 0, 0, 1,
    ];
    let verdict =
        [0x40, 0x00, 0x0F, 0x00, 0x00, 0x01, 0x00, 0x03, 0x00, 0x08, 0, 0, 0, 0, 0, 0, 0, 1];
    let done = fresh_run(&trace, 18);
    assert_eq!((done.end, done.read, done.written), (End::Whole, 29, 18));
    assert_eq!(done.output, verdict);
    assert_eq!(judge(&trace), "0\nrest 0\n");
}

#[test]
fn an_empty_trace_ends_at_once() {
    let done = fresh_run(&[], 0);
    assert_eq!((done.end, done.read, done.written), (End::Whole, 0, 0));
    assert_eq!(done.ledger, Ledger::fresh());
}

#[test]
fn a_run_goes_on_past_refusals_and_stops_when_torn() {
    // Refused, accepted, unknown kind, accepted, torn.
    let records = [fence(2), fence(1), vec![0xEE, 0, 1, 9], fence(2)].concat();
    for cut in 1..29 {
        let trace = [&records[..], &fence(3)[..cut]].concat();
        let done = fresh_run(&trace, 1000);
        assert_eq!(done.end, End::Torn);
        assert_eq!((done.read, done.written), (records.len(), 7 + 18 + 7 + 18));
        assert_eq!(done.ledger.current().0, 2);
        assert_eq!(judge(&trace), format!("7\n0\n2\n0\nrest {cut}\n"));
    }
}

#[test]
fn full_is_said_exactly_when_the_verdict_is_longer_than_the_room() {
    let trace = [fence(1), fence(1), fence(2)].concat();
    for room in 0..=60 {
        let done = fresh_run(&trace, room);
        let (end, read, written, current) = match room {
            0..=17 => (End::Full, 0, 0, 0),
            18..=24 => (End::Full, 29, 18, 1),
            25..=42 => (End::Full, 58, 25, 1),
            _ => (End::Whole, 87, 43, 2),
        };
        assert_eq!((done.end, done.read, done.written), (end, read, written));
        assert_eq!(done.output.len(), written);
        assert_eq!(done.ledger.current().0, current);
    }
}

#[test]
fn torn_is_said_before_full() {
    assert_eq!(fresh_run(&fence(1)[..28], 0).end, End::Torn);
    assert_eq!(fresh_run(&[0x10, 0], 0).end, End::Torn);
    assert_eq!(fresh_run(&[0x10, 0, 0], 6).end, End::Full);
    assert_eq!(fresh_run(&[0x10, 0, 0], 7).end, End::Whole);
}

#[test]
fn an_accepted_step_without_room_changes_nothing() {
    let start = fresh_run(&fence(1), 100).ledger;
    let put = |object| {
        let role = Role::Writer;
        let kind = Kind::Put { role, epoch: 1, object, currency: 1 };
        record(0, kind, &[])
    };
    let start = run(&start, &[put(1), put(2), fence(2)].concat(), 100);
    assert_eq!(start.end, End::Whole);
    let collect = record(9, Kind::Collect, &[]);
    let short = run(&start.ledger, &collect, 25);
    assert_eq!((short.end, short.written), (End::Full, 0));
    assert_eq!(short.ledger, start.ledger);
    let exact = run(&start.ledger, &collect, 26);
    assert_eq!((exact.end, exact.written), (End::Whole, 26));
    assert_eq!(exact.ledger.clock, 9);
}

#[test]
fn an_unsound_ledger_gives_1_to_each_record() {
    let mut unsound = raw(&Ledger::fresh());
    unsound.holds[7].expiry = 5;
    let trace = [fence(1), vec![0xEE, 0, 0], fence(1), vec![0]].concat();
    let done = run_raw(&unsound, &trace, 100);
    assert_eq!((done.end, done.read, done.written), (End::Torn, 61, 21));
    assert_eq!(done.output, [0x40, 0, 4, 0, 0, 1, 1].repeat(3));
    assert_eq!(done.ledger, unsound);
    assert_eq!(run_raw(&unsound, &trace, 13).end, End::Full);
    let sound = raw(&Ledger::fresh());
    let both = (run_raw(&sound, &trace, 100), fresh_run(&trace, 100));
    assert_eq!(both.0.output, both.1.output);
    assert_eq!(both.0.ledger, raw(&both.1.ledger));
}

#[test]
fn the_program_takes_65536_bytes_and_no_more() {
    assert_eq!(judge(&[]), "rest 0\n");
    // The first record claims 65,535 bytes behind its header and is torn.
    assert_eq!(judge(&[0xFF; 65_536]), "rest 65536\n");
    assert_eq!(judge(&[0xFF; 65_537]), "too long\n");
    let collects = record(0, Kind::Collect, &[]).repeat(4681);
    assert_eq!(collects.len(), 65_534);
    let printed = judge(&[&collects[..], &[0, 0]].concat());
    assert_eq!(printed, "0\n".repeat(4681) + "rest 2\n");
    assert_eq!(judge(&[&collects[..], &[0, 0, 0]].concat()), "too long\n");
}
