//! Comparison of two runs over whole traces, given as functions: document 01,
//! "Records and names", the paragraph that begins "The record is torn if".
//!
//! Both sides keep the calling convention of the proved library's C calls: a
//! ledger is `LEDGER` numbers, and the bytes read and written are two counts.

use crate::compare::ledgers::{damage, high, ledger_numbers, raw_of, LEDGER};
use crate::compare::records::lent;
use crate::compare::{add, count, Answers, MARGIN};
use crate::depot;
use crate::generate::guided::Guide;
use crate::generate::{self, broken, damaged, loose, stocked};
use crate::ledger::Ledger;
use crate::limits::{COLLECTED, COMMIT, LONGEST_VERDICT, NAME, PLACES};
use crate::random::Random;
use crate::raw::{self, from_raw};
use crate::records::{next_record, write_step, Kind, Next, Role, Step};
use crate::run::{self, End, Run};

/// How many counts a run gives: the bytes read and the bytes written.
pub const COUNTS: usize = 2;
/// The largest room in which the fixed traces are run, the longest verdict and
/// some more; every smaller one is tried too.
pub const LONGEST_ROOM: usize = LONGEST_VERDICT + 78;
/// The largest room in which the other short traces are run.
pub const SHORT_ROOM: usize = 600;
/// The most records of a run that begins where another ended.
const PIECE: usize = 60;
/// The answers where the room ends the run, and where too few elements are
/// lent.
const FULL: u64 = 2;
const SHORT: u64 = 3;
/// The outer tags of the kinds that have lists or answer with one.
const COMMIT_TAG: u8 = 0x12;
const COLLECT_TAG: u8 = 0x19;

/// 0 whole, 1 torn, 2 full, with the verdicts in the output and the two
/// counts; 3 where too few counts are lent.
pub fn run(trace: &[u8], out: &mut [u8], counts: &mut [u64]) -> u64 {
    if counts.len() < COUNTS {
        return SHORT;
    }
    put_run(&run::run(&Ledger::fresh(), trace, out.len()), out, counts)
}

/// As `run`, on the ledger that the numbers say, with the next one in place;
/// 3 also where too few numbers are lent.
pub fn run_on(ledger: &mut [u64], trace: &[u8], out: &mut [u8], counts: &mut [u64]) -> u64 {
    if ledger.len() < LEDGER || counts.len() < COUNTS {
        return SHORT;
    }
    let done = run::run_raw(&raw_of(ledger), trace, out.len());
    ledger[..LEDGER].copy_from_slice(&ledger_numbers(&done.ledger));
    put_run(&done, out, counts)
}

fn put_run<L>(done: &Run<L>, out: &mut [u8], counts: &mut [u64]) -> u64 {
    out[..done.written].copy_from_slice(&done.output);
    counts[..COUNTS].copy_from_slice(&[done.read as u64, done.written as u64]);
    match done.end {
        End::Whole => 0,
        End::Torn => 1,
        End::Full => FULL,
    }
}

pub type RunCall = fn(&[u8], &mut [u8], &mut [u64]) -> u64;
pub type RunOnCall = fn(&mut [u64], &[u8], &mut [u8], &mut [u64]) -> u64;

/// One side's calls.
#[derive(Clone, Copy)]
pub struct Calls {
    pub run: RunCall,
    pub run_on: RunOnCall,
}

pub const SECOND: Calls = Calls { run, run_on };

/// What two sides were asked, and how often.
#[derive(Debug, Default)]
pub struct Counts {
    pub runs: usize,
    /// Verdicts that were written.
    pub steps: usize,
    /// 0 whole, 1 torn, 2 full, 3 too few lent.
    pub answers: Answers,
    /// By the row of the table, 0 for accepted.
    pub verdicts: Answers,
    /// Accepted steps by kind, FENCE 0 to COLLECT 9.
    pub accepted: Answers,
    /// Steps of undamaged runs by how many objects, manifests and holds the
    /// ledger had before them.
    pub objects: Answers,
    pub manifests: Answers,
    pub holds: Answers,
    /// COMMIT records, refused ones too, and accepted COLLECTs by how many names
    /// their list has.
    pub committed: Answers,
    pub collected: Answers,
    /// Runs on a changed ledger that is sound nevertheless.
    pub damaged_sound: usize,
    /// Runs whose room was that of all verdicts, and one byte less.
    pub exact: usize,
    pub one_less: usize,
}

impl Counts {
    pub fn add(&mut self, other: Counts) {
        self.runs += other.runs;
        self.steps += other.steps;
        self.damaged_sound += other.damaged_sound;
        self.exact += other.exact;
        self.one_less += other.one_less;
        let pairs = [
            (&mut self.answers, other.answers),
            (&mut self.verdicts, other.verdicts),
            (&mut self.accepted, other.accepted),
            (&mut self.objects, other.objects),
            (&mut self.manifests, other.manifests),
            (&mut self.holds, other.holds),
            (&mut self.committed, other.committed),
            (&mut self.collected, other.collected),
        ];
        for (sum, counts) in pairs {
            add(sum, counts);
        }
    }

    fn add_run(&mut self, trace: &[u8], left: &Left, before: &[Sizes]) {
        self.runs += 1;
        count(&mut self.answers, left.answer);
        let (mut trace, mut out, mut before) = (trace, left.output(), before.iter());
        while let (Next::Record(step), Next::Record(verdict)) =
            (next_record(trace), next_record(out))
        {
            self.steps += 1;
            // The code's one byte follows two headers of three bytes.
            let row = out[6];
            count(&mut self.verdicts, row.into());
            if row == 0 {
                count(&mut self.accepted, u64::from(trace[0]) - 0x10);
            }
            match trace[0] {
                COMMIT_TAG => count(&mut self.committed, names(step, COMMIT)),
                COLLECT_TAG if row == 0 => count(&mut self.collected, names(verdict, COLLECTED)),
                _ => {}
            }
            if let Some(sizes) = before.next() {
                count(&mut self.objects, sizes.objects);
                count(&mut self.manifests, sizes.manifests);
                count(&mut self.holds, sizes.holds);
            }
            (trace, out) = (&trace[step..], &out[verdict..]);
        }
    }
}

/// How many names a record of that length has, of which so many bytes are
/// something else.
fn names(length: usize, beside: usize) -> u64 {
    (length.saturating_sub(beside) / NAME) as u64
}

/// All that is lent to a run. The output, the counts and the margins are
/// filled with the pattern.
#[derive(Clone, Copy)]
struct Lent<'a> {
    /// `None` for the fresh ledger, which is not lent.
    ledger: Option<&'a [u64]>,
    trace: &'a [u8],
    room: usize,
    counts: usize,
    pattern: u64,
}

/// The answer and what is left, margins too.
#[derive(PartialEq, Eq)]
struct Left {
    answer: u64,
    ledger: Vec<u64>,
    out: Vec<u8>,
    counts: Vec<u64>,
}

impl Left {
    /// The verdicts that were written.
    fn output(&self) -> &[u8] {
        match self.answer {
            SHORT => &[],
            _ => &self.out[MARGIN..MARGIN + self.counts[MARGIN + 1] as usize],
        }
    }
}

impl<'a> Lent<'a> {
    fn new(random: &mut Random, ledger: Option<&'a [u64]>, trace: &'a [u8], room: usize) -> Self {
        Lent { ledger, trace, room, counts: COUNTS, pattern: random.any() }
    }

    fn call(&self, side: Calls) -> Left {
        let lent_ledger = self.ledger.unwrap_or_default();
        let mut ledger = vec![self.pattern; lent_ledger.len() + 2 * MARGIN];
        let mut out = vec![self.pattern as u8; self.room + 2 * MARGIN];
        let mut counts = vec![self.pattern; self.counts + 2 * MARGIN];
        let numbers = &mut ledger[MARGIN..MARGIN + lent_ledger.len()];
        numbers.copy_from_slice(lent_ledger);
        let out_room = &mut out[MARGIN..MARGIN + self.room];
        let counts_room = &mut counts[MARGIN..MARGIN + self.counts];
        let answer = match self.ledger {
            None => (side.run)(self.trace, out_room, counts_room),
            Some(_) => (side.run_on)(numbers, self.trace, out_room, counts_room),
        };
        Left { answer, ledger, out, counts }
    }

    /// What both sides leave; the error tells a difference.
    fn compare(&self, first: Calls, second: Calls) -> Result<Left, String> {
        let (one, other) = (self.call(first), self.call(second));
        if one == other {
            return Ok(one);
        }
        Err(self.shortest(first, second))
    }

    /// The difference on as few records of the trace as show one, so that a
    /// long trace need not be searched by hand.
    fn shortest(&self, first: Calls, second: Calls) -> String {
        let (mut end, whole) = (0, self.trace.len());
        loop {
            let lent = Lent { trace: &self.trace[..end], ..*self };
            let (one, other) = (lent.call(first), lent.call(second));
            if one != other || end == whole {
                return lent.difference(&one, &other);
            }
            end = match next_record(&self.trace[end..]) {
                Next::Record(length) => end + length,
                _ => whole,
            };
        }
    }

    fn difference(&self, one: &Left, other: &Left) -> String {
        let wide = |left: &Left| left.out.iter().map(|byte| u64::from(*byte)).collect();
        let (one_out, other_out): (Vec<u64>, Vec<u64>) = (wide(one), wide(other));
        let pairs = [
            ("counts", &one.counts, &other.counts),
            ("out", &one_out, &other_out),
            ("ledger", &one.ledger, &other.ledger),
        ];
        let mut told = format!("answers {} and {}", one.answer, other.answer);
        for (name, one, other) in pairs {
            let places = one.iter().zip(other).enumerate();
            for (place, (one, other)) in places.filter(|(_, (one, other))| one != other).take(8) {
                let place = place as i64 - MARGIN as i64;
                told += &format!("; {name}[{place}] first {one}, second {other}");
            }
        }
        format!(
            "{told}\ntrace {:02X?}\nroom {}, {} counts, filled with {}\nledger before {:?}",
            self.trace, self.room, self.counts, self.pattern, self.ledger
        )
    }
}

/// How many objects, manifests and holds a ledger has.
#[derive(Debug, Clone, Copy)]
struct Sizes {
    objects: u64,
    manifests: u64,
    holds: u64,
}

/// The records of a sequence that is guided by the ledger they lead to.
#[derive(Default)]
struct Guided {
    records: Vec<Vec<u8>>,
    /// The bytes of all their verdicts.
    written: usize,
    /// The ledger's sizes before each record.
    before: Vec<Sizes>,
}

impl Guided {
    /// That many records; the ledger becomes the one behind them.
    fn new(random: &mut Random, guide: &mut Guide, ledger: &mut Ledger, length: usize) -> Self {
        let mut guided = Guided::default();
        for _ in 0..length {
            let record = record(random, &guide.next(ledger));
            guided.before.push(Sizes {
                objects: ledger.objects.len() as u64,
                manifests: ledger.manifests.len() as u64,
                holds: ledger.holds.len() as u64,
            });
            let done = run::run(ledger, &record, usize::MAX);
            guided.written += done.written;
            guided.records.push(record);
            *ledger = done.ledger;
        }
        guided
    }
}

/// The step's record, now and then damaged. Where no reader takes the step, a
/// COMMIT is written with its list nevertheless; for another kind a record with
/// any values stands.
fn record(random: &mut Random, step: &Step) -> Vec<u8> {
    match (write_step(step), step.kind) {
        (Some(record), _) if random.once_in(50) => broken(random, &record),
        (Some(record), _) => record,
        (None, Kind::Commit { epoch, slot }) => loose::commit(step.time, epoch, slot, &step.list),
        (None, _) => loose::step(random),
    }
}

/// The records with some of them damaged, most often so that those behind are
/// misplaced; at times cut or damaged once more.
fn damaged_trace(random: &mut Random, records: &[Vec<u8>]) -> Vec<u8> {
    let mut records = records.to_vec();
    for _ in 0..1 + random.below(3) {
        let (place, other) = (random.index(records.len()), random.index(records.len()));
        records[place] = damaged(random, &records[place], &records[other]);
    }
    let mut trace = records.concat();
    match random.below(3) {
        0 => trace.truncate(random.index(trace.len() + 1)),
        1 => trace = generate::damage(random, &trace),
        _ => {}
    }
    trace
}

/// The room of all verdicts most often, else one byte less, any less, or more.
fn room(random: &mut Random, written: usize) -> usize {
    match random.below(8) {
        0 => random.index(written + 1),
        1 | 2 => written.saturating_sub(1),
        3 | 4 => written + 1 + random.index(SHORT_ROOM),
        _ => written,
    }
}

/// How the traces of a sequence are made and run.
#[derive(Debug, Clone, Copy, PartialEq, Eq)]
pub enum Course {
    /// One run from the fresh ledger.
    Fresh,
    /// Runs of a few records, each on the ledger that the one before left; the
    /// first on the fresh ledger, or on one with any number of objects,
    /// manifests and holds.
    Pieces,
    /// As Pieces, from a sound ledger whose numbers are near 2^64-1.
    High,
    /// Damaged traces, the first on a ledger as in Pieces, the others each on the
    /// ledger that the one before leads to without the damage, or on the fresh
    /// one.
    DamagedTraces,
    /// As Pieces, and one number of the ledger is changed before most runs.
    DamagedLedgers,
}

pub const COURSES: [Course; 5] =
    [Course::Fresh, Course::Pieces, Course::High, Course::DamagedTraces, Course::DamagedLedgers];

/// One run of a sequence.
struct Piece {
    /// `None` for the fresh ledger.
    ledger: Option<Vec<u64>>,
    /// Whether a number of the ledger was changed.
    changed: bool,
    trace: Vec<u8>,
    room: usize,
    /// The ledger's sizes before each record; empty where anything is damaged.
    before: Vec<Sizes>,
}

impl Piece {
    /// That many records. Unless the run is from the fresh ledger, the one
    /// given becomes the one behind them, as if nothing were damaged.
    fn new(
        random: &mut Random,
        guide: &mut Guide,
        course: Course,
        ledger: &mut Ledger,
        records: usize,
    ) -> Self {
        let damaged_traces = course == Course::DamagedTraces;
        let fresh = course == Course::Fresh || damaged_traces && random.once_in(4);
        let ledger = if fresh { &mut Ledger::fresh() } else { ledger };
        let sound = ledger_numbers(&raw::raw(ledger));
        let mut numbers = sound.clone();
        let mut guided = Guided::new(random, guide, ledger, records);
        if course == Course::DamagedLedgers && random.below(4) != 0 {
            damage(random, &mut numbers);
            // A ledger that is not sound gives each record 7 bytes.
            guided.written = random.pick(&[guided.written, 7 * records]);
        }
        let trace = if damaged_traces {
            damaged_trace(random, &guided.records)
        } else {
            guided.records.concat()
        };
        let changed = numbers != sound;
        Piece {
            ledger: (!fresh).then_some(numbers),
            changed,
            trace,
            room: room(random, guided.written),
            before: if damaged_traces || changed { vec![] } else { guided.before },
        }
    }
}

/// Compares two sides on a sequence of that many records.
pub fn compare_sequence(
    random: &mut Random,
    guide: &mut Guide,
    course: Course,
    length: usize,
    first: Calls,
    second: Calls,
) -> Result<Counts, String> {
    let mut counts = Counts::default();
    let mut ledger = match course {
        Course::High => high(random),
        Course::Fresh => Ledger::fresh(),
        _ if random.once_in(2) => stocked::ledger(random),
        _ => Ledger::fresh(),
    };
    let mut left = length;
    while left > 0 {
        let records = match course {
            Course::Fresh => left,
            _ => left.min(1 + random.index(PIECE)),
        };
        left -= records;
        let piece = Piece::new(random, guide, course, &mut ledger, records);
        let lent = Lent::new(random, piece.ledger.as_deref(), &piece.trace, piece.room);
        let compared = lent.compare(first, second)?;
        counts.add_run(&piece.trace, &compared, &piece.before);
        if piece.ledger.is_none() {
            continue;
        }
        match from_raw(&raw_of(&compared.ledger[MARGIN..MARGIN + LEDGER])) {
            Some(_) if course == Course::DamagedTraces => {}
            Some(next) => {
                counts.damaged_sound += usize::from(piece.changed);
                ledger = next;
            }
            // The sequence goes on without the damage.
            None if piece.changed => {}
            None => return Err("the next ledger is not sound".to_string()),
        }
    }
    Ok(counts)
}

/// A trace and the ledger that it is run on, `None` for the fresh one.
type Short = (Option<Vec<u64>>, Vec<u8>);

/// Compares two sides on short traces in every room, on the fixed ones up to
/// `LONGEST_ROOM` and on `count` random ones up to `SHORT_ROOM`; where all
/// verdicts fit into that, the run must be full exactly in the rooms below.
pub fn compare_rooms(
    random: &mut Random,
    guide: &mut Guide,
    count: usize,
    first: Calls,
    second: Calls,
) -> Result<Counts, String> {
    let mut counts = Counts::default();
    let fixed = fixed().into_iter().map(|trace| (trace, LONGEST_ROOM));
    let mut traces: Vec<(Short, usize)> = fixed.collect();
    traces.extend((0..count).map(|_| (short(random, guide), SHORT_ROOM)));
    for ((ledger, trace), longest) in &traces {
        let ledger = ledger.as_deref();
        let most = Lent::new(random, ledger, trace, *longest).compare(first, second)?;
        let (written, all) = (most.output().len(), most.answer != FULL);
        for room in 0..=*longest {
            let left = Lent::new(random, ledger, trace, room).compare(first, second)?;
            counts.add_run(trace, &left, &[]);
            if all && (left.answer == FULL) != (room < written) {
                return Err(format!("{} in room {room} for {written} bytes", left.answer));
            }
            counts.exact += usize::from(all && room == written);
            counts.one_less += usize::from(all && room + 1 == written);
        }
    }
    Ok(counts)
}

/// The tables, ends of traces, the longest verdict of all, and ledgers
/// whose numbers are cut or that are not sound.
fn fixed() -> Vec<Short> {
    let fence = depot::record(0, Kind::Fence { role: Role::Writer, slot: 1 });
    let collect = depot::record(0, Kind::Collect);
    let unknown = vec![0xEE, 0, 0];
    let mut dead = raw::raw(&all_dead());
    let full = Some(ledger_numbers(&dead));
    // A mark above 1 and a currency of more than 16 bits, which no ledger has.
    (dead.objects[0].named, dead.objects[0].currency) = (7, 978 + (1 << 16));
    let cut = Some(ledger_numbers(&dead));
    let mut unsound = raw::raw(&Ledger::fresh());
    unsound.hold_count = 1;
    let unsound = Some(ledger_numbers(&unsound));
    vec![
        (None, depot::trace()),
        (None, depot::records(&depot::out_of_order())),
        (None, vec![]),
        (None, vec![0x10]),
        (None, vec![0x10, 0]),
        (None, fence.clone()),
        (None, fence[..28].to_vec()),
        (None, [&fence[..], &unknown, &fence[..5]].concat()),
        (full.clone(), collect.clone()),
        (full, [&collect[..], &fence, &unknown, &collect[..13]].concat()),
        (cut.clone(), vec![]),
        (cut, [&unknown[..], &collect].concat()),
        (unsound.clone(), vec![]),
        (unsound, [&fence[..], &unknown, &collect, &fence[..1]].concat()),
    ]
}

/// A full store whose objects all belong to a fenced writer.
fn all_dead() -> Ledger {
    let mut ledger = Ledger::fresh();
    let mut accept = |kind: Kind| {
        let verdict = ledger.step(&Step { time: 0, kind, list: vec![] });
        assert_eq!(verdict.code(), 0, "{kind:?}");
    };
    let role = Role::Writer;
    accept(Kind::Fence { role, slot: 1 });
    for object in 1..=PLACES as u64 {
        accept(Kind::Put { role, epoch: 1, object, currency: 978 });
    }
    accept(Kind::Fence { role, slot: 2 });
    ledger
}

/// Some guided records from the fresh ledger or from a later one, whose
/// verdicts most often fit the rooms tried; at times the end is torn.
fn short(random: &mut Random, guide: &mut Guide) -> Short {
    let fresh = random.once_in(3);
    let mut ledger = if fresh { Ledger::fresh() } else { stocked::ledger(random) };
    if !fresh && random.once_in(2) {
        let length = 100 + random.index(400);
        Guided::new(random, guide, &mut ledger, length);
    }
    let before = if fresh { None } else { Some(ledger_numbers(&raw::raw(&ledger))) };
    let length = 1 + random.index(30);
    let mut trace = Guided::new(random, guide, &mut ledger, length).records.concat();
    if random.once_in(2) {
        trace.truncate(random.index(trace.len() + 1));
    }
    (before, trace)
}

/// Compares two sides on slices of every length near the least that is asked
/// for, and checks that 3 is the answer exactly where one is too short.
pub fn compare_lent(random: &mut Random, first: Calls, second: Calls) -> Result<Counts, String> {
    let mut compared = Counts::default();
    let (fresh, trace) = (ledger_numbers(&raw::raw(&Ledger::fresh())), depot::trace());
    let sizes = [0, 1, LEDGER - 2, LEDGER - 1, LEDGER, LEDGER + 1, LEDGER + 7];
    let sizes = sizes.into_iter().chain((0..20).map(|_| lent(random, LEDGER)));
    for size in sizes.map(Some).chain([None]).collect::<Vec<_>>() {
        for (counts, room) in (0..=COUNTS + 2).flat_map(|c| [(c, 0), (c, 100), (c, SHORT_ROOM)]) {
            for trace in [&trace[..], &trace[..40], &[]] {
                let mut numbers = fresh.clone();
                numbers.resize(size.unwrap_or(0), random.any());
                let ledger = size.map(|_| &numbers[..]);
                let lent = Lent { counts, ..Lent::new(random, ledger, trace, room) };
                let left = lent.compare(first, second)?;
                let short = counts < COUNTS || size.is_some_and(|size| size < LEDGER);
                if short != (left.answer == SHORT) {
                    return Err(format!("{} for {counts} counts, {size:?}", left.answer));
                }
                compared.add_run(trace, &left, &[]);
            }
        }
    }
    Ok(compared)
}

#[cfg(test)]
mod tests;
