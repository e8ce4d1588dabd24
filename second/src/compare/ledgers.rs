//! Comparison of two ledgers, given as functions, step by step: document 01,
//! "What the ledger holds" to "When a step is turned away".
//!
//! Both sides keep the calling convention of the proved library's C calls: a
//! ledger is `LEDGER` numbers, a step and a verdict are as in the record calls.

use crate::compare::records::{
    kind_of, lent, list_of, put_verdict, replacement, step_numbers, STEP, VERDICT,
};
use crate::compare::{add, count, Answers, MARGIN};
use crate::generate::guided::Guide;
use crate::generate::stocked;
use crate::ledger::{Ledger, Manifest};
use crate::limits::{HOLDS, MANIFESTS, NAMES, PLACES, WORD, WORDS};
use crate::random::Random;
use crate::raw::{self, Raw, RawHold, RawManifest, RawObject};
use crate::records::{Kind, Step, Verdict};

/// The number of COLLECT among the kinds.
const COLLECT: u64 = 9;
/// How many numbers an object, a manifest and a hold have.
const OBJECT: usize = 5;
const MANIFEST: usize = 4 + NAMES;
const HOLD: usize = 3;
/// Where the occupancy words, the objects, the manifests and the holds begin; a
/// count stands before the manifests and before the holds.
const WORDS_AT: usize = 2;
const OBJECTS_AT: usize = WORDS_AT + WORDS;
const MANIFESTS_AT: usize = OBJECTS_AT + PLACES * OBJECT + 1;
const HOLDS_AT: usize = MANIFESTS_AT + MANIFESTS * MANIFEST + 1;
/// How many numbers a ledger has.
pub const LEDGER: usize = HOLDS_AT + HOLDS * HOLD;
/// How many numbers the current manifest is told in.
pub const CURRENT: usize = 3;

/// The ledger that the numbers say, each number as it is: a role of 2 is none,
/// and 66,514 is no 978.
pub fn raw_of(numbers: &[u64]) -> Raw {
    let objects = numbers[OBJECTS_AT..MANIFESTS_AT - 1].chunks(OBJECT);
    let manifests = numbers[MANIFESTS_AT..HOLDS_AT - 1].chunks(MANIFEST);
    let holds = numbers[HOLDS_AT..LEDGER].chunks(HOLD);
    let object = |o: &[u64]| RawObject {
        number: o[0],
        role: o[1],
        epoch: o[2],
        currency: o[3],
        named: o[4],
    };
    let manifest = |m: &[u64]| RawManifest {
        number: m[0],
        writer: m[1],
        compactor: m[2],
        length: m[3],
        names: m[4..].to_vec(),
    };
    let mut occupancy = [0; WORDS];
    occupancy.copy_from_slice(&numbers[WORDS_AT..OBJECTS_AT]);
    Raw {
        clock: numbers[0],
        highest_collected: numbers[1],
        occupancy,
        objects: objects.map(object).collect(),
        manifest_count: numbers[MANIFESTS_AT - 1],
        manifests: manifests.map(manifest).collect(),
        hold_count: numbers[HOLDS_AT - 1],
        holds: holds.map(|h| RawHold { number: h[0], manifest: h[1], expiry: h[2] }).collect(),
    }
}

pub fn ledger_numbers(raw: &Raw) -> Vec<u64> {
    let mut numbers = Vec::with_capacity(LEDGER);
    numbers.extend([raw.clock, raw.highest_collected]);
    numbers.extend(raw.occupancy);
    for object in &raw.objects {
        let RawObject { number, role, epoch, currency, named } = *object;
        numbers.extend([number, role, epoch, currency, named]);
    }
    numbers.push(raw.manifest_count);
    for manifest in &raw.manifests {
        let RawManifest { number, writer, compactor, length, ref names } = *manifest;
        numbers.extend([number, writer, compactor, length]);
        numbers.extend(names);
    }
    numbers.push(raw.hold_count);
    for hold in &raw.holds {
        numbers.extend([hold.number, hold.manifest, hold.expiry]);
    }
    numbers
}

/// 0 with the fresh ledger over the start; 3 where too few are lent.
pub fn fresh(numbers: &mut [u64]) -> u64 {
    match numbers.get_mut(..LEDGER) {
        None => 3,
        Some(room) => {
            room.copy_from_slice(&ledger_numbers(&raw::raw(&Ledger::fresh())));
            0
        }
    }
}

/// 0 where the ledger is sound, 1 where it is not; 3 where too few are lent.
pub fn is_sound(ledger: &[u64]) -> u64 {
    match ledger.get(..LEDGER) {
        None => 3,
        Some(numbers) => u64::from(!raw::sound(&raw_of(numbers))),
    }
}

/// 0 with the current manifest's number and both epochs over the start; 1 for a
/// ledger that is not sound; 3 where too few are lent.
pub fn current(ledger: &[u64], numbers: &mut [u64]) -> u64 {
    let (Some(ledger), Some(room)) = (ledger.get(..LEDGER), numbers.get_mut(..CURRENT)) else {
        return 3;
    };
    let Some(ledger) = raw::from_raw(&raw_of(ledger)) else {
        return 1;
    };
    let (number, manifest) = ledger.manifests.last_key_value().expect("a sound ledger keeps one");
    room.copy_from_slice(&[*number, manifest.writer, manifest.compactor]);
    0
}

/// 0 with the next ledger in place, the verdict's numbers and the places of
/// its list; 3 where too few are lent. Numbers that say no kind are refused as
/// bytes that are no step; a refusal leaves the ledger's numbers as they are.
pub fn step(
    ledger: &mut [u64],
    numbers: &[u64],
    list: &[u64],
    verdict: &mut [u64],
    objects: &mut [u64],
) -> u64 {
    let lent = ledger.len() >= LEDGER
        && numbers.len() >= STEP
        && list.len() >= NAMES
        && verdict.len() >= VERDICT
        && objects.len() >= PLACES;
    if !lent {
        return 3;
    }
    let before = raw_of(ledger);
    let answer = match kind_of(numbers) {
        None => Verdict::Refused(if raw::sound(&before) { 2 } else { 1 }),
        Some(kind) => {
            // A list that no record can say is malformed, as a list with 0 is.
            let list = list_of(numbers[10], &list[..NAMES]).unwrap_or(vec![0]);
            let (answer, next) = raw::step(&before, &Step { time: numbers[1], kind, list });
            ledger[..LEDGER].copy_from_slice(&ledger_numbers(&next));
            answer
        }
    };
    put_verdict(answer, verdict, objects);
    0
}

pub type FreshCall = fn(&mut [u64]) -> u64;
pub type StepCall = fn(&mut [u64], &[u64], &[u64], &mut [u64], &mut [u64]) -> u64;
pub type SoundCall = fn(&[u64]) -> u64;
pub type CurrentCall = fn(&[u64], &mut [u64]) -> u64;

/// One side's calls.
#[derive(Clone, Copy)]
pub struct Calls {
    pub fresh: FreshCall,
    pub step: StepCall,
    pub is_sound: SoundCall,
    pub current: CurrentCall,
}

pub const SECOND: Calls = Calls { fresh, step, is_sound, current };

/// What two sides were asked, and how often.
#[derive(Debug, Default)]
pub struct Counts {
    pub steps: usize,
    /// 0 done, 3 too short.
    pub answers: Answers,
    /// By what the ledger before a step is told to be: 0 sound, 1 not, 3 too
    /// short.
    pub soundness: Answers,
    /// Steps on numbers that no ledger can be, and that, cut to what it can,
    /// would be a sound one.
    pub widened: usize,
    /// By the row of the table, 0 for accepted.
    pub verdicts: Answers,
    /// Accepted steps by kind, FENCE 0 to COLLECT 9.
    pub accepted: Answers,
    /// Steps on a changed ledger that is sound nevertheless.
    pub damaged_sound: usize,
    /// Accepted steps by the count of objects before them.
    pub stored: Answers,
    /// Collections by the length of their list.
    pub collected: Answers,
    /// Changed ledgers by the occupancy word that was changed, and by the one
    /// that tells of a place that was changed.
    pub words: Answers,
    pub places: Answers,
}

impl Counts {
    pub fn add(&mut self, other: Counts) {
        self.steps += other.steps;
        self.damaged_sound += other.damaged_sound;
        self.widened += other.widened;
        let pairs = [
            (&mut self.answers, other.answers),
            (&mut self.soundness, other.soundness),
            (&mut self.verdicts, other.verdicts),
            (&mut self.accepted, other.accepted),
            (&mut self.stored, other.stored),
            (&mut self.collected, other.collected),
            (&mut self.words, other.words),
            (&mut self.places, other.places),
        ];
        for (sum, counts) in pairs {
            add(sum, counts);
        }
    }

    /// An accepted step of that kind, on that ledger.
    fn add_accepted(&mut self, kind: u64, ledger: &[u64], left: &Left) {
        count(&mut self.accepted, kind);
        let words = ledger[WORDS_AT..OBJECTS_AT].iter();
        count(&mut self.stored, words.map(|word| u64::from(word.count_ones())).sum());
        if kind == COLLECT {
            count(&mut self.collected, left.verdict[MARGIN + VERDICT - 1]);
        }
    }

    fn add_damage(&mut self, sound: &[u64], damaged: &[u64]) {
        for word in 0..WORDS {
            if sound[WORDS_AT + word] != damaged[WORDS_AT + word] {
                count(&mut self.words, word as u64);
            }
            let first = OBJECTS_AT + word * WORD * OBJECT;
            let places = first..first + WORD * OBJECT;
            if sound[places.clone()] != damaged[places] {
                count(&mut self.places, word as u64);
            }
        }
    }
}

/// All that is lent to a step; the margins and the slices that are only
/// written are filled with the pattern.
struct Lent<'a> {
    ledger: &'a [u64],
    numbers: &'a [u64],
    list: &'a [u64],
    verdict: usize,
    objects: usize,
    pattern: u64,
}

/// The answer and what is left, margins too.
#[derive(PartialEq, Eq)]
struct Left {
    answer: u64,
    ledger: Vec<u64>,
    verdict: Vec<u64>,
    objects: Vec<u64>,
}

impl Lent<'_> {
    fn call(&self, step: StepCall) -> Left {
        let size = self.ledger.len();
        let mut ledger = vec![self.pattern; size + 2 * MARGIN];
        let mut verdict = vec![self.pattern; self.verdict + 2 * MARGIN];
        let mut objects = vec![self.pattern; self.objects + 2 * MARGIN];
        let ledger_room = &mut ledger[MARGIN..MARGIN + size];
        ledger_room.copy_from_slice(self.ledger);
        let verdict_room = &mut verdict[MARGIN..MARGIN + self.verdict];
        let objects_room = &mut objects[MARGIN..MARGIN + self.objects];
        let answer = step(ledger_room, self.numbers, self.list, verdict_room, objects_room);
        Left { answer, ledger, verdict, objects }
    }

    /// The first side's answer; the error names every difference.
    fn compare(&self, first: Calls, second: Calls) -> Result<Left, String> {
        let (one, other) = (self.call(first.step), self.call(second.step));
        if one == other {
            return Ok(one);
        }
        let pairs = [
            ("ledger", &one.ledger, &other.ledger),
            ("verdict", &one.verdict, &other.verdict),
            ("objects", &one.objects, &other.objects),
        ];
        let mut told = format!("answers {} and {}", one.answer, other.answer);
        for (name, one, other) in pairs {
            for (place, (one, other)) in one.iter().zip(other).enumerate() {
                if one != other {
                    let place = place as i64 - MARGIN as i64;
                    told += &format!("; {name}[{place}] first {one}, second {other}");
                }
            }
        }
        Err(format!(
            "{told}\nstep {:?}, list {:?}, {} verdict numbers, {} places, filled with {}\n\
             ledger before {:?}",
            self.numbers, self.list, self.verdict, self.objects, self.pattern, self.ledger
        ))
    }
}

/// How the steps of a sequence are made.
#[derive(Debug, Clone, Copy, PartialEq, Eq)]
pub enum Course {
    /// From the fresh ledger.
    Fresh,
    /// From a sound ledger with any number of objects, manifests and holds.
    Stocked,
    /// From a sound ledger whose numbers are near 2^64-1.
    High,
    /// As Fresh or Stocked, and one number is changed before many steps.
    Damaged,
}

impl Course {
    /// The ledger before the first step.
    pub fn start(self, random: &mut Random) -> Ledger {
        match self {
            Course::Fresh => Ledger::fresh(),
            Course::Stocked => stocked::ledger(random),
            Course::High => high(random),
            Course::Damaged if random.once_in(2) => stocked::ledger(random),
            Course::Damaged => Ledger::fresh(),
        }
    }
}

/// Compares two sides on a sequence of that many steps.
pub fn compare_sequence(
    random: &mut Random,
    guide: &mut Guide,
    course: Course,
    length: usize,
    first: Calls,
    second: Calls,
) -> Result<Counts, String> {
    let mut counts = Counts::default();
    let mut numbers = compare_fresh(random, first, second)?;
    if course != Course::Fresh {
        numbers = ledger_numbers(&raw::raw(&course.start(random)));
    }
    let mut ledger = raw::from_raw(&raw_of(&numbers)).ok_or("the start is not sound")?;
    for _ in 0..length {
        let damaged = course == Course::Damaged && random.below(4) != 0;
        let mut before = numbers.clone();
        if damaged {
            damage(random, &mut before);
            counts.add_damage(&numbers, &before);
        }
        let step = asked(random, &guide.next(&ledger), course);
        if damaged || random.once_in(10) {
            count(&mut counts.soundness, compare_told(random, &before, first, second)?);
        }
        counts.widened += usize::from(damaged && is_widened(&before));
        let left = compare_step(random, &before, &step, first, second)?;
        counts.steps += 1;
        count(&mut counts.answers, left.answer);
        if left.answer != 0 {
            continue;
        }
        let row = if left.verdict[MARGIN] == 0 { left.verdict[MARGIN + 1] } else { 0 };
        count(&mut counts.verdicts, row);
        if row == 0 {
            counts.add_accepted(step.0[0], &before, &left);
        }
        let changed = damaged && before != numbers;
        counts.damaged_sound += usize::from(changed && row != 1);
        // A damaged ledger that is sound is at times gone on with.
        if row == 0 && !(changed && random.once_in(2)) {
            numbers.copy_from_slice(&left.ledger[MARGIN..MARGIN + LEDGER]);
            ledger = raw::from_raw(&raw_of(&numbers)).ok_or("the next ledger is not sound")?;
        }
    }
    Ok(counts)
}

fn compare_fresh(random: &mut Random, first: Calls, second: Calls) -> Result<Vec<u64>, String> {
    for size in [LEDGER - 1, LEDGER + 1, random.index(LEDGER), LEDGER] {
        let pattern = random.any();
        let call = |fresh: FreshCall| {
            let mut numbers = vec![pattern; size + 2 * MARGIN];
            (fresh(&mut numbers[MARGIN..MARGIN + size]), numbers)
        };
        let (one, other) = (call(first.fresh), call(second.fresh));
        if one != other {
            return Err(format!("fresh in {size}: first {one:?}, second {other:?}"));
        }
        if size == LEDGER {
            return Ok(one.1[MARGIN..MARGIN + LEDGER].to_vec());
        }
    }
    unreachable!("the last size is the ledger's")
}

/// Whether the ledger is sound, and what is current, at times with too few or
/// too many lent.
fn compare_told(
    random: &mut Random,
    ledger: &[u64],
    first: Calls,
    second: Calls,
) -> Result<u64, String> {
    let (pattern, mut ledger, mut room) = (random.any(), ledger.to_vec(), CURRENT);
    if random.once_in(40) {
        ledger.resize(lent(random, LEDGER), pattern);
        room = lent(random, CURRENT);
    }
    let call = |side: Calls| {
        let mut numbers = vec![pattern; room + 2 * MARGIN];
        let answer = (side.current)(&ledger, &mut numbers[MARGIN..MARGIN + room]);
        ((side.is_sound)(&ledger), answer, numbers)
    };
    let (one, other) = (call(first), call(second));
    if one == other {
        return Ok(one.0);
    }
    Err(format!("soundness and current: first {one:?}, second {other:?}\nledger {ledger:?}"))
}

/// Whether some role, mark or currency is wider than it can be, and a reader
/// that cuts them would find a sound ledger.
fn is_widened(numbers: &[u64]) -> bool {
    let mut cut = numbers.to_vec();
    cut_objects(&mut cut);
    cut != numbers && raw::sound(&raw_of(&cut))
}

/// Roles and marks as whether they are 0, and currencies as their last 16 bits:
/// what a careless reader makes of them.
pub(crate) fn cut_objects(ledger: &mut [u64]) {
    for object in ledger[OBJECTS_AT..MANIFESTS_AT - 1].chunks_mut(OBJECT) {
        (object[1], object[4]) = (u64::from(object[1] != 0), u64::from(object[4] != 0));
        object[3] &= 0xFFFF;
    }
}

/// One step, at times with too few or too many lent.
fn compare_step(
    random: &mut Random,
    ledger: &[u64],
    step: &(Vec<u64>, Vec<u64>),
    first: Calls,
    second: Calls,
) -> Result<Left, String> {
    let pattern = random.any();
    let (mut ledger, mut numbers, mut list) = (ledger.to_vec(), step.0.clone(), step.1.clone());
    let (mut verdict, mut objects) = (VERDICT, PLACES);
    if random.once_in(40) {
        ledger.resize(lent(random, LEDGER), pattern);
        numbers.resize(lent(random, STEP), pattern);
        list.resize(lent(random, NAMES), pattern);
        (verdict, objects) = (lent(random, VERDICT), lent(random, PLACES));
    }
    let lent = Lent { ledger: &ledger, numbers: &numbers, list: &list, verdict, objects, pattern };
    lent.compare(first, second)
}

/// The step's numbers and the places of its list, now and then with some of
/// them replaced.
fn asked(random: &mut Random, step: &Step, course: Course) -> (Vec<u64>, Vec<u64>) {
    let mut step = step.clone();
    if let (Course::High, Kind::Hold { hold, .. }) = (course, &mut step.kind) {
        if *hold != 0 && random.below(4) != 0 {
            *hold = u64::MAX - *hold % 20;
        }
    }
    let mut numbers = step_numbers(&step).to_vec();
    let mut list = step.list;
    list.resize(NAMES, 0);
    if random.once_in(25) {
        let place = random.index(STEP);
        numbers[place] = replacement(random, numbers[1], numbers[STEP - 1]);
    }
    if random.once_in(100) {
        let place = random.index(NAMES);
        list[place] = replacement(random, numbers[1], list[0]);
    }
    (numbers, list)
}

/// A sound ledger with one manifest, whose numbers are near 2^64-1.
pub fn high(random: &mut Random) -> Ledger {
    let mut near = |below: u64| u64::MAX - random.below(below);
    let (clock, number) = (near(2_000), near(300));
    // Most often the store can be filled some times before the numbers end.
    let collected = near(16 * PLACES as u64);
    let writer = match near(3) % 3 {
        0 => number / 2,
        1 => number - 1,
        _ => 1,
    };
    // The epochs add to the manifest's number, or nearly.
    let compactor = (number - writer).saturating_sub(near(3) % 3);
    let mut ledger = Ledger::fresh();
    (ledger.clock, ledger.highest_collected) = (clock, collected);
    ledger.manifests = [(number, Manifest { writer, compactor, list: [].into() })].into();
    ledger
}

/// Changes one number, or swaps two, or two places.
pub fn damage(random: &mut Random, numbers: &mut [u64]) {
    let place = damaged_place(random, numbers);
    let other = damaged_place(random, numbers);
    match random.below(10) {
        0 => numbers[place] ^= 1 << random.below(u64::BITS.into()),
        1 => numbers[place] ^= 1 << random.below(4),
        2 => numbers.swap(place, other),
        3 => numbers[place] = numbers[other],
        4 => numbers[place] = numbers[place].wrapping_add(1),
        5 => numbers[place] = numbers[place].wrapping_sub(1),
        6 => numbers[place] = replacement(random, numbers[0], numbers[1]),
        7 => swap_places(random, numbers),
        _ => widen(random, numbers),
    }
}

/// Makes an object's role, mark or currency one that no object can have; its
/// last bits, or whether it is 0, stay.
fn widen(random: &mut Random, numbers: &mut [u64]) {
    let taken = |place: &usize| numbers[OBJECTS_AT + place * OBJECT] != 0;
    let places: Vec<usize> = (0..PLACES).filter(taken).collect();
    if places.is_empty() {
        return;
    }
    let object = OBJECTS_AT + random.pick(&places) * OBJECT;
    match random.below(4) {
        0 => numbers[object + 1] = numbers[object + 1].wrapping_mul(1 + random.below(300)),
        1 => numbers[object + 4] = numbers[object + 4].wrapping_mul(1 + random.below(300)),
        _ => numbers[object + 3] = numbers[object + 3].wrapping_add((1 + random.any()) << 16),
    }
}

/// Swaps two objects, two manifests or two holds, unused ones too. Two objects
/// are at times swapped with their bits, which leaves the ledger sound.
fn swap_places(random: &mut Random, numbers: &mut [u64]) {
    let (start, size, places) = random.pick(&[
        (OBJECTS_AT, OBJECT, PLACES),
        (MANIFESTS_AT, MANIFEST, MANIFESTS),
        (HOLDS_AT, HOLD, HOLDS),
    ]);
    let (one, two) = (random.index(places), random.index(places));
    for entry in 0..size {
        numbers.swap(start + one * size + entry, start + two * size + entry);
    }
    let bit =
        |numbers: &[u64], place: usize| numbers[WORDS_AT + place / WORD] >> (place % WORD) & 1;
    if size == OBJECT && random.once_in(2) && bit(numbers, one) != bit(numbers, two) {
        for place in [one, two] {
            numbers[WORDS_AT + place / WORD] ^= 1 << (place % WORD);
        }
    }
}

/// A place of a ledger, most often one whose number is not 0.
fn damaged_place(random: &mut Random, numbers: &[u64]) -> usize {
    match random.below(8) {
        0 => random.index(LEDGER),
        1 => random.pick(&[0, 1, MANIFESTS_AT - 1, HOLDS_AT - 1]),
        2 => WORDS_AT + random.index(WORDS),
        3 => MANIFESTS_AT + random.index(LEDGER - MANIFESTS_AT),
        _ => {
            let start = random.index(LEDGER);
            let mut places = (start..LEDGER).chain(0..start);
            places.find(|place| numbers[*place] != 0).unwrap_or(start)
        }
    }
}

#[cfg(test)]
mod tests;
