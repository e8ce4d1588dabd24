//! The comparison finds differences, and the numbers say the ledger.

use super::*;
use crate::records::Verdict;

fn run(course: Course, first: Calls) -> Result<Counts, String> {
    let (mut random, mut guide) = (Random::new(1), Guide::new(2));
    let mut counts = Counts::default();
    for _ in 0..20 {
        let some = compare_sequence(&mut random, &mut guide, course, 500, first, SECOND)?;
        counts.add(some);
    }
    Ok(counts)
}

#[test]
fn a_ledger_is_its_numbers() {
    assert_eq!(LEDGER, 1924);
    let mut random = Random::new(3);
    for ledger in [Ledger::fresh(), high(&mut random), stocked::ledger(&mut random)] {
        let raw = raw::raw(&ledger);
        let numbers = ledger_numbers(&raw);
        assert_eq!(numbers.len(), LEDGER);
        assert_eq!(raw_of(&numbers), raw);
        assert_eq!(raw::from_raw(&raw), Some(ledger));
    }
    // Every number has a place of its own, and none is cut.
    let numbers: Vec<u64> = (0..LEDGER as u64).map(|n| u64::MAX - n).collect();
    assert_eq!(ledger_numbers(&raw_of(&numbers)), numbers);
}

#[test]
fn one_side_agrees_with_itself() {
    for course in [Course::Fresh, Course::Stocked, Course::High, Course::Damaged] {
        let counts = run(course, SECOND).unwrap();
        assert_eq!(counts.steps, 10_000);
        assert!(counts.answers.len() == 2, "{counts:?}");
    }
}

/// How many objects the occupancy words tell of.
fn stored(ledger: &[u64]) -> u32 {
    ledger[WORDS_AT..OBJECTS_AT].iter().map(|word| word.count_ones()).sum()
}

/// The error of a wrong step, from the fresh ledger and from stocked ones.
#[track_caller]
fn wrong_step(step: StepCall, told: &str) {
    for course in [Course::Fresh, Course::Stocked] {
        let error = run(course, Calls { step, ..SECOND }).expect_err("the step is wrong");
        assert!(error.contains(told), "{error}");
    }
}

#[test]
fn wrong_limits_are_found() {
    const PUT: u64 = 1;
    const COMMIT: u64 = 2;
    // One object fewer is stored than may be.
    wrong_step(
        |ledger, numbers, list, verdict, objects| {
            let before = ledger.to_vec();
            let answer = step(ledger, numbers, list, verdict, objects);
            if answer == 0 && numbers[0] == PUT && stored(ledger) as usize == PLACES {
                if stored(&before) as usize == PLACES {
                    return answer;
                }
                ledger.copy_from_slice(&before);
                put_verdict(Verdict::Refused(11), verdict, objects);
            }
            answer
        },
        "verdict[0] first 0, second 1; verdict[1] first 11, second 0",
    );
    // A list of one name fewer is the longest.
    wrong_step(
        |ledger, numbers, list, verdict, objects| {
            let longest = numbers.get(STEP - 1) == Some(&(NAMES as u64));
            let mut shorter = numbers.to_vec();
            if longest && numbers[0] == COMMIT {
                shorter[STEP - 1] = NAMES as u64 + 1;
            }
            step(ledger, &shorter, list, verdict, objects)
        },
        "verdict[1] first 2, second ",
    );
}

/// A put takes the lowest free place of the last word that has one.
#[test]
fn a_place_in_another_word_is_found() {
    wrong_step(
        |ledger, numbers, list, verdict, objects| {
            let before = ledger.to_vec();
            let answer = step(ledger, numbers, list, verdict, objects);
            let put = answer == 0 && stored(ledger) > stored(&before);
            let taken = |ledger: &[u64], place: usize| {
                ledger[WORDS_AT + place / WORD] >> (place % WORD) & 1 == 1
            };
            if let (true, Some(last)) = (put, before[WORDS_AT..OBJECTS_AT].last()) {
                let wanted = PLACES - WORD + (!last).trailing_zeros() as usize;
                let place = (0..PLACES).find(|place| !taken(&before, *place)).unwrap_or(0);
                if wanted < PLACES && place < wanted {
                    for entry in 0..OBJECT {
                        let at = |place: usize| OBJECTS_AT + place * OBJECT + entry;
                        ledger.swap(at(place), at(wanted));
                    }
                    for place in [place, wanted] {
                        ledger[WORDS_AT + place / WORD] ^= 1 << (place % WORD);
                    }
                }
            }
            answer
        },
        &format!("ledger[{WORDS_AT}] first "),
    );
}

#[test]
fn differences_are_found() {
    let late: StepCall = |ledger, numbers, list, verdict, objects| {
        let answer = step(ledger, numbers, list, verdict, objects);
        // A freed hold's last number stays.
        if answer == 0 && ledger[HOLDS_AT - 1] == 7 {
            ledger[LEDGER - 1] = 1;
        }
        answer
    };
    let error = run(Course::Fresh, Calls { step: late, ..SECOND }).unwrap_err();
    let told = format!("ledger[{}] first 1, second 0", LEDGER - 1);
    assert!(error.contains(&told), "{error}");
    let unjudged: StepCall = |ledger, numbers, list, verdict, objects| {
        let before = ledger.to_vec();
        let answer = step(ledger, numbers, list, verdict, objects);
        if answer == 0 && verdict[..2] == [0, 1] {
            verdict[1] = 3;
            ledger.copy_from_slice(&before);
        }
        answer
    };
    run(Course::Fresh, Calls { step: unjudged, ..SECOND }).unwrap();
    let error = run(Course::Damaged, Calls { step: unjudged, ..SECOND }).unwrap_err();
    assert!(error.contains("verdict[1] first 3, second 1"), "{error}");
}

#[test]
fn numbers_that_are_cut_are_found() {
    let cutting: StepCall = |ledger, numbers, list, verdict, objects| {
        if ledger.len() >= LEDGER {
            cut_objects(ledger);
        }
        step(ledger, numbers, list, verdict, objects)
    };
    let error = run(Course::Damaged, Calls { step: cutting, ..SECOND }).unwrap_err();
    assert!(error.contains("answers 0 and 0; ledger["), "{error}");
    let sound: SoundCall = |ledger| {
        let mut ledger = ledger.to_vec();
        if ledger.len() >= LEDGER {
            cut_objects(&mut ledger);
        }
        is_sound(&ledger)
    };
    let error = run(Course::Damaged, Calls { is_sound: sound, ..SECOND }).unwrap_err();
    assert!(error.contains("soundness and current"), "{error}");
    // 2 goes before 1.
    let unread: StepCall = |ledger, numbers, list, verdict, objects| {
        let answer = step(ledger, numbers, list, verdict, objects);
        if answer == 0 && kind_of(numbers).is_none() {
            verdict[1] = 2;
        }
        answer
    };
    let error = run(Course::Damaged, Calls { step: unread, ..SECOND }).unwrap_err();
    assert!(error.contains("verdict[1] first 2, second 1"), "{error}");
    // The epochs the other way round.
    let turned: CurrentCall = |ledger, numbers| {
        let answer = current(ledger, numbers);
        if answer == 0 {
            numbers.swap(1, 2);
        }
        answer
    };
    let error = run(Course::Fresh, Calls { current: turned, ..SECOND }).unwrap_err();
    assert!(error.contains("soundness and current"), "{error}");
}
