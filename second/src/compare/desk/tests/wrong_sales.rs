//! Wrong sales.

use super::*;
use crate::compare::ledgers::cut_objects;

/// The error of a wrong sale.
#[track_caller]
fn found(course: Course, sell: SellCall, told: &str) {
    let error = sold(course, 20, Calls { sell, ..SECOND }).expect_err("the sale is wrong");
    assert!(error.contains(told), "{error}");
}

/// Replaces the charge of a charged sale.
fn recharge(answer: u64, sheet: &[u8], sale: &mut [u64], charge: impl Fn(Sheet) -> u64) {
    if let (DONE, [0, charged, ..], Some(read)) = (answer, sale, desk::read_sheet(sheet)) {
        *charged = charge(read);
    }
}

#[test]
fn rounding_down_is_found() {
    found(
        Course::Fresh,
        |ledger, time, sheet, currency, hold, fare, sale| {
            let answer = sell(ledger, time, sheet, currency, hold, fare, sale);
            recharge(answer, sheet, sale, |read| fare * read.numerator / read.denominator);
            answer
        },
        "answers 0 and 0; answered[1] first",
    );
}

#[test]
fn one_more_where_nothing_remains_is_found() {
    found(
        Course::Fresh,
        |ledger, time, sheet, currency, hold, fare, sale| {
            let answer = sell(ledger, time, sheet, currency, hold, fare, sale);
            recharge(answer, sheet, sale, |read| fare * read.numerator / read.denominator + 1);
            answer
        },
        "answers 0 and 0; answered[1] first",
    );
}

#[test]
fn a_charge_beside_a_refusal_is_found() {
    found(
        Course::Fresh,
        |ledger, time, sheet, currency, hold, fare, sale| {
            let answer = sell(ledger, time, sheet, currency, hold, fare, sale);
            let read = desk::read_sheet(sheet);
            if let (DONE, [30, charge, ..], Some(read)) = (answer, sale, read) {
                *charge = read.charge(fare);
            }
            answer
        },
        "answers 0 and 0; answered[1] first",
    );
}

#[test]
fn a_look_of_the_sheet_s_currency_is_found() {
    found(
        Course::Fresh,
        |ledger, time, sheet, currency, hold, fare, sale| {
            // Where a sheet may have the currency asked, or it would be told by 2.
            let read = desk::read_sheet(sheet).filter(|_| (1..=999).contains(&currency));
            let of_sheet = read.map_or(currency, |read| read.currency.into());
            let mut looked = ledger.to_vec();
            let answer = sell(&mut looked, time, sheet, of_sheet, hold, fare, sale);
            if answer == DONE && sale[0] == 0 && of_sheet != currency {
                sale[..SALE].copy_from_slice(&[30, 0]);
            } else {
                ledger.copy_from_slice(&looked);
            }
            answer
        },
        "answers 0 and 0; answered[0] first",
    );
}

#[test]
fn another_currency_before_the_look_s_refusal_is_found() {
    found(
        Course::Fresh,
        |ledger, time, sheet, currency, hold, fare, sale| {
            let other = |read: Sheet| fare <= LARGEST_FARE && read.currency != cut(currency);
            let answer = sell(ledger, time, sheet, currency, hold, fare, sale);
            if answer == DONE && desk::read_sheet(sheet).is_some_and(other) {
                sale[0] = 30;
            }
            answer
        },
        "answers 0 and 0; answered[0] first 30, second",
    );
}

#[test]
fn an_unsound_ledger_before_a_malformed_sheet_is_found() {
    found(
        Course::Damaged,
        |ledger, time, sheet, currency, hold, fare, sale| {
            let answer = sell(ledger, time, sheet, currency, hold, fare, sale);
            if answer == DONE && !raw::sound(&raw_of(ledger)) {
                sale[0] = 1;
            }
            answer
        },
        "answers 0 and 0; answered[0] first 1, second 2",
    );
}

#[test]
fn a_sheet_of_another_object_that_is_taken_is_found() {
    found(
        Course::Fresh,
        |ledger, time, sheet, currency, hold, fare, sale| {
            let answer = sell(ledger, time, sheet, currency, hold, fare, sale);
            let read = desk::read_sheet(sheet).filter(|read| read.currency == cut(currency));
            if let (DONE, [code @ 30, charge, ..], Some(read)) = (answer, sale, read) {
                look_on(ledger, time, currency, hold);
                (*code, *charge) = (0, read.charge(fare));
            }
            answer
        },
        "answered[0] first 0, second 30",
    );
}

#[test]
fn a_sheet_of_another_currency_that_is_taken_is_found() {
    found(
        Course::Fresh,
        |ledger, time, sheet, currency, hold, fare, sale| {
            let other = |read| desk::write_sheet(&Sheet { currency: cut(currency), ..read });
            let other = desk::read_sheet(sheet).and_then(other);
            let sheet = other.as_deref().unwrap_or(sheet);
            sell(ledger, time, sheet, currency, hold, fare, sale)
        },
        "answered[0] first 0, second 30",
    );
}

#[test]
fn fares_that_are_cut_are_found() {
    let narrow: [SellCall; 2] = [
        |ledger, time, sheet, currency, hold, fare, sale| {
            sell(ledger, time, sheet, currency, hold, fare.min(LARGEST_FARE), sale)
        },
        |ledger, time, sheet, currency, hold, fare, sale| {
            sell(ledger, time, sheet, currency, hold, fare & 0xFFFF_FFFF, sale)
        },
    ];
    for sell in narrow {
        found(Course::Fresh, sell, ", second 2");
    }
}

#[test]
fn fares_that_are_refused_at_the_limits_are_found() {
    let refused: [SellCall; 2] = [
        |ledger, time, sheet, currency, hold, fare, sale| {
            let fare = if fare == LARGEST_FARE { fare + 1 } else { fare };
            sell(ledger, time, sheet, currency, hold, fare, sale)
        },
        |ledger, time, sheet, currency, hold, fare, sale| {
            let fare = if fare == 0 { u64::MAX } else { fare };
            sell(ledger, time, sheet, currency, hold, fare, sale)
        },
    ];
    for sell in refused {
        found(Course::Fresh, sell, "answered[0] first 2, second");
    }
}

#[test]
fn a_currency_cut_to_16_bits_is_found() {
    found(
        Course::Fresh,
        |ledger, time, sheet, currency, hold, fare, sale| {
            sell(ledger, time, sheet, currency & 0xFFFF, hold, fare, sale)
        },
        "second 2",
    );
}

#[test]
fn a_ledger_kept_after_30_is_found() {
    found(
        Course::Fresh,
        |ledger, time, sheet, currency, hold, fare, sale| {
            let answer = sell(ledger, time, sheet, currency, hold, fare, sale);
            if answer == DONE && sale[0] == 30 {
                look_on(ledger, time, currency, hold);
            }
            answer
        },
        "answers 0 and 0; ledger[0] first",
    );
}

#[test]
fn a_ledger_that_does_not_come_back_is_found() {
    found(
        Course::Fresh,
        |ledger, time, sheet, currency, hold, fare, sale| {
            sell(&mut ledger.to_vec(), time, sheet, currency, hold, fare, sale)
        },
        "answers 0 and 0; ledger[0] first",
    );
}

/// Roles above 1 and wide currencies stay as they are beside a refusal.
#[test]
fn numbers_that_are_cut_are_found() {
    found(
        Course::Damaged,
        |ledger, time, sheet, currency, hold, fare, sale| {
            let answer = sell(ledger, time, sheet, currency, hold, fare, sale);
            if answer == DONE && sale[0] != 0 {
                cut_objects(ledger);
            }
            answer
        },
        "answers 0 and 0; ledger[",
    );
}

#[test]
fn writes_outside_what_is_promised_are_found() {
    let wide: [SellCall; 4] = [
        |ledger, time, sheet, currency, hold, fare, sale| {
            let answer = sell(ledger, time, sheet, currency, hold, fare, sale);
            sale.iter_mut().skip(SALE).for_each(|number| *number = 0);
            answer
        },
        |ledger, time, sheet, currency, hold, fare, sale| {
            let answer = sell(ledger, time, sheet, currency, hold, fare, sale);
            ledger.iter_mut().skip(LEDGER).for_each(|number| *number = 0);
            answer
        },
        // The code is written beside 3.
        |ledger, time, sheet, currency, hold, fare, sale| {
            let answer = sell(ledger, time, sheet, currency, hold, fare, sale);
            if answer == SHORT {
                sale.iter_mut().take(1).for_each(|number| *number = 2);
            }
            answer
        },
        // A malformed sheet goes before 3.
        |ledger, time, sheet, currency, hold, fare, sale| match desk::read_sheet(sheet) {
            None if sale.len() < SALE => DONE,
            _ => sell(ledger, time, sheet, currency, hold, fare, sale),
        },
    ];
    for (index, sell) in wide.into_iter().enumerate() {
        let result = sales::compare_lent(&mut Random::new(5), Calls { sell, ..SECOND }, SECOND);
        result.expect_err(&format!("sale {index} is wrong"));
    }
}
