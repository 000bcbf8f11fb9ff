//! Days between dates (document 02, order 1) through the safe interface.

use comaltzex::{days_between, Date, DateRefusal};

fn date(year: u32, month: u32, day: u32) -> Date {
    Date { year, month, day }
}

#[track_caller]
fn check_days(first: [u32; 3], second: [u32; 3], days: i32) {
    let [first, second] = [first, second].map(|[year, month, day]| date(year, month, day));
    assert_eq!(days_between(first, second), Ok(days));
    assert_eq!(days_between(second, first), Ok(-days));
}

#[test]
fn days_between_dates() {
    check_days([2024, 5, 5], [2024, 5, 5], 0);
    check_days([2023, 12, 31], [2024, 1, 1], 1);
    check_days([1, 1, 1], [9999, 12, 31], 3_652_058);
    check_days([1, 1, 1], [1, 1, 2], 1);
    check_days([9999, 12, 31], [9999, 12, 30], -1);
    check_days([9999, 12, 31], [9999, 12, 31], 0);
    check_days([2023, 2, 28], [2023, 3, 1], 1);
    check_days([1900, 2, 28], [1900, 3, 1], 1);
    check_days([2000, 2, 28], [2000, 3, 1], 2);
    check_days([4, 2, 28], [4, 3, 1], 2);
    check_days([1582, 10, 4], [1582, 10, 15], 11);
    check_days([2026, 11, 16], [2027, 11, 16], 365);
    check_days([2000, 1, 1], [2400, 1, 1], 146_097);
}

#[test]
fn no_calendar_days() {
    let dates = [
        [0, 1, 1],
        [10_000, 1, 1],
        [u32::MAX, 1, 1],
        [2024, 0, 1],
        [2024, 13, 1],
        [2024, u32::MAX, 1],
        [2024, 1, 0],
        [2024, 1, 32],
        [2024, 1, u32::MAX],
        [2023, 2, 29],
        [1900, 2, 29],
        [2024, 2, 30],
        [2024, 4, 31],
        [2024, 11, 31],
    ];
    let good = date(2024, 1, 1);
    for [year, month, day] in dates {
        let bad = date(year, month, day);
        assert_eq!(days_between(bad, good), Err(DateRefusal::NoDay), "{bad}");
        assert_eq!(days_between(good, bad), Err(DateRefusal::NoDay), "{bad}");
        assert_eq!(days_between(bad, bad), Err(DateRefusal::NoDay), "{bad}");
    }
}

#[test]
fn last_days_of_months() {
    let lengths = [31, 29, 31, 30, 31, 30, 31, 31, 30, 31, 30, 31];
    for (month, length) in (1..).zip(lengths) {
        let last = date(2000, month, length);
        assert!(days_between(last, last).is_ok(), "{last}");
        let past = date(2000, month, length + 1);
        assert!(days_between(past, past).is_err(), "{past}");
    }
}

#[test]
fn the_refusal_has_a_number_and_words() {
    let refusal = DateRefusal::NoDay;
    assert_eq!(refusal.number(), 11);
    assert_eq!(refusal.to_string(), "no calendar day of years 1 to 9999");
}
