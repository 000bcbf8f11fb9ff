//! Document 02, order 1: "days between two Gregorian dates, below zero when the second is earlier,
//! zero when equal". The days are counted, year by year and month by month.

use std::fmt;
use std::sync::OnceLock;

/// A date as it is written; it need be no calendar day.
#[derive(Clone, Copy, Debug, PartialEq, Eq)]
pub struct Date {
    pub year: u32,
    pub month: u32,
    pub day: u32,
}

impl fmt::Display for Date {
    fn fmt(&self, to: &mut fmt::Formatter) -> fmt::Result {
        write!(to, "{}-{}-{}", self.year, self.month, self.day)
    }
}

/// "11 a date is no calendar day of years 1 to 9999".
const NO_DAY: (u32, i32) = (11, 0);

const LAST_YEAR: u32 = 9_999;

const MONTH_LENGTHS: [u32; 12] = [31, 28, 31, 30, 31, 30, 31, 31, 30, 31, 30, 31];

/// The answer's number, and the days from the first date to the second.
pub fn days_between(first: Date, second: Date) -> (u32, i32) {
    match (days_since_year_1(first), days_since_year_1(second)) {
        (Some(first), Some(second)) => (0, second - first),
        _ => NO_DAY,
    }
}

/// How many days come before the date, from 1 January of year 1 on; none for what is no calendar
/// day.
fn days_since_year_1(date: Date) -> Option<i32> {
    let Date { year, month, day } = date;
    let is_day = (1..=LAST_YEAR).contains(&year)
        && (1..=12).contains(&month)
        && (1..=month_length(year, month)).contains(&day);
    let months = || (1..month).map(|earlier| month_length(year, earlier));
    is_day.then(|| (days_before_year(year) + months().sum::<u32>() + day - 1) as i32)
}

fn month_length(year: u32, month: u32) -> u32 {
    let leap_day = month == 2 && is_leap_year(year);
    MONTH_LENGTHS[month as usize - 1] + u32::from(leap_day)
}

/// Every fourth year, but of the full hundreds only every fourth.
fn is_leap_year(year: u32) -> bool {
    if year % 100 == 0 {
        year % 400 == 0
    } else {
        year % 4 == 0
    }
}

/// The lengths of the years before `year`, summed once for all years.
fn days_before_year(year: u32) -> u32 {
    static SUMS: OnceLock<Vec<u32>> = OnceLock::new();
    let sums = SUMS.get_or_init(|| {
        let mut days = 0;
        let mut sums = Vec::new();
        for year in 1..=LAST_YEAR {
            sums.push(days);
            days += if is_leap_year(year) { 366 } else { 365 };
        }
        sums
    });
    sums[year as usize - 1]
}
