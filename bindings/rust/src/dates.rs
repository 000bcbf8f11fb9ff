use std::fmt::{self, Display, Formatter};

use crate::ffi::{self, number};
use crate::DateRefusal;

/// A date as a text has it, or as a caller makes it. It need not be a calendar day:
/// only [`days_between`] asks for that.
///
/// Dates are ordered by year, month and day, and displayed in Org's form:
///
/// ```
/// use comaltzex::Date;
///
/// let date = Date { year: 2026, month: 3, day: 5 };
/// assert_eq!(date.to_string(), "2026-03-05");
/// ```
#[derive(Clone, Copy, Debug, PartialEq, Eq, PartialOrd, Ord, Hash)]
pub struct Date {
    /// The year, four digits in a text.
    pub year: u32,
    /// The month, from 1 for January.
    pub month: u32,
    /// The day of the month, from 1.
    pub day: u32,
}

impl Date {
    pub(crate) fn from_ffi(date: ffi::Date) -> Date {
        let ffi::Date { year, month, day } = date;
        Date { year, month, day }
    }

    fn to_ffi(self) -> ffi::Date {
        let Date { year, month, day } = self;
        ffi::Date { year, month, day }
    }
}

impl Display for Date {
    fn fmt(&self, f: &mut Formatter<'_>) -> fmt::Result {
        write!(f, "{:04}-{:02}-{:02}", self.year, self.month, self.day)
    }
}

/// How many days the second date is after the first: below 0 if it is before it, 0
/// if they are equal. The calendar is the Gregorian one throughout.
///
/// ```
/// use comaltzex::{days_between, Date, DateRefusal};
///
/// let today = Date { year: 2026, month: 11, day: 16 };
/// let deadline = Date { day: 20, ..today };
/// assert_eq!(days_between(today, deadline), Ok(4));
/// assert_eq!(days_between(deadline, today), Ok(-4));
///
/// let no_day = Date { day: 31, ..today };
/// assert_eq!(days_between(today, no_day), Err(DateRefusal::NoDay));
/// ```
///
/// # Errors
///
/// [`DateRefusal::NoDay`] if one of the dates is no calendar day of years 1 to 9999.
pub fn days_between(first: Date, second: Date) -> Result<i32, DateRefusal> {
    let answer = ffi::days_between(first.to_ffi(), second.to_ffi());
    match answer.number {
        number::OK => Ok(answer.days),
        number::NO_DAY => Err(DateRefusal::NoDay),
        other => unreachable!("a count of days answers 0 or 11, not {other}"),
    }
}
