use crate::ffi::{self, number};
use crate::{PlanningRefusal, Timestamp};

/// The timestamps of a planning line; of a keyword that repeats, the last. A heading
/// without a planning line has none of them.
#[derive(Clone, Copy, Debug, Default, PartialEq, Eq, Hash)]
pub struct Planning {
    /// What follows `CLOSED:`.
    pub closed: Option<Timestamp>,
    /// What follows `DEADLINE:`.
    pub deadline: Option<Timestamp>,
    /// What follows `SCHEDULED:`.
    pub scheduled: Option<Timestamp>,
}

/// Reads the planning line of the heading whose line starts at byte `at`, a heading
/// record's `span.start`: the line right after it, if that is keywords with their
/// timestamps and nothing else. Keywords match in either case.
///
/// ```
/// use comaltzex::{days_between, planning, Date, Planning};
///
/// let plan = planning(b"* A\nSCHEDULED: <2026-11-16> DEADLINE: <2026-11-20 Fri>\n", 0)?;
/// let deadline = plan.deadline.unwrap();
/// assert_eq!(deadline.to_string(), "<2026-11-20>");
/// assert_eq!(plan.closed, None);
///
/// let today = Date { year: 2026, month: 11, day: 18 };
/// assert_eq!(days_between(today, deadline.start().date), Ok(2));
///
/// // words are no date, and the line is no planning line
/// assert_eq!(planning(b"* B\nDEADLINE: soon\n", 0)?, Planning::default());
/// # Ok::<(), comaltzex::PlanningRefusal>(())
/// ```
///
/// # Errors
///
/// The first that holds of [`TooLong`](PlanningRefusal::TooLong) and
/// [`NoHeading`](PlanningRefusal::NoHeading).
pub fn planning(text: &[u8], at: usize) -> Result<Planning, PlanningRefusal> {
    let plan = ffi::planning(text, at);
    match plan.number {
        number::OK => Ok(Planning {
            closed: from_ffi(&plan.closed),
            deadline: from_ffi(&plan.deadline),
            scheduled: from_ffi(&plan.scheduled),
        }),
        number::TOO_LONG => Err(PlanningRefusal::TooLong),
        number::NO_HEADING => Err(PlanningRefusal::NoHeading),
        other => unreachable!("a planning line's answer is 0, 1 or 4, not {other}"),
    }
}

fn from_ffi(stamp: &ffi::Stamp) -> Option<Timestamp> {
    Timestamp::from_ffi(stamp.kind, &stamp.first, &stamp.second)
}
