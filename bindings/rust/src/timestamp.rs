use std::fmt::{self, Display, Formatter};
use std::ops::Range;

use crate::ffi::{self, stamp_kind};
use crate::{Date, Repeats};

/// A time of day as a text has it: only its shape is judged, so minute 77 may be.
/// It is displayed as `HH:MM`.
#[derive(Clone, Copy, Debug, PartialEq, Eq, PartialOrd, Ord, Hash)]
pub struct Time {
    /// The hour, one or two digits in a text.
    pub hour: u32,
    /// The minute, two digits in a text.
    pub minute: u32,
}

impl Time {
    /// The time of a moment that has one.
    fn from_ffi(moment: &ffi::Moment) -> Time {
        let ffi::Moment { hour, minute, .. } = *moment;
        Time { hour, minute }
    }
}

impl Display for Time {
    fn fmt(&self, f: &mut Formatter<'_>) -> fmt::Result {
        write!(f, "{:02}:{:02}", self.hour, self.minute)
    }
}

/// A date of a timestamp and what goes with it. It is displayed as it stands between
/// brackets, without a day name: `2026-11-16 09:30 +1w`.
#[derive(Clone, Copy, Debug, PartialEq, Eq, Hash)]
pub struct Moment {
    /// The date; it need not be a calendar day.
    pub date: Date,
    /// Its time, if it has one.
    pub time: Option<Time>,
    /// Its repeater and delay, if it has any.
    pub repeats: Repeats,
}

impl Moment {
    fn from_ffi(moment: &ffi::Moment) -> Moment {
        let time = Time::from_ffi(moment);
        Moment {
            date: Date::from_ffi(moment.date),
            time: (moment.has_time != 0).then_some(time),
            repeats: Repeats::from_ffi(moment),
        }
    }
}

impl Display for Moment {
    fn fmt(&self, f: &mut Formatter<'_>) -> fmt::Result {
        write!(f, "{}", self.date)?;
        if let Some(time) = self.time {
            write!(f, " {time}")?;
        }
        write_repeats(f, self.repeats)
    }
}

fn write_repeats(f: &mut Formatter<'_>, repeats: Repeats) -> fmt::Result {
    match repeats {
        Repeats::Nothing => Ok(()),
        repeats => write!(f, " {repeats}"),
    }
}

/// A timestamp. An active one has the brackets `<` and `>`, an inactive one `[` and
/// `]`.
///
/// It is displayed in Org's form, without day names. A timestamp that was read reads
/// as the same one when it has been displayed:
///
/// ```
/// use comaltzex::timestamp;
///
/// let read = timestamp(b"[2026-11-16 Mon 9:30-10:00  .+1W/2w -3d]", 0).unwrap();
/// let displayed = read.timestamp.to_string();
/// assert_eq!(displayed, "[2026-11-16 09:30-10:00 .+1w/2w -3d]");
///
/// let again = timestamp(displayed.as_bytes(), 0).unwrap();
/// assert_eq!(again.timestamp, read.timestamp);
/// ```
#[derive(Clone, Copy, Debug, PartialEq, Eq, Hash)]
pub enum Timestamp {
    /// One date, with a time or without: `<2026-11-16 09:30>`.
    Single {
        /// Whether it is active.
        active: bool,
        /// The date and what goes with it.
        moment: Moment,
    },
    /// One date with a time range: `<2026-11-16 09:30-10:00>`.
    TimeRange {
        /// Whether it is active.
        active: bool,
        /// The date; it need not be a calendar day.
        date: Date,
        /// The range's first time.
        start: Time,
        /// The range's second time; it need not be after the first.
        end: Time,
        /// The repeater and delay, if there are any.
        repeats: Repeats,
    },
    /// Two dates, each with a time or without: `<2026-11-16>--<2026-11-17>`.
    DateRange {
        /// Whether it is active: both dates are, or neither.
        active: bool,
        /// The first date and what goes with it.
        start: Moment,
        /// The second date and what goes with it; it need not be after the first.
        end: Moment,
    },
}

impl Timestamp {
    /// Whether it is active: `<..>`, not `[..]`.
    pub fn is_active(&self) -> bool {
        match *self {
            Timestamp::Single { active, .. }
            | Timestamp::TimeRange { active, .. }
            | Timestamp::DateRange { active, .. } => active,
        }
    }

    /// The moment that it starts with: its date, or the first of two; with a time
    /// range, the first time.
    ///
    /// ```
    /// let deadline = comaltzex::timestamp(b"<2026-11-20 Fri 17:00>", 0).unwrap();
    /// assert_eq!(deadline.timestamp.start().date.to_string(), "2026-11-20");
    /// ```
    pub fn start(&self) -> Moment {
        match *self {
            Timestamp::Single { moment, .. } => moment,
            Timestamp::TimeRange {
                date,
                start,
                repeats,
                ..
            } => Moment {
                date,
                time: Some(start),
                repeats,
            },
            Timestamp::DateRange { start, .. } => start,
        }
    }

    /// `None` if the kind says that there is no timestamp.
    pub(crate) fn from_ffi(
        kind: u32,
        first: &ffi::Moment,
        second: &ffi::Moment,
    ) -> Option<Timestamp> {
        match kind {
            stamp_kind::NONE => None,
            stamp_kind::ACTIVE => Some(Timestamp::single(true, first)),
            stamp_kind::ACTIVE_TIMES => Some(Timestamp::time_range(true, first, second)),
            stamp_kind::ACTIVE_DATES => Some(Timestamp::date_range(true, first, second)),
            stamp_kind::INACTIVE => Some(Timestamp::single(false, first)),
            stamp_kind::INACTIVE_TIMES => Some(Timestamp::time_range(false, first, second)),
            stamp_kind::INACTIVE_DATES => Some(Timestamp::date_range(false, first, second)),
            other => unreachable!("a timestamp's kind is 0 to 6, not {other}"),
        }
    }

    fn single(active: bool, moment: &ffi::Moment) -> Timestamp {
        let moment = Moment::from_ffi(moment);
        Timestamp::Single { active, moment }
    }

    fn time_range(active: bool, first: &ffi::Moment, second: &ffi::Moment) -> Timestamp {
        Timestamp::TimeRange {
            active,
            date: Date::from_ffi(first.date),
            start: Time::from_ffi(first),
            end: Time::from_ffi(second),
            repeats: Repeats::from_ffi(first),
        }
    }

    fn date_range(active: bool, first: &ffi::Moment, second: &ffi::Moment) -> Timestamp {
        Timestamp::DateRange {
            active,
            start: Moment::from_ffi(first),
            end: Moment::from_ffi(second),
        }
    }
}

impl Display for Timestamp {
    fn fmt(&self, f: &mut Formatter<'_>) -> fmt::Result {
        let [open, close] = if self.is_active() {
            ["<", ">"]
        } else {
            ["[", "]"]
        };
        match self {
            Timestamp::Single { moment, .. } => write!(f, "{open}{moment}{close}"),
            Timestamp::TimeRange {
                date,
                start,
                end,
                repeats,
                ..
            } => {
                write!(f, "{open}{date} {start}-{end}")?;
                write_repeats(f, *repeats)?;
                f.write_str(close)
            }
            Timestamp::DateRange { start, end, .. } => {
                write!(f, "{open}{start}{close}--{open}{end}{close}")
            }
        }
    }
}

/// A timestamp and where it stands.
#[derive(Clone, Debug, PartialEq, Eq, Hash)]
pub struct FoundTimestamp {
    /// The timestamp.
    pub timestamp: Timestamp,
    /// All its bytes, from bracket to bracket.
    pub span: Range<usize>,
}

/// Reads the timestamp that starts at byte `at`; `None` if none starts there. The
/// text may be of any length.
///
/// Between brackets stand a date and, as there are any, a day name, a time or time
/// range, a repeater and a delay in either order, with blank bytes between them. A
/// second date follows as `--` and the same, without a time range, in the same
/// brackets. Only the shape is judged: 30 February is a date. Diary timestamps,
/// `<%%(..)>`, are not read.
///
/// ```
/// use comaltzex::{timestamp, Timestamp};
///
/// let text = b"due <2026-11-20 Fri> at noon";
/// let found = timestamp(text, 4).unwrap();
/// assert_eq!(&text[found.span], b"<2026-11-20 Fri>");
/// assert_eq!(found.timestamp.to_string(), "<2026-11-20>");
/// assert!(matches!(found.timestamp, Timestamp::Single { active: true, .. }));
///
/// assert_eq!(timestamp(text, 0), None);
/// ```
pub fn timestamp(text: &[u8], at: usize) -> Option<FoundTimestamp> {
    let answer = ffi::timestamp(text, at);
    let timestamp = Timestamp::from_ffi(answer.kind, &answer.first, &answer.second)?;
    Some(FoundTimestamp {
        timestamp,
        span: at..answer.end,
    })
}
