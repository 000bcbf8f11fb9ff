use std::fmt::{self, Display, Formatter};

use crate::ffi;

/// The unit of an [`Interval`]. It is displayed as its small letter.
#[derive(Clone, Copy, Debug, PartialEq, Eq, Hash)]
pub enum Unit {
    /// `h`
    Hour,
    /// `d`
    Day,
    /// `w`
    Week,
    /// `m`
    Month,
    /// `y`
    Year,
}

impl Unit {
    fn from_letter(letter: u32) -> Unit {
        match u8::try_from(letter) {
            Ok(b'h') => Unit::Hour,
            Ok(b'd') => Unit::Day,
            Ok(b'w') => Unit::Week,
            Ok(b'm') => Unit::Month,
            Ok(b'y') => Unit::Year,
            _ => unreachable!("a unit is a letter of `hdwmy`, not {letter}"),
        }
    }
}

impl Display for Unit {
    fn fmt(&self, f: &mut Formatter<'_>) -> fmt::Result {
        f.write_str(match self {
            Unit::Hour => "h",
            Unit::Day => "d",
            Unit::Week => "w",
            Unit::Month => "m",
            Unit::Year => "y",
        })
    }
}

/// A number of units, such as `2w`.
#[derive(Clone, Copy, Debug, PartialEq, Eq, Hash)]
pub struct Interval {
    /// How many; one to nine digits in a text.
    pub count: u32,
    /// Of what.
    pub unit: Unit,
}

impl Interval {
    fn from_ffi(count: u32, letter: u32) -> Interval {
        let unit = Unit::from_letter(letter);
        Interval { count, unit }
    }
}

impl Display for Interval {
    fn fmt(&self, f: &mut Formatter<'_>) -> fmt::Result {
        write!(f, "{}{}", self.count, self.unit)
    }
}

/// The mark of a [`Repeater`]. It is displayed as it is written.
#[derive(Clone, Copy, Debug, PartialEq, Eq, Hash)]
pub enum Mark {
    /// `+`, the cumulative type.
    Cumulate,
    /// `++`, the catch-up type.
    CatchUp,
    /// `.+`, the restart type.
    Restart,
}

impl Display for Mark {
    fn fmt(&self, f: &mut Formatter<'_>) -> fmt::Result {
        f.write_str(match self {
            Mark::Cumulate => "+",
            Mark::CatchUp => "++",
            Mark::Restart => ".+",
        })
    }
}

/// A repeater, such as `+1w` or `.+1d/3d`.
#[derive(Clone, Copy, Debug, PartialEq, Eq, Hash)]
pub struct Repeater {
    /// Its type.
    pub mark: Mark,
    /// What follows the mark.
    pub every: Interval,
    /// What follows a `/` after that.
    pub within: Option<Interval>,
}

impl Repeater {
    fn from_ffi(moment: &ffi::Moment) -> Option<Repeater> {
        let mark = match moment.repeat_mark {
            0 => return None,
            1 => Mark::Cumulate,
            2 => Mark::CatchUp,
            3 => Mark::Restart,
            other => unreachable!("a repeater's mark is 1 to 3, not {other}"),
        };
        let within = || Interval::from_ffi(moment.within, moment.within_unit);
        Some(Repeater {
            mark,
            every: Interval::from_ffi(moment.every, moment.every_unit),
            within: (moment.within_unit != 0).then(within),
        })
    }
}

impl Display for Repeater {
    fn fmt(&self, f: &mut Formatter<'_>) -> fmt::Result {
        write!(f, "{}{}", self.mark, self.every)?;
        match self.within {
            None => Ok(()),
            Some(within) => write!(f, "/{within}"),
        }
    }
}

/// A delay, such as `-3d` or `--2d`.
#[derive(Clone, Copy, Debug, PartialEq, Eq, Hash)]
pub struct Delay {
    /// Whether its mark is `--`, the first type, and not `-`, the all type.
    pub first_only: bool,
    /// What follows the mark.
    pub by: Interval,
}

impl Delay {
    fn from_ffi(moment: &ffi::Moment) -> Option<Delay> {
        let first_only = match moment.delay_mark {
            0 => return None,
            1 => false,
            2 => true,
            other => unreachable!("a delay's mark is 1 or 2, not {other}"),
        };
        let by = Interval::from_ffi(moment.delay, moment.delay_unit);
        Some(Delay { first_only, by })
    }
}

impl Display for Delay {
    fn fmt(&self, f: &mut Formatter<'_>) -> fmt::Result {
        let mark = if self.first_only { "--" } else { "-" };
        write!(f, "{mark}{}", self.by)
    }
}

/// A repeater, a delay, or both, in the order in which they stand.
///
/// ```
/// let found = comaltzex::timestamp(b"<2030-10-05 Sat +1m -3d>", 0).unwrap();
/// let repeats = found.timestamp.start().repeats;
/// assert_eq!(repeats.to_string(), "+1m -3d");
/// assert_eq!(repeats.delay().unwrap().by.count, 3);
/// ```
#[derive(Clone, Copy, Debug, PartialEq, Eq, Hash)]
pub enum Repeats {
    /// Neither of them.
    Nothing,
    /// A repeater only.
    Repeater(Repeater),
    /// A delay only.
    Delay(Delay),
    /// A repeater, then a delay.
    RepeaterDelay(Repeater, Delay),
    /// A delay, then a repeater.
    DelayRepeater(Delay, Repeater),
}

impl Repeats {
    /// The repeater, wherever it stands.
    pub fn repeater(self) -> Option<Repeater> {
        match self {
            Repeats::Nothing | Repeats::Delay(_) => None,
            Repeats::Repeater(repeater)
            | Repeats::RepeaterDelay(repeater, _)
            | Repeats::DelayRepeater(_, repeater) => Some(repeater),
        }
    }

    /// The delay, wherever it stands.
    pub fn delay(self) -> Option<Delay> {
        match self {
            Repeats::Nothing | Repeats::Repeater(_) => None,
            Repeats::Delay(delay)
            | Repeats::RepeaterDelay(_, delay)
            | Repeats::DelayRepeater(delay, _) => Some(delay),
        }
    }

    pub(crate) fn from_ffi(moment: &ffi::Moment) -> Repeats {
        match (Repeater::from_ffi(moment), Delay::from_ffi(moment)) {
            (None, None) => Repeats::Nothing,
            (Some(repeater), None) => Repeats::Repeater(repeater),
            (None, Some(delay)) => Repeats::Delay(delay),
            (Some(repeater), Some(delay)) if moment.delay_first == 0 => {
                Repeats::RepeaterDelay(repeater, delay)
            }
            (Some(repeater), Some(delay)) => Repeats::DelayRepeater(delay, repeater),
        }
    }
}

impl Display for Repeats {
    fn fmt(&self, f: &mut Formatter<'_>) -> fmt::Result {
        match self {
            Repeats::Nothing => Ok(()),
            Repeats::Repeater(repeater) => write!(f, "{repeater}"),
            Repeats::Delay(delay) => write!(f, "{delay}"),
            Repeats::RepeaterDelay(repeater, delay) => write!(f, "{repeater} {delay}"),
            Repeats::DelayRepeater(delay, repeater) => write!(f, "{delay} {repeater}"),
        }
    }
}
