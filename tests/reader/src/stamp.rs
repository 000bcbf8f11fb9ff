//! Document 02, order 1: "a timestamp reader: active and inactive, with time, time range or a second
//! date, each kind holding its date and its repeater or delay, or both in either order". The parts
//! are those of source 001, "Timestamps".

use crate::line::is_blank_byte;
use crate::Date;

/// One date of a timestamp with what belongs to it.
#[derive(Clone, Copy, Debug, PartialEq, Eq)]
pub struct Moment {
    pub date: Date,
    pub time: Option<Time>,
    pub repeater: Option<Repeater>,
    pub delay: Option<Delay>,
    /// Both are there, and the delay stands before the repeater.
    pub delay_first: bool,
}

/// "H:MM", as printed: minute 77 is one.
#[derive(Clone, Copy, Debug, PartialEq, Eq)]
pub struct Time {
    pub hour: u32,
    pub minute: u32,
}

/// "MARK VALUE UNIT" or "MARK VALUE UNIT/VALUE UNIT"; the marks `+`, `++`, `.+` are 1, 2, 3.
#[derive(Clone, Copy, Debug, PartialEq, Eq)]
pub struct Repeater {
    pub mark: u32,
    pub every: Amount,
    pub within: Option<Amount>,
}

/// "MARK VALUE UNIT"; the marks `-`, `--` are 1, 2.
#[derive(Clone, Copy, Debug, PartialEq, Eq)]
pub struct Delay {
    pub mark: u32,
    pub amount: Amount,
}

/// A number of one to nine digits and a unit, which is the small letter.
#[derive(Clone, Copy, Debug, PartialEq, Eq)]
pub struct Amount {
    pub value: u32,
    pub unit: u8,
}

#[derive(Clone, Copy, Debug, PartialEq, Eq)]
pub struct Stamp {
    pub active: bool,
    pub dates: Dates,
}

/// What a timestamp holds: one date, one with a time range, or two.
#[derive(Clone, Copy, Debug, PartialEq, Eq)]
pub enum Dates {
    One(Moment),
    /// The first time stands in the moment.
    TimeRange(Moment, Time),
    Two(Moment, Moment),
}

/// The timestamp at the front of `bytes`, and its length.
///
/// A second date is `--` and a stamp of the same brackets right after, and neither half has a time
/// range. What goes on otherwise is the first half alone.
pub fn stamp_of(bytes: &[u8]) -> Option<(Stamp, usize)> {
    let active = bytes.first() == Some(&b'<');
    let (first, length) = half(bytes)?;
    let stamp = |dates| Stamp { active, dates };
    let moment = match first {
        Half::TimeRange(moment, until) => {
            return Some((stamp(Dates::TimeRange(moment, until)), length))
        }
        Half::Date(moment) => moment,
    };
    match second_date(&bytes[length..], bytes[0]) {
        Some((second, more)) => Some((stamp(Dates::Two(moment, second)), length + more)),
        None => Some((stamp(Dates::One(moment)), length)),
    }
}

/// `--` and a date in brackets that open with `opening`, without a time range; and their length.
fn second_date(bytes: &[u8], opening: u8) -> Option<(Moment, usize)> {
    let bracketed = bytes.strip_prefix(b"--")?;
    if bracketed.first() != Some(&opening) {
        return None;
    }
    match half(bracketed)? {
        (Half::Date(moment), length) => Some((moment, b"--".len() + length)),
        (Half::TimeRange(..), _) => None,
    }
}

/// What one pair of brackets holds.
enum Half {
    Date(Moment),
    TimeRange(Moment, Time),
}

/// The half at the front of `bytes`, and its length: "opening bracket, [..] then the matching
/// bracket". No part of it has a closing bracket or byte 10.
fn half(bytes: &[u8]) -> Option<(Half, usize)> {
    let (opening, rest) = bytes.split_first()?;
    let closing = match opening {
        b'<' => b'>',
        b'[' => b']',
        _ => return None,
    };
    let length = rest
        .iter()
        .position(|byte| matches!(*byte, b'>' | b']' | 10))?;
    let is_closed = rest[length] == closing;
    let inside = is_closed.then_some(&rest[..length])?;
    Some((half_inside(inside)?, 1 + length + 1))
}

/// "One or more blank bytes between these parts, none after the opening or before the closing
/// bracket." The parts: a date, a day name, a time or a time range, a repeater and a delay.
fn half_inside(inside: &[u8]) -> Option<Half> {
    if is_blank_byte(*inside.first()?) || is_blank_byte(*inside.last()?) {
        return None;
    }
    let parts = inside.split(|byte| is_blank_byte(*byte));
    let parts: Vec<&[u8]> = parts.filter(|part| !part.is_empty()).collect();
    let (date, rest) = (date(parts[0])?, &parts[1..]);
    let (_, rest) = optional(rest, |part| is_day_name(part).then_some(()));
    let (times, rest) = optional(rest, times);
    let (repeater, delay, delay_first) = repeater_and_delay(rest)?;
    let moment = Moment {
        date,
        time: times.map(|(time, _)| time),
        repeater,
        delay,
        delay_first,
    };
    Some(match times {
        Some((_, Some(until))) => Half::TimeRange(moment, until),
        Some((_, None)) | None => Half::Date(moment),
    })
}

/// What the first part is when `read` knows it, and the parts after it; else all the parts.
fn optional<'p, 't, T>(
    parts: &'p [&'t [u8]],
    read: impl Fn(&'t [u8]) -> Option<T>,
) -> (Option<T>, &'p [&'t [u8]]) {
    match parts {
        [part, rest @ ..] => match read(part) {
            Some(found) => (Some(found), rest),
            None => (None, parts),
        },
        [] => (None, parts),
    }
}

/// "An instance of a single REPEATER and/or an instance of a single DELAY in any order", or nothing;
/// then whether both are there and the delay comes first.
fn repeater_and_delay(parts: &[&[u8]]) -> Option<(Option<Repeater>, Option<Delay>, bool)> {
    match parts {
        [] => Some((None, None, false)),
        [only] => match repeater(only) {
            Some(repeater) => Some((Some(repeater), None, false)),
            None => Some((None, Some(delay(only)?), false)),
        },
        [one, other] => match repeater(one) {
            Some(repeater) => Some((Some(repeater), Some(delay(other)?), false)),
            None => Some((Some(repeater(other)?), Some(delay(one)?), true)),
        },
        _ => None,
    }
}

/// "YYYY-MM-DD", each a digit. "Only a stamp's shape is judged".
fn date(part: &[u8]) -> Option<Date> {
    let mut fields = part.split(|byte| *byte == b'-');
    let date = Date {
        year: digits(fields.next()?, 4, 4)?,
        month: digits(fields.next()?, 2, 2)?,
        day: digits(fields.next()?, 2, 2)?,
    };
    fields.next().is_none().then_some(date)
}

/// "non-whitespace characters except `+`, `-`, `]`, `>`, a digit, or `\n`".
fn is_day_name(part: &[u8]) -> bool {
    let belongs = |byte: &u8| !matches!(*byte, b'+' | b'-' | b']' | b'>' | b'0'..=b'9' | 10);
    part.iter().all(belongs)
}

/// "`H:MM` where `H` represents a one to two digit number".
fn time(part: &[u8]) -> Option<Time> {
    let colon = part.iter().position(|byte| *byte == b':')?;
    Some(Time {
        hour: digits(&part[..colon], 1, 2)?,
        minute: digits(&part[colon + 1..], 2, 2)?,
    })
}

/// "TIME" or "TIME-TIME".
fn times(part: &[u8]) -> Option<(Time, Option<Time>)> {
    match part.iter().position(|byte| *byte == b'-') {
        Some(hyphen) => Some((time(&part[..hyphen])?, Some(time(&part[hyphen + 1..])?))),
        None => Some((time(part)?, None)),
    }
}

/// "MARK :: Either the string `+`, `++`, or `.+`", then an amount, perhaps `/` and another.
fn repeater(part: &[u8]) -> Option<Repeater> {
    let (mark, rest) = marked(part, &[b"+", b"++", b".+"])?;
    let mut amounts = rest.split(|byte| *byte == b'/');
    let every = amount(amounts.next()?)?;
    let within = match amounts.next() {
        Some(within) => Some(amount(within)?),
        None => None,
    };
    amounts.next().is_none().then_some(Repeater {
        mark,
        every,
        within,
    })
}

/// "MARK :: Either `-` or `--`", then an amount.
fn delay(part: &[u8]) -> Option<Delay> {
    let (mark, rest) = marked(part, &[b"-", b"--"])?;
    let amount = amount(rest)?;
    Some(Delay { mark, amount })
}

/// Which of the marks, counted from 1, stands before the first digit, and what follows it.
fn marked<'t>(part: &'t [u8], marks: &[&[u8]]) -> Option<(u32, &'t [u8])> {
    let digit = part.iter().position(u8::is_ascii_digit)?;
    let (before, rest) = part.split_at(digit);
    let place = marks.iter().position(|mark| *mark == before)?;
    Some((place as u32 + 1, rest))
}

/// "their numbers of one to nine digits", then `h`, `d`, `w`, `m` or `y` in either case.
fn amount(bytes: &[u8]) -> Option<Amount> {
    let (last, value) = bytes.split_last()?;
    let unit = last.to_ascii_lowercase();
    let is_unit = matches!(unit, b'h' | b'd' | b'w' | b'm' | b'y');
    is_unit.then_some(Amount {
        value: digits(value, 1, 9)?,
        unit,
    })
}

/// The number written in `bytes`, which are `fewest` to `most` digits and nothing else.
fn digits(bytes: &[u8], fewest: usize, most: usize) -> Option<u32> {
    let fits = (fewest..=most).contains(&bytes.len()) && bytes.iter().all(u8::is_ascii_digit);
    let add = |number: u32, digit: &u8| number * 10 + u32::from(digit - b'0');
    fits.then(|| bytes.iter().fold(0, add))
}
