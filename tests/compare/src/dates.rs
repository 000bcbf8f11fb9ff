//! One text against both readers: timestamps and planning; and the day count on seeded dates
//! (document 02, order 1).

use plain_reader::{Date, StampNumbers, NO_STAMP};

use crate::check::star_places;
use crate::random::Random;
use crate::subject::{LIBRARY, PLAIN_READER};

/// Has a stamp something?
type Has = fn(&StampNumbers) -> bool;

/// What a stamp may have; one stamp may have several.
pub const PARTS: [(&str, Has); 17] = [
    ("active", |stamp| stamp[0] == 1),
    ("active times", |stamp| stamp[0] == 2),
    ("active dates", |stamp| stamp[0] == 3),
    ("inactive", |stamp| stamp[0] == 4),
    ("inactive times", |stamp| stamp[0] == 5),
    ("inactive dates", |stamp| stamp[0] == 6),
    ("time", |stamp| stamp[4] == 1),
    ("`+`", |stamp| stamp[7] == 1),
    ("`++`", |stamp| stamp[7] == 2),
    ("`.+`", |stamp| stamp[7] == 3),
    ("`/`", |stamp| stamp[11] != 0),
    ("`-`", |stamp| stamp[12] == 1),
    ("`--`", |stamp| stamp[12] == 2),
    ("delay first", |stamp| stamp[15] == 1),
    ("second time", |stamp| stamp[0] % 3 == 0 && stamp[19] == 1),
    ("second repeater", |stamp| stamp[22] != 0),
    ("second delay", |stamp| stamp[27] != 0),
];

/// Has a planning answer met something?
type Meets = fn(&Planned) -> bool;

/// What a planning call may meet.
pub const PLANNED: [(&str, Meets); 8] = [
    ("number 1", |planned| planned.number == 1),
    ("number 4", |planned| planned.number == 4),
    ("closed", |planned| planned.stamps[0] != NO_STAMP),
    ("deadline", |planned| planned.stamps[1] != NO_STAMP),
    ("scheduled", |planned| planned.stamps[2] != NO_STAMP),
    ("all three", |planned| !planned.stamps.contains(&NO_STAMP)),
    ("none", |planned| planned.is_empty()),
    ("nearly", |planned| planned.is_nearly()),
];

/// What a day count may give.
pub const COUNTED: [&str; 4] = ["number 11", "zero", "above zero", "below zero"];

/// How many stamps and answers of the plain reader had what.
#[derive(Default)]
pub struct DateTally {
    pub parts: [usize; PARTS.len()],
    pub no_stamps: usize,
    pub planned: [usize; PLANNED.len()],
    pub counted: [usize; COUNTED.len()],
}

impl DateTally {
    /// What stamps had, planning calls met and day counts gave: each name with how often.
    pub fn seen(&self) -> [(&'static str, Vec<(&'static str, usize)>); 3] {
        let parts = PARTS.iter().map(|(name, _)| *name).zip(self.parts);
        let planned = PLANNED.iter().map(|(name, _)| *name).zip(self.planned);
        let counted = COUNTED.iter().copied().zip(self.counted);
        [
            ("stamps", parts.chain([("none", self.no_stamps)]).collect()),
            ("planning", planned.collect()),
            ("days", counted.collect()),
        ]
    }
}

/// Planning at every line that begins with a star, and at a few other places; timestamps at every
/// opening bracket, and at a few other places.
pub fn check_dates(text: &[u8], random: &mut Random, tally: &mut DateTally) -> Result<(), String> {
    let mut elsewhere = [0, text.len(), usize::MAX, 0, 0];
    elsewhere[3..].fill_with(|| random.below(text.len() + 2));
    for at in star_places(text).chain(elsewhere) {
        check_planning(text, at, tally)?;
    }
    let brackets = (0..text.len()).filter(|at| matches!(text[*at], b'<' | b'['));
    for at in brackets.chain(elsewhere) {
        check_timestamp(text, at, tally)?;
    }
    Ok(())
}

fn check_timestamp(text: &[u8], at: usize, tally: &mut DateTally) -> Result<(), String> {
    let expected = (PLAIN_READER.timestamp)(text, at);
    let seen = (LIBRARY.timestamp)(text, at);
    tally.no_stamps += usize::from(expected.1 == NO_STAMP);
    for (count, (_, has)) in tally.parts.iter_mut().zip(PARTS) {
        *count += usize::from(has(&expected.1));
    }
    if expected == seen {
        return Ok(());
    }
    Err(format!(
        "timestamp at {at}:\n  plain reader {expected:?}\n  library      {seen:?}"
    ))
}

fn check_planning(text: &[u8], at: usize, tally: &mut DateTally) -> Result<(), String> {
    let expected = (PLAIN_READER.planning)(text, at);
    let seen = (LIBRARY.planning)(text, at);
    let planned = Planned {
        number: expected.0,
        stamps: expected.1,
        under: text.get(at..).unwrap_or_default(),
    };
    for (count, (_, meets)) in tally.planned.iter_mut().zip(PLANNED) {
        *count += usize::from(meets(&planned));
    }
    if expected == seen {
        return Ok(());
    }
    Err(format!(
        "planning at {at}:\n  plain reader {expected:?}\n  library      {seen:?}"
    ))
}

/// The plain reader's answer, and the text from the place of the call on.
pub struct Planned<'t> {
    number: u32,
    stamps: [StampNumbers; 3],
    under: &'t [u8],
}

impl Planned<'_> {
    fn is_empty(&self) -> bool {
        self.number == 0 && self.stamps == [NO_STAMP; 3]
    }

    /// The line after the heading's has a colon and an opening bracket, and yet plans nothing.
    fn is_nearly(&self) -> bool {
        let mut lines = self.under.split(|byte| *byte == 10);
        let line = lines.nth(1).unwrap_or_default();
        let has = |bytes: &[u8]| line.windows(bytes.len()).any(|window| window == bytes);
        self.is_empty() && (has(b": <2") || has(b": [2"))
    }
}

/// The day count on seeded dates, one way and back.
pub fn check_days(random: &mut Random, tally: &mut DateTally) -> Result<(), String> {
    let (first, second) = (date(random), date(random));
    for (first, second) in [(first, second), (second, first), (first, first)] {
        let expected = (PLAIN_READER.days_between)(first, second);
        let seen = (LIBRARY.days_between)(first, second);
        let sort = match expected {
            (0, 0) => 1,
            (0, 1..) => 2,
            (0, _) => 3,
            _ => 0,
        };
        tally.counted[sort] += 1;
        if expected != seen {
            return Err(format!(
                "days from {first} to {second}: plain reader {expected:?}, library {seen:?}"
            ));
        }
    }
    Ok(())
}

/// Years on both sides of what the day count takes, and such as are leap years or just not.
#[rustfmt::skip]
const YEARS: &[u32] = &[
    0, 1, 2, 3, 4, 5, 100, 400, 1582, 1600, 1900, 1904, 2000, 2023, 2024, 2100, 9996, 9998, 9999,
    10_000, 10_004, u32::MAX,
];

/// A date near what the calendar has; seldom one of any numbers.
fn date(random: &mut Random) -> Date {
    if random.chance(2) {
        return Date {
            year: random.below(1 << 32) as u32,
            month: random.below(1 << 32) as u32,
            day: random.below(1 << 32) as u32,
        };
    }
    let month = random.below(14) as u32;
    let day = random.below(33) as u32;
    Date {
        year: match random.chance(50) {
            true => YEARS[random.below(YEARS.len())],
            false => random.between(1, 9_999) as u32,
        },
        month: if random.chance(20) { 2 } else { month },
        day: if random.chance(20) { 29 } else { day },
    }
}
