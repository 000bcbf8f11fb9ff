//! A timestamp in numbers, in the order of the library's header. What a stamp lacks is 0, and no
//! stamp is all 0.

use crate::stamp::{stamp_of, Amount, Dates, Moment, Stamp, Time};

/// The date's three; is there a time (1, else 0), hour, minute; the repeater's mark, number, unit, and
/// number and unit after `/`; the delay's mark, number, unit; does it stand before the repeater.
pub type MomentNumbers = [u32; 15];

/// The kind, the first moment, the second one.
pub type StampNumbers = [u32; 1 + 15 + 15];

pub const NO_MOMENT: MomentNumbers = [0; 15];
pub const NO_STAMP: StampNumbers = [0; 31];

/// The timestamp that starts at byte `at` and the byte after it; all 0 where none starts there.
pub fn timestamp(text: &[u8], at: usize) -> (usize, StampNumbers) {
    match stamp_of(text.get(at..).unwrap_or_default()) {
        Some((stamp, length)) => (at + length, stamp.numbers()),
        None => (0, NO_STAMP),
    }
}

impl Stamp {
    pub fn numbers(&self) -> StampNumbers {
        let (kind, first, second) = match self.dates {
            Dates::One(moment) => (1, moment.numbers(), NO_MOMENT),
            Dates::TimeRange(moment, until) => (2, moment.numbers(), moment.until(until).numbers()),
            Dates::Two(first, second) => (3, first.numbers(), second.numbers()),
        };
        let mut numbers = NO_STAMP;
        numbers[0] = if self.active { kind } else { kind + 3 };
        numbers[1..16].copy_from_slice(&first);
        numbers[16..].copy_from_slice(&second);
        numbers
    }
}

impl Moment {
    /// The end of a time range: the same date with the second time, without repeater or delay.
    fn until(&self, time: Time) -> Moment {
        Moment {
            date: self.date,
            time: Some(time),
            repeater: None,
            delay: None,
            delay_first: false,
        }
    }

    fn numbers(&self) -> MomentNumbers {
        let time = self.time.map_or([0; 3], |time| [1, time.hour, time.minute]);
        let repeat_mark = self.repeater.map_or(0, |repeater| repeater.mark);
        let every = amount_numbers(self.repeater.map(|repeater| repeater.every));
        let within = amount_numbers(self.repeater.and_then(|repeater| repeater.within));
        let delay_mark = self.delay.map_or(0, |delay| delay.mark);
        let delay = amount_numbers(self.delay.map(|delay| delay.amount));
        [
            self.date.year,
            self.date.month,
            self.date.day,
            time[0],
            time[1],
            time[2],
            repeat_mark,
            every[0],
            every[1],
            within[0],
            within[1],
            delay_mark,
            delay[0],
            delay[1],
            u32::from(self.delay_first),
        ]
    }
}

fn amount_numbers(amount: Option<Amount>) -> [u32; 2] {
    amount.map_or([0; 2], |amount| [amount.value, u32::from(amount.unit)])
}
