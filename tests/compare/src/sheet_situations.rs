//! What a sheet call may meet (document 02, order 5).

use plain_reader::LONGEST_TEXT;

use crate::order::Part;
use crate::orders::{Damage, Fault, Seeded};
use crate::subject::SheetAnswer;
use crate::words::{BAD_KEYS, BAD_TEXTS, END_KEYS};

/// Has a call met something?
type Meets = fn(&Call) -> bool;

/// What a call may meet; one call may meet several. After 12 to 15 stands what is wrong with the
/// order, nothing else being wrong.
pub const SITUATIONS: [(&str, Meets); 62] = [
    ("room exact", |call| call.gave(0) && call.spare() == 0),
    ("room to spare", |call| call.gave(0) && call.spare() > 0),
    ("empty title", |call| {
        call.wrote() && call.title().is_empty()
    }),
    ("long title", |call| {
        call.wrote() && call.title().len() > 255
    }),
    ("no pairs", |call| call.wrote() && call.keys().count() == 0),
    ("16 pairs", |call| call.wrote() && call.keys().count() == 16),
    ("key of 64 bytes", |call| {
        call.wrote_key(|key| key.len() == 64)
    }),
    ("key with a colon", |call| {
        call.wrote_key(|key| key.contains(&b':'))
    }),
    ("empty value", |call| call.wrote_value(<[u8]>::is_empty)),
    ("long value", |call| {
        call.wrote_value(|value| value.len() > 255)
    }),
    ("value with a tab", |call| {
        call.wrote_value(|value| value.contains(&9))
    }),
    ("65,536 bytes", |call| {
        call.gave(0) && call.answer.1 == LONGEST_TEXT
    }),
    ("written though changed", |call| {
        call.gave(0) && call.has_damage(Damage::Changed)
    }),
    ("written though loose", |call| {
        call.gave(0) && call.has_damage(Damage::Loose)
    }),
    ("12 title length cut", |call| {
        call.is_damaged(Damage::Cut(Part::TitleLength))
    }),
    ("12 title cut", |call| {
        call.is_damaged(Damage::Cut(Part::Title))
    }),
    ("12 pair count cut", |call| {
        call.is_damaged(Damage::Cut(Part::PairCount))
    }),
    ("12 key length cut", |call| {
        call.is_damaged(Damage::Cut(Part::KeyLength))
    }),
    ("12 key cut", |call| call.is_damaged(Damage::Cut(Part::Key))),
    ("12 value length cut", |call| {
        call.is_damaged(Damage::Cut(Part::ValueLength))
    }),
    ("12 value cut", |call| {
        call.is_damaged(Damage::Cut(Part::Value))
    }),
    ("12 long", |call| call.is_damaged(Damage::Long)),
    ("12 title length wrong", |call| {
        call.is_damaged(Damage::OffByOne(Part::TitleLength))
    }),
    ("12 pair count wrong", |call| {
        call.is_damaged(Damage::OffByOne(Part::PairCount))
    }),
    ("12 key length wrong", |call| {
        call.is_damaged(Damage::OffByOne(Part::KeyLength))
    }),
    ("12 value length wrong", |call| {
        call.is_damaged(Damage::OffByOne(Part::ValueLength))
    }),
    ("12 17 pairs", |call| {
        call.has_only(12, Fault::Pairs) && call.keys().count() == 17
    }),
    ("13 in the title", |call| call.has_only(13, Fault::Title)),
    ("13 in the last value", |call| {
        call.has_only(13, Fault::Value) && call.is_last_value_bad()
    }),
    ("13 byte 10", |call| {
        call.has_bad_text(|text| text.contains(&10))
    }),
    ("13 byte 13 inside", |call| {
        call.has_bad_text(|text| inside(text).contains(&13))
    }),
    ("13 space in front", |call| {
        call.has_bad_text(|text| text.starts_with(b" "))
    }),
    ("13 space behind", |call| {
        call.has_bad_text(|text| text.ends_with(b" "))
    }),
    ("13 tab in front", |call| {
        call.has_bad_text(|text| text.starts_with(b"\t"))
    }),
    ("13 tab behind", |call| {
        call.has_bad_text(|text| text.ends_with(b"\t"))
    }),
    ("14 empty", |call| call.has_bad_key(<[u8]>::is_empty)),
    ("14 65 bytes", |call| {
        call.has_bad_key(|key| key.len() == 65)
    }),
    ("14 space", |call| call.has_bad_key(|key| key.contains(&32))),
    ("14 byte 10", |call| {
        call.has_bad_key(|key| key.contains(&10))
    }),
    ("14 plus", |call| {
        call.has_bad_key(|key| key.ends_with(b"+"))
    }),
    ("14 END", |call| call.has_bad_key(|key| key == b"END")),
    ("14 end", |call| call.has_bad_key(|key| key == b"end")),
    ("15 the same letters", |call| {
        call.has_only(15, Fault::Repeated) && call.is_copied()
    }),
    ("15 other letters", |call| {
        call.has_only(15, Fault::Repeated) && !call.is_copied()
    }),
    ("1 65,537 bytes", |call| {
        call.gave(1) && call.made_length() == LONGEST_TEXT + 1
    }),
    ("1 from over 65,536 bytes", |call| {
        call.gave(1) && call.seeded.buffer.len() > LONGEST_TEXT
    }),
    ("1 in room enough", |call| {
        call.gave(1) && call.room >= call.made_length()
    }),
    ("16 a byte too little", |call| {
        call.gave(16) && call.spare() == -1
    }),
    ("16 no room at all", |call| call.gave(16) && call.room == 0),
    ("12 before 13", |call| {
        call.gave(12) && (call.has(Fault::Title) || call.has(Fault::Value))
    }),
    ("12 before 14", |call| call.gave(12) && call.has(Fault::Key)),
    ("12 before 15", |call| {
        call.gave(12) && call.has(Fault::Repeated)
    }),
    ("12 before 1", |call| {
        call.gave(12) && call.has(Fault::Length)
    }),
    ("13 before 14", |call| call.gave(13) && call.has(Fault::Key)),
    ("13 before 14 in an earlier pair", |call| {
        call.gave(13) && call.is_bad_key_first()
    }),
    ("13 before 15", |call| {
        call.gave(13) && call.has(Fault::Repeated)
    }),
    ("13 before 1", |call| {
        call.gave(13) && call.has(Fault::Length)
    }),
    ("14 before 15", |call| {
        call.gave(14) && call.has(Fault::Repeated)
    }),
    ("14 before 1", |call| {
        call.gave(14) && call.has(Fault::Length)
    }),
    ("15 before 1", |call| {
        call.gave(15) && call.has(Fault::Length)
    }),
    ("1 before 16", |call| {
        call.gave(1) && call.room < call.made_length()
    }),
    ("12 to 15 before 16", |call| {
        matches!(call.answer.0, 12..=15) && call.room == 0
    }),
];

/// How many calls met each of `SITUATIONS`.
pub type Met = [usize; SITUATIONS.len()];

/// A call with its room, and the plain reader's answer.
pub struct Call<'s> {
    pub seeded: &'s Seeded,
    pub room: usize,
    pub answer: SheetAnswer,
}

impl<'s> Call<'s> {
    /// Counts what the call met.
    pub fn count(&self, met: &mut Met) {
        for (count, (_, meets)) in met.iter_mut().zip(SITUATIONS) {
            *count += usize::from(meets(self));
        }
    }

    fn gave(&self, number: u32) -> bool {
        self.answer.0 == number
    }

    /// The order is written as it was made.
    fn wrote(&self) -> bool {
        self.gave(0) && self.seeded.damage.is_none()
    }

    fn has(&self, fault: Fault) -> bool {
        self.seeded.faults.contains(&fault)
    }

    fn has_damage(&self, damage: Damage) -> bool {
        self.seeded.damage == Some(damage)
    }

    /// 12 for the damage alone: the order had no fault.
    fn is_damaged(&self, damage: Damage) -> bool {
        self.gave(12) && self.has_damage(damage) && self.seeded.faults.is_empty()
    }

    /// That number for the only fault of a whole buffer.
    fn has_only(&self, number: u32, fault: Fault) -> bool {
        self.gave(number) && self.seeded.faults == [fault] && self.seeded.damage.is_none()
    }

    /// 13 for such a title or value alone.
    fn has_bad_text(&self, is_such: fn(&[u8]) -> bool) -> bool {
        let has_only = self.has_only(13, Fault::Title) || self.has_only(13, Fault::Value);
        has_only && self.values().chain([self.title()]).any(is_such)
    }

    /// 14 for such a key alone.
    fn has_bad_key(&self, is_such: fn(&[u8]) -> bool) -> bool {
        self.has_only(14, Fault::Key) && self.keys().any(is_such)
    }

    fn wrote_key(&self, is_such: fn(&[u8]) -> bool) -> bool {
        self.wrote() && self.keys().any(is_such)
    }

    fn wrote_value(&self, is_such: fn(&[u8]) -> bool) -> bool {
        self.wrote() && self.values().any(is_such)
    }

    /// How much more room there is than the count says; below zero when there is less.
    fn spare(&self) -> isize {
        self.room as isize - self.answer.1 as isize
    }

    /// How long the sheet of the order was made, damage aside.
    fn made_length(&self) -> usize {
        self.seeded.order.sheet_length()
    }

    fn title(&self) -> &'s [u8] {
        &self.seeded.order.title
    }

    fn keys(&self) -> impl Iterator<Item = &'s [u8]> {
        self.seeded.order.pairs().map(|pair| pair.key)
    }

    fn values(&self) -> impl Iterator<Item = &'s [u8]> {
        self.seeded.order.pairs().map(|pair| pair.value)
    }

    fn is_last_value_bad(&self) -> bool {
        self.values().last().is_some_and(is_bad_text)
    }

    /// A key stands twice in the very same letters.
    fn is_copied(&self) -> bool {
        let keys: Vec<&[u8]> = self.keys().collect();
        (0..keys.len()).any(|place| keys[..place].contains(&keys[place]))
    }

    /// In a whole buffer a bad key stands in an earlier pair than any bad value; the title is good.
    fn is_bad_key_first(&self) -> bool {
        let bad_key = self.keys().position(is_bad_key);
        let bad_value = self.values().position(is_bad_text);
        let is_first = matches!((bad_key, bad_value), (Some(key), Some(value)) if key < value);
        self.seeded.damage.is_none() && !is_bad_text(self.title()) && is_first
    }
}

/// One of the words that spoil a title or a value.
fn is_bad_text(text: &[u8]) -> bool {
    BAD_TEXTS.contains(&text)
}

/// One of the words that spoil a key.
fn is_bad_key(key: &[u8]) -> bool {
    BAD_KEYS.contains(&key) || END_KEYS.contains(&key)
}

/// The bytes between the first and the last.
fn inside(text: &[u8]) -> &[u8] {
    match text {
        [_, inside @ .., _] => inside,
        _ => &[],
    }
}
