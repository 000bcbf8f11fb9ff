use std::error::Error;
use std::fmt::{self, Display, Formatter};

use crate::ffi::number;

const TOO_LONG: &str = "the text is longer than 65,536 bytes";
const NO_HEADING: &str = "no heading starts at this byte";
const BAD_ORDER: &str = "the order is cut short or too long, or has more than 16 pairs";
const BAD_TEXT: &str = "the title or a value has a line end in it, or a blank at either end";
const REPEATED_KEY: &str = "two keys are the same; capital and small letters count as one";
/// What the key of an order is.
pub(crate) const NAME_RULE: &str =
    "a key has 1 to 64 bytes, no blanks or line ends, no `+` at its end, and is not END";

/// Why a text was not read. The table is then as it was.
#[derive(Clone, Copy, Debug, PartialEq, Eq, Hash)]
#[non_exhaustive]
pub enum Refusal {
    /// The text is longer than [`TEXT_LIMIT`](crate::TEXT_LIMIT).
    TooLong,
    /// A list, drawer or greater block lies deeper than
    /// [`DEPTH_LIMIT`](crate::DEPTH_LIMIT).
    TooDeep,
    /// The reading has more records than the table has room for.
    NoRoom {
        /// How many records the reading has.
        needed: usize,
    },
}

impl Refusal {
    /// The number of this answer in the C interface.
    pub fn number(self) -> u32 {
        match self {
            Refusal::TooLong => number::TOO_LONG,
            Refusal::TooDeep => number::TOO_DEEP,
            Refusal::NoRoom { .. } => number::NO_ROOM,
        }
    }
}

impl Display for Refusal {
    fn fmt(&self, f: &mut Formatter<'_>) -> fmt::Result {
        match self {
            Refusal::TooLong => f.write_str(TOO_LONG),
            Refusal::TooDeep => f.write_str("lists, drawers or blocks lie more than 32 deep"),
            Refusal::NoRoom { needed } => {
                write!(f, "the table has no room for {needed} records")
            }
        }
    }
}

impl Error for Refusal {}

/// Why a lookup found nothing.
#[derive(Clone, Copy, Debug, PartialEq, Eq, Hash)]
#[non_exhaustive]
pub enum LookupRefusal {
    /// The text is longer than [`TEXT_LIMIT`](crate::TEXT_LIMIT).
    TooLong,
    /// No heading line starts at that byte.
    NoHeading,
    /// That heading has no property drawer, and neither
    /// [`BlankFirst`](LookupRefusal::BlankFirst),
    /// [`NotClosed`](LookupRefusal::NotClosed) nor
    /// [`NotProperty`](LookupRefusal::NotProperty) says why.
    NoDrawer,
    /// The heading's property drawer has no line with that key.
    NoKey,
    /// The key is empty, longer than [`KEY_LIMIT`](crate::KEY_LIMIT), holds a blank
    /// or a line end, or ends in `+`.
    BadKey,
    /// `:PROPERTIES:` is the first line that is not blank after the heading line, or
    /// after its planning line, but blank lines stand above it.
    BlankFirst,
    /// `:PROPERTIES:` stands in its place, but no `:END:` follows before the next
    /// heading line.
    NotClosed,
    /// `:PROPERTIES:` stands in its place and `:END:` follows, but a line between
    /// them is no property: it is blank, or something else. This is the first.
    NotProperty {
        /// The line's first byte, its indentation included.
        start: usize,
        /// The line, counted from 0 as in [`Record::line`](crate::Record::line).
        line: usize,
    },
}

impl LookupRefusal {
    /// The number of this answer in the C interface.
    pub fn number(self) -> u32 {
        match self {
            LookupRefusal::TooLong => number::TOO_LONG,
            LookupRefusal::NoHeading => number::NO_HEADING,
            LookupRefusal::NoDrawer => number::NO_DRAWER,
            LookupRefusal::NoKey => number::NO_KEY,
            LookupRefusal::BadKey => number::BAD_KEY,
            LookupRefusal::BlankFirst => number::BLANK_FIRST,
            LookupRefusal::NotClosed => number::NOT_CLOSED,
            LookupRefusal::NotProperty { .. } => number::NOT_PROPERTY,
        }
    }
}

impl Display for LookupRefusal {
    fn fmt(&self, f: &mut Formatter<'_>) -> fmt::Result {
        match self {
            LookupRefusal::TooLong => f.write_str(TOO_LONG),
            LookupRefusal::NoHeading => f.write_str(NO_HEADING),
            LookupRefusal::NoDrawer => f.write_str("this heading has no property drawer"),
            LookupRefusal::NoKey => {
                f.write_str("this heading's property drawer has no line with this key")
            }
            LookupRefusal::BadKey => f.write_str(
                "a key has 1 to 64 bytes, no blanks or line ends, and no `+` at its end",
            ),
            LookupRefusal::BlankFirst => {
                f.write_str("a blank line stands above the property drawer")
            }
            LookupRefusal::NotClosed => f.write_str("the property drawer is never closed"),
            LookupRefusal::NotProperty { line, .. } => {
                let line = line.saturating_add(1); // an editor counts from 1
                write!(f, "line {line} is no property")
            }
        }
    }
}

impl Error for LookupRefusal {}

/// Why the planning line of a heading was not read.
#[derive(Clone, Copy, Debug, PartialEq, Eq, Hash)]
#[non_exhaustive]
pub enum PlanningRefusal {
    /// The text is longer than [`TEXT_LIMIT`](crate::TEXT_LIMIT).
    TooLong,
    /// No heading line starts at that byte.
    NoHeading,
}

impl PlanningRefusal {
    /// The number of this answer in the C interface.
    pub fn number(self) -> u32 {
        match self {
            PlanningRefusal::TooLong => number::TOO_LONG,
            PlanningRefusal::NoHeading => number::NO_HEADING,
        }
    }
}

impl Display for PlanningRefusal {
    fn fmt(&self, f: &mut Formatter<'_>) -> fmt::Result {
        f.write_str(match self {
            PlanningRefusal::TooLong => TOO_LONG,
            PlanningRefusal::NoHeading => NO_HEADING,
        })
    }
}

impl Error for PlanningRefusal {}

/// Why the days between two dates were not counted.
#[derive(Clone, Copy, Debug, PartialEq, Eq, Hash)]
#[non_exhaustive]
pub enum DateRefusal {
    /// One of the dates is no calendar day of years 1 to 9999.
    NoDay,
}

impl DateRefusal {
    /// The number of this answer in the C interface.
    pub fn number(self) -> u32 {
        match self {
            DateRefusal::NoDay => number::NO_DAY,
        }
    }
}

impl Display for DateRefusal {
    fn fmt(&self, f: &mut Formatter<'_>) -> fmt::Result {
        f.write_str(match self {
            DateRefusal::NoDay => "no calendar day of years 1 to 9999",
        })
    }
}

impl Error for DateRefusal {}

/// Why no sheet was written. The output is then as it was.
#[derive(Clone, Copy, Debug, PartialEq, Eq, Hash)]
#[non_exhaustive]
pub enum SheetRefusal {
    /// The order is cut short, goes on after its last pair, or has more pairs than
    /// [`PAIR_LIMIT`](crate::PAIR_LIMIT).
    BadOrder,
    /// The title or a value has a line end (byte 10 or 13) in it, or a blank at either
    /// end.
    BadText,
    /// A key is empty, longer than [`KEY_LIMIT`](crate::KEY_LIMIT), holds a blank or a
    /// line end, ends in `+`, or is `END` in any case.
    BadName,
    /// Two keys are the same but for the case of ASCII letters.
    RepeatedKey,
    /// The sheet would be longer than [`TEXT_LIMIT`](crate::TEXT_LIMIT).
    TooLong,
    /// The sheet is longer than the output.
    ShortOutput {
        /// How many bytes the sheet has.
        needed: usize,
    },
}

impl SheetRefusal {
    /// The number of this answer in the C interface.
    pub fn number(self) -> u32 {
        match self {
            SheetRefusal::BadOrder => number::BAD_ORDER,
            SheetRefusal::BadText => number::BAD_TEXT,
            SheetRefusal::BadName => number::BAD_NAME,
            SheetRefusal::RepeatedKey => number::REPEATED_KEY,
            SheetRefusal::TooLong => number::TOO_LONG,
            SheetRefusal::ShortOutput { .. } => number::SHORT_OUTPUT,
        }
    }
}

impl Display for SheetRefusal {
    fn fmt(&self, f: &mut Formatter<'_>) -> fmt::Result {
        match self {
            SheetRefusal::BadOrder => f.write_str(BAD_ORDER),
            SheetRefusal::BadText => f.write_str(BAD_TEXT),
            SheetRefusal::BadName => write!(f, "not every key is good: {NAME_RULE}"),
            SheetRefusal::RepeatedKey => f.write_str(REPEATED_KEY),
            SheetRefusal::TooLong => f.write_str("the sheet would be longer than 65,536 bytes"),
            SheetRefusal::ShortOutput { needed } => {
                write!(f, "the output has no room for a sheet of {needed} bytes")
            }
        }
    }
}

impl Error for SheetRefusal {}

/// Why an order was not taken into a book. The book is then as it was.
#[derive(Clone, Copy, Debug, PartialEq, Eq, Hash)]
#[non_exhaustive]
pub enum IntakeRefusal {
    /// As [`SheetRefusal::BadOrder`].
    BadOrder,
    /// As [`SheetRefusal::BadText`].
    BadText,
    /// As [`SheetRefusal::BadName`].
    BadName,
    /// As [`SheetRefusal::RepeatedKey`].
    RepeatedKey,
    /// The order has no `REQUEST` or no `VIN`, or one of them is empty.
    MissingKey,
    /// More bytes are in use than the book's buffer has, or than
    /// [`TEXT_LIMIT`](crate::TEXT_LIMIT).
    BadUsed,
    /// A heading of the book has the order's `REQUEST` already: this is a second click.
    Seen,
    /// The new book would be longer than [`TEXT_LIMIT`](crate::TEXT_LIMIT).
    TooLong,
    /// The new book would be longer than its buffer.
    ShortBuffer,
}

impl IntakeRefusal {
    /// The number of this answer in the C interface.
    pub fn number(self) -> u32 {
        match self {
            IntakeRefusal::BadOrder => number::BAD_ORDER,
            IntakeRefusal::BadText => number::BAD_TEXT,
            IntakeRefusal::BadName => number::BAD_NAME,
            IntakeRefusal::RepeatedKey => number::REPEATED_KEY,
            IntakeRefusal::MissingKey => number::MISSING_KEY,
            IntakeRefusal::BadUsed => number::BAD_USED,
            IntakeRefusal::Seen => number::SEEN,
            IntakeRefusal::TooLong => number::TOO_LONG,
            IntakeRefusal::ShortBuffer => number::SHORT_OUTPUT,
        }
    }
}

impl Display for IntakeRefusal {
    fn fmt(&self, f: &mut Formatter<'_>) -> fmt::Result {
        match self {
            IntakeRefusal::BadOrder => f.write_str(BAD_ORDER),
            IntakeRefusal::BadText => f.write_str(BAD_TEXT),
            IntakeRefusal::BadName => write!(f, "not every key is good: {NAME_RULE}"),
            IntakeRefusal::RepeatedKey => f.write_str(REPEATED_KEY),
            IntakeRefusal::MissingKey => {
                f.write_str("the order needs a REQUEST and a VIN, and neither may be empty")
            }
            IntakeRefusal::BadUsed => {
                f.write_str("the book is longer than its buffer, or than 65,536 bytes")
            }
            IntakeRefusal::Seen => f.write_str("the book has an order with this REQUEST already"),
            IntakeRefusal::TooLong => {
                f.write_str("with this order the book would be longer than 65,536 bytes")
            }
            IntakeRefusal::ShortBuffer => f.write_str("the book has no room for this order"),
        }
    }
}

impl Error for IntakeRefusal {}

/// Why no order of a log was taken into a book. The book is then as it was.
#[derive(Clone, Copy, Debug, PartialEq, Eq, Hash)]
#[non_exhaustive]
pub enum LogRefusal {
    /// The log ends in the middle of a length or of an order.
    CutShort,
}

impl LogRefusal {
    /// The number of this answer in the C interface.
    pub fn number(self) -> u32 {
        match self {
            LogRefusal::CutShort => number::CUT_LOG,
        }
    }
}

impl Display for LogRefusal {
    fn fmt(&self, f: &mut Formatter<'_>) -> fmt::Result {
        f.write_str(match self {
            LogRefusal::CutShort => "the log is cut short",
        })
    }
}

impl Error for LogRefusal {}

/// Why a piece of a book, or its end, was not taken. State and list are then as they were.
#[derive(Clone, Copy, Debug, PartialEq, Eq, Hash)]
#[non_exhaustive]
pub enum StreamRefusal {
    /// The end was declared before, or the state's numbers are such as no text of at most
    /// [`TEXT_LIMIT`](crate::TEXT_LIMIT) bytes leaves.
    NotOpen,
    /// With this piece the bytes taken would be more than [`TEXT_LIMIT`](crate::TEXT_LIMIT).
    TooLong,
    /// The call finishes more headings than the list has room for.
    NoRoom {
        /// How many headings it finishes.
        needed: usize,
    },
}

impl StreamRefusal {
    /// The number of this answer in the C interface.
    pub fn number(self) -> u32 {
        match self {
            StreamRefusal::NotOpen => number::NOT_OPEN,
            StreamRefusal::TooLong => number::TOO_LONG,
            StreamRefusal::NoRoom { .. } => number::NO_ROOM,
        }
    }
}

impl Display for StreamRefusal {
    fn fmt(&self, f: &mut Formatter<'_>) -> fmt::Result {
        match self {
            StreamRefusal::NotOpen => {
                f.write_str("the book has ended already, or its state is none that a text leaves")
            }
            StreamRefusal::TooLong => {
                f.write_str("with this piece the book would be longer than 65,536 bytes")
            }
            StreamRefusal::NoRoom { needed } => {
                write!(f, "the list has no room for {needed} headings")
            }
        }
    }
}

impl Error for StreamRefusal {}
