//! A plain reader of Org order books, written from documents 01 and 02 alone, for the parts of a
//! timestamp from source 001 and for counter sets and check boxes from source 000.
//!
//! It shares nothing with the proved reader and is what that one is compared with. It is meant to
//! be checked against the documents by eye, sentence by sentence, so it is simple before it is fast:
//! a text is split into lines, and every rule is a question about lines.
//!
//! | Part of document 01, order of document 02 | Module |
//! |---|---|
//! | "Bytes and lines" | `line` |
//! | "What starts at a line" | `rules` |
//! | "A record", "Headings and sections first"; order 7 | `reading` |
//! | "Numbers of an answer" | `answer`, `lookup` |
//! | order 1 | `stamp`, `numbers`, `planning`, `days`; rule 1 in `rules` |
//! | order 2 | `lookup` |
//! | order 3 | `closer` |
//! | order 4 | `item`, `list`; rule 9a in `rules`, the records in `reading` |
//! | order 5 | `order`, `sheet` |
//! | order 6 | `intake`, `log` |
//! | order 9 | `stream`; the title in `line` |
//! | order 13 | `defaults` |

mod answer;
mod closer;
mod days;
mod defaults;
mod intake;
mod item;
mod line;
mod list;
mod log;
mod lookup;
mod numbers;
mod order;
mod planning;
mod reading;
mod rules;
mod sheet;
mod stamp;
mod stream;

pub use answer::answer;
pub use closer::closer_search;
pub use days::{days_between, Date};
pub use defaults::lookup_with_defaults;
pub use intake::intake;
pub use log::{intake_log, orders_of};
pub use lookup::{lookup, lookup_at_each_heading};
pub use numbers::{timestamp, MomentNumbers, StampNumbers, NO_MOMENT, NO_STAMP};
pub use order::{Order, Pair};
pub use planning::planning;
pub use reading::{read, Reading, Record};
pub use sheet::write_sheet;
pub use stream::{Stream, StreamState};

/// "1 | text over 65,536 bytes".
pub const LONGEST_TEXT: usize = 65_536;

/// "2 | a drawer or greater block lies at depth 33 or more"; order 4: "Lists count towards depth 32."
pub const GREATEST_DEPTH: usize = 32;

/// "over 64 bytes" makes a key a bad one.
pub const LONGEST_KEY: usize = 64;

/// "Seven numbers: kind, start, end, inner start, inner end, parent's index, detail." By order 7
/// "every record [..] gains an eighth number".
pub const NUMBERS_OF_A_RECORD: usize = 8;
