//! Safe bindings to Comaltzex, a proved reader of Org order books.
//!
//! A text is read into a table of [`Record`]s: the document first, then each
//! record followed at once by all that it holds. A lookup finds one property of
//! one heading, in that heading's own property drawer; its [`LookupRefusal`] says
//! why there is none, and which line to mend. A text is bytes and need not be
//! UTF-8; every place is a byte offset into it.
//!
//! ```
//! use comaltzex::{Kind, LookupRefusal, Table};
//!
//! let text = b"* A\n:PROPERTIES:\n:VIN: 7\n:END:\n\nhi\n";
//!
//! let table = Table::read(text)?;
//! let kinds: Vec<Kind> = table.records().map(|record| record.kind).collect();
//! assert_eq!(
//!     kinds,
//!     [
//!         Kind::Document,
//!         Kind::Heading,
//!         Kind::Section,
//!         Kind::PropertyDrawer,
//!         Kind::NodeProperty,
//!         Kind::Paragraph,
//!     ]
//! );
//!
//! assert_eq!(comaltzex::lookup(text, 0, b"vin"), Ok(23..24));
//! assert_eq!(comaltzex::property(text, 0, b"vin"), Ok(&b"7"[..]));
//! assert_eq!(comaltzex::property(text, 0, b"fuel"), Err(LookupRefusal::NoKey));
//! # Ok::<(), comaltzex::Refusal>(())
//! ```
//!
//! [`read`] does the same into a table that the caller lends, and allocates
//! nothing. [`lookup_with_defaults`] and [`property_or_default`] take what an order
//! lacks from the house defaults, a text of their own. [`planning`] gives the dates
//! of one heading's planning line, [`timestamp`] reads one timestamp, and
//! [`days_between`] counts the days from one date to another. [`find_closer`] finds
//! the line that closes one block or drawer. [`Record::item`] tells an item's check box.
//! [`Order`] and [`write_sheet`] write an order as Org text that reads back as what was
//! written. A [`Book`] takes orders in, each request once. A [`HeadingStream`] lists the
//! headings of a book that comes in pieces, while it comes. A call needs up to 96 KB of
//! stack.

#![deny(unsafe_code, unsafe_op_in_unsafe_fn, missing_docs)]

mod book;
mod closer;
mod dates;
mod defaults;
#[allow(unsafe_code)]
mod ffi;
mod item;
mod lines;
mod lookup;
mod mend;
mod order;
mod planning;
mod record;
mod refusal;
mod repeats;
mod sheet;
mod stream;
mod table;
mod timestamp;

pub use book::{log_entry, Book};
pub use closer::{find_closer, CloserSearch};
pub use dates::{days_between, Date};
pub use defaults::{lookup_with_defaults, property_or_default, Sourced, Whose};
pub use item::{CheckBox, Item};
pub use lookup::{lookup, property};
pub use order::{Order, OrderError};
pub use planning::{planning, Planning};
pub use record::{Kind, Record, Records};
pub use refusal::{
    DateRefusal, IntakeRefusal, LogRefusal, LookupRefusal, PlanningRefusal, Refusal, SheetRefusal,
    StreamRefusal,
};
pub use repeats::{Delay, Interval, Mark, Repeater, Repeats, Unit};
pub use sheet::{sheet, write_sheet};
pub use stream::{HeadingStream, StreamState, StreamedHeading, StreamedHeadings};
pub use table::{read, Table};
pub use timestamp::{timestamp, FoundTimestamp, Moment, Time, Timestamp};

/// The longest text that is read, the longest sheet and the longest book, in bytes.
pub const TEXT_LIMIT: usize = 65_536;
/// The greatest depth of lists, drawers and greater blocks that is read.
pub const DEPTH_LIMIT: usize = 32;
/// The longest key, in bytes.
pub const KEY_LIMIT: usize = 64;
/// How many pairs an order has at most.
pub const PAIR_LIMIT: usize = 16;
/// How many numbers a record takes in a table.
pub const RECORD_SIZE: usize = 8;
/// How many numbers a heading takes in the list of a [`StreamState`].
pub const HEADING_SIZE: usize = 3;
