use std::fmt::{self, Display, Formatter};
use std::iter::FusedIterator;
use std::ops::Range;
use std::slice;

use crate::RECORD_SIZE;

/// What a record is. Each kind says what its record's `inner` span and `detail`
/// are; a `detail` that is not mentioned is 0.
///
/// A kind is displayed by its name:
///
/// ```
/// use comaltzex::Kind;
///
/// assert_eq!(Kind::PropertyDrawer.to_string(), "property drawer");
/// ```
#[derive(Clone, Copy, Debug, PartialEq, Eq, Hash)]
#[non_exhaustive]
#[repr(u32)]
pub enum Kind {
    /// The whole text. Inner: the whole span.
    Document = 1,
    /// A heading line and all below it. Inner: after its line, to its end.
    /// Detail: the number of stars.
    Heading = 2,
    /// What stands between heading lines. Inner: the whole span.
    Section = 3,
    /// A planning line. Inner: the line's body.
    Planning = 4,
    /// A property drawer. Inner: the lines between opener and closer.
    PropertyDrawer = 5,
    /// A line of a property drawer. Inner: the value.
    NodeProperty = 6,
    /// Any other drawer. Inner: the lines between opener and closer.
    Drawer = 7,
    /// A block that holds elements. Inner: the lines between opener and closer.
    /// Detail: 1 quote, 2 center, 3 any other name.
    GreaterBlock = 8,
    /// A block that holds none. Inner: the lines between opener and closer.
    /// Detail: 1 comment, 2 example, 3 export, 4 src, 5 verse.
    VerbatimBlock = 9,
    /// A table. Inner: its row lines.
    Table = 10,
    /// A line of a table. Inner: the line's body. Detail: 0 standard, 1 rule.
    Row = 11,
    /// Comment lines. Inner: the lines without the blank lines after them.
    Comment = 12,
    /// A fixed-width area. Inner: the lines without the blank lines after them.
    FixedWidth = 13,
    /// A horizontal rule. Inner: the line's body.
    HorizontalRule = 14,
    /// A keyword line. Inner: the value.
    Keyword = 15,
    /// A paragraph. Inner: the lines without the blank lines after them. On an item's
    /// first line it starts in mid-line.
    Paragraph = 16,
    /// A list. Inner: its items. Detail: 1 if the first item has a number or letter
    /// bullet, else 2.
    List = 17,
    /// An item of a list. Inner: from its text, which may start in mid-line, to the end
    /// of its last line that is not blank. What stands before the text, the check box
    /// too, is told by [`Record::item`].
    Item = 18,
}

/// Every kind; the one with number `n` stands at index `n - 1`.
const KINDS: [Kind; 18] = [
    Kind::Document,
    Kind::Heading,
    Kind::Section,
    Kind::Planning,
    Kind::PropertyDrawer,
    Kind::NodeProperty,
    Kind::Drawer,
    Kind::GreaterBlock,
    Kind::VerbatimBlock,
    Kind::Table,
    Kind::Row,
    Kind::Comment,
    Kind::FixedWidth,
    Kind::HorizontalRule,
    Kind::Keyword,
    Kind::Paragraph,
    Kind::List,
    Kind::Item,
];

impl Kind {
    /// The number that stands for this kind in a table.
    pub fn number(self) -> u32 {
        self as u32
    }

    /// The kind that a number stands for.
    pub fn from_number(number: u32) -> Option<Kind> {
        let index = usize::try_from(number).ok()?.checked_sub(1)?;
        KINDS.get(index).copied()
    }
}

impl Display for Kind {
    fn fmt(&self, f: &mut Formatter<'_>) -> fmt::Result {
        f.pad(match self {
            Kind::Document => "document",
            Kind::Heading => "heading",
            Kind::Section => "section",
            Kind::Planning => "planning",
            Kind::PropertyDrawer => "property drawer",
            Kind::NodeProperty => "node property",
            Kind::Drawer => "drawer",
            Kind::GreaterBlock => "greater block",
            Kind::VerbatimBlock => "verbatim block",
            Kind::Table => "table",
            Kind::Row => "row",
            Kind::Comment => "comment",
            Kind::FixedWidth => "fixed width",
            Kind::HorizontalRule => "horizontal rule",
            Kind::Keyword => "keyword",
            Kind::Paragraph => "paragraph",
            Kind::List => "list",
            Kind::Item => "item",
        })
    }
}

/// One record of a reading.
#[derive(Clone, Debug, PartialEq, Eq, Hash)]
pub struct Record {
    /// What it is.
    pub kind: Kind,
    /// All its bytes, with the blank lines after it that are its own.
    pub span: Range<usize>,
    /// What it holds; see [`Kind`].
    pub inner: Range<usize>,
    /// The index of the record that holds it; the document's is 0, its own.
    pub parent: usize,
    /// What more there is to say of its kind; see [`Kind`].
    pub detail: u32,
    /// The line that it starts at, counted from 0: how many bytes 10 stand before
    /// its start. An editor counts from 1, so its line is this plus 1.
    ///
    /// ```
    /// let table = comaltzex::Table::read(b"#+TITLE: Orders\n\n* A\n")?;
    /// let heading = table.get(3).unwrap();
    /// assert_eq!(format!("orders.org:{}", heading.line + 1), "orders.org:3");
    /// # Ok::<(), comaltzex::Refusal>(())
    /// ```
    pub line: usize,
}

impl Record {
    /// The bytes of its `span`, in the text that it was read from.
    ///
    /// `None` if the span does not lie in this text. A record does not know its
    /// text: of another one that is long enough, the bytes mean nothing.
    ///
    /// ```
    /// let text = b"# x\n#+KEY: a b\n";
    /// let table = comaltzex::Table::read(text)?;
    /// let keyword = table.get(3).unwrap();
    /// assert_eq!(keyword.text(text), Some(&b"#+KEY: a b\n"[..]));
    /// assert_eq!(keyword.inner_text(text), Some(&b"a b"[..]));
    /// assert_eq!(keyword.text(b"# x\n"), None);
    /// # Ok::<(), comaltzex::Refusal>(())
    /// ```
    pub fn text<'t>(&self, text: &'t [u8]) -> Option<&'t [u8]> {
        text.get(self.span.clone())
    }

    /// The bytes of its `inner` span, on the same terms as [`text`](Record::text).
    pub fn inner_text<'t>(&self, text: &'t [u8]) -> Option<&'t [u8]> {
        text.get(self.inner.clone())
    }

    pub(crate) fn from_row(row: &[u32; RECORD_SIZE]) -> Record {
        let [kind, start, end, inner_start, inner_end, parent, detail, line] = *row;
        Record {
            kind: Kind::from_number(kind).expect("the library writes known kinds only"),
            span: start as usize..end as usize,
            inner: inner_start as usize..inner_end as usize,
            parent: parent as usize,
            detail,
            line: line as usize,
        }
    }
}

/// The records of a reading, in the table's order.
#[derive(Clone, Debug)]
pub struct Records<'t> {
    rows: slice::Iter<'t, [u32; RECORD_SIZE]>,
}

impl<'t> Records<'t> {
    pub(crate) fn new(rows: &'t [[u32; RECORD_SIZE]]) -> Records<'t> {
        Records { rows: rows.iter() }
    }
}

impl Iterator for Records<'_> {
    type Item = Record;

    fn next(&mut self) -> Option<Record> {
        self.rows.next().map(Record::from_row)
    }

    fn nth(&mut self, n: usize) -> Option<Record> {
        self.rows.nth(n).map(Record::from_row)
    }

    fn size_hint(&self) -> (usize, Option<usize>) {
        self.rows.size_hint()
    }
}

impl ExactSizeIterator for Records<'_> {}

impl FusedIterator for Records<'_> {}

#[cfg(test)]
mod tests {
    use super::*;

    #[test]
    fn each_kind_has_its_number() {
        for number in 1..=18 {
            assert_eq!(Kind::from_number(number).map(Kind::number), Some(number));
        }
    }

    #[test]
    fn kinds_have_the_names_and_numbers_of_the_header() {
        let header = include_str!("../../../include/comaltzex.h");
        let words: Vec<&str> = header.split([' ', ',', '\n']).collect();
        for kind in KINDS {
            let name = kind.to_string().replace(' ', "_").to_uppercase();
            let (name, number) = (format!("COMALTZEX_{name}"), kind.number().to_string());
            assert!(
                words.windows(3).any(|w| w == [&name, "=", &number]),
                "{name}"
            );
        }
    }

    #[test]
    fn other_numbers_are_no_kinds() {
        assert_eq!(Kind::from_number(0), None);
        assert_eq!(Kind::from_number(19), None);
        assert_eq!(Kind::from_number(u32::MAX), None);
    }
}
