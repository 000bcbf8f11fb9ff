//! Document 01, "A record" and "Headings and sections first", and document 02, orders 4 and 7: the
//! table of a text.

use crate::item::item_line;
use crate::line::{Line, Span};
use crate::list::{items_of_list, Item};
use crate::rules::{element_at, node_property, paragraph_end, row_detail, Element, Ends, Text};
use crate::{GREATEST_DEPTH, LONGEST_TEXT, NUMBERS_OF_A_RECORD};

const DOCUMENT: u32 = 1;
const HEADING: u32 = 2;
const SECTION: u32 = 3;
const PLANNING: u32 = 4;
const PROPERTY_DRAWER: u32 = 5;
const NODE_PROPERTY: u32 = 6;
const DRAWER: u32 = 7;
const GREATER_BLOCK: u32 = 8;
const VERBATIM_BLOCK: u32 = 9;
const TABLE: u32 = 10;
const ROW: u32 = 11;
const COMMENT: u32 = 12;
const FIXED_WIDTH: u32 = 13;
const HORIZONTAL_RULE: u32 = 14;
const KEYWORD: u32 = 15;
const PARAGRAPH: u32 = 16;
const LIST: u32 = 17;
const ITEM: u32 = 18;

/// "Seven numbers: kind, start, end, inner start, inner end, parent's index, detail." Order 7: "an
/// eighth number: how many bytes 10 stand before the record's start".
#[derive(Clone, Copy, Debug, PartialEq, Eq)]
pub struct Record {
    pub kind: u32,
    pub start: u32,
    pub end: u32,
    pub inner_start: u32,
    pub inner_end: u32,
    pub parent: u32,
    pub detail: u32,
    pub line_number: u32,
}

impl Record {
    /// The record's numbers in the order of the table.
    pub fn numbers(&self) -> [u32; NUMBERS_OF_A_RECORD] {
        [
            self.kind,
            self.start,
            self.end,
            self.inner_start,
            self.inner_end,
            self.parent,
            self.detail,
            self.line_number,
        ]
    }
}

/// What a reading comes to, whatever the room.
#[derive(Clone, Debug, PartialEq, Eq)]
pub enum Reading {
    Table(Vec<Record>),
    TooLong,
    TooDeep,
}

/// Reads a text. "Reading tries 1, 2, 3": its length, its nesting and, in `Reading::answer`, its
/// room.
pub fn read(text: &[u8]) -> Reading {
    if text.len() > LONGEST_TEXT {
        return Reading::TooLong;
    }
    let mut reader = Reader {
        bytes: text,
        text: Text::new(text),
        records: Vec::new(),
        nesting: 0,
    };
    reader.document();
    if reader.nesting > GREATEST_DEPTH {
        return Reading::TooDeep;
    }
    Reading::Table(reader.records)
}

struct Reader<'t> {
    bytes: &'t [u8],
    text: Text<'t>,
    records: Vec<Record>,
    /// The greatest depth of a drawer, greater block or list met so far.
    nesting: usize,
}

/// What an element is held by: the index of that record, the lines where its elements end, and how
/// many drawers, greater blocks and lists stand around these.
#[derive(Clone, Copy)]
struct Container {
    index: usize,
    ends: Ends,
    depth: usize,
}

impl Reader<'_> {
    /// "Index 0 is the document, its own parent." Heading lines, each followed by its section,
    /// come in the order of the text, so that "a record is followed at once by all that it holds".
    fn document(&mut self) {
        let whole = Span {
            start: 0,
            end: self.bytes.len(),
        };
        self.record(DOCUMENT, whole, whole, 0, 0);
        let first_heading = self.next_heading_line(0);
        self.section(0, first_heading, 0);
        let mut headings = Vec::new();
        let mut at = first_heading;
        while at < self.text.lines.len() {
            let next = self.next_heading_line(at + 1);
            let index = self.heading(at, &mut headings);
            self.section(at + 1, next, index);
            at = next;
        }
    }

    /// "Its parent is the nearest earlier heading with fewer stars, else the document." `earlier`
    /// holds the stars and the index of every earlier heading.
    fn heading(&mut self, at: usize, earlier: &mut Vec<(usize, usize)>) -> usize {
        let line = self.text.lines[at];
        let fewer = |heading: &&(usize, usize)| heading.0 < line.stars;
        let parent = earlier.iter().rev().find(fewer);
        let parent = parent.map_or(0, |heading| heading.1);
        let end = self.heading_end(at);
        let span = Span {
            start: line.span.start,
            end,
        };
        let inner = Span {
            start: line.span.end,
            end,
        };
        let index = self.record(HEADING, span, inner, parent, line.stars as u32);
        earlier.push((line.stars, index));
        index
    }

    /// "It ends before the next heading line with as many stars or fewer, or at the text's end."
    fn heading_end(&self, at: usize) -> usize {
        let stars = self.text.lines[at].stars;
        let later = self.text.lines[at + 1..].iter();
        let ender = later
            .filter(|line| line.is_heading())
            .find(|line| line.stars <= stars);
        ender.map_or(self.bytes.len(), |line| line.span.start)
    }

    fn next_heading_line(&self, from: usize) -> usize {
        let found = self.text.lines[from..].iter().position(Line::is_heading);
        found.map_or(self.text.lines.len(), |distance| from + distance)
    }

    /// "From the first non-blank line to the next heading line or text end there is one section; if
    /// all is blank, none."
    fn section(&mut self, from: usize, end: usize, parent: usize) {
        let first = self.after_blank_lines(from, end);
        if first == end {
            return;
        }
        let span = self.span_of(first, end);
        let index = self.record(SECTION, span, span, parent, 0);
        self.elements(
            first,
            Container {
                index,
                ends: Ends::at(end),
                depth: 0,
            },
        );
    }

    /// "A greater block's or drawer's lines are read by the same rules as a section's, with its
    /// closer as the new end." "Blank lines before a container's first element are the container's
    /// own."
    fn elements(&mut self, from: usize, container: Container) {
        let end = container.ends.container;
        let mut at = self.after_blank_lines(from, end);
        while at < end {
            at = self.element(at, container);
        }
    }

    /// Writes the element at line `at` and all that it holds; gives the line after it.
    fn element(&mut self, at: usize, container: Container) -> usize {
        let body = self.text.lines[at].body_span;
        match element_at(&self.text, at, container.ends) {
            Element::Planning => self.leaf(PLANNING, at, at + 1, body, 0, container),
            Element::PropertyDrawer { closer } => self.property_drawer(at, closer, container),
            Element::GreaterBlock { closer, detail } => {
                self.holder(GREATER_BLOCK, at, closer, detail, container)
            }
            Element::VerbatimBlock { closer, detail } => {
                let inner = self.span_of(at + 1, closer);
                self.leaf(VERBATIM_BLOCK, at, closer + 1, inner, detail, container)
            }
            Element::Drawer { closer } => self.holder(DRAWER, at, closer, 0, container),
            Element::Table { rows_end, end } => self.table(at, rows_end, end, container),
            Element::Comment { end } => self.own_lines(COMMENT, at, end, container),
            Element::FixedWidth { end } => self.own_lines(FIXED_WIDTH, at, end, container),
            Element::HorizontalRule => self.leaf(HORIZONTAL_RULE, at, at + 1, body, 0, container),
            Element::Keyword { value } => self.leaf(KEYWORD, at, at + 1, value, 0, container),
            Element::List => self.list(at, container),
            Element::Paragraph { end } => self.own_lines(PARAGRAPH, at, end, container),
        }
    }

    /// An element over lines `at` to `own_end` and the blank lines after them: "Blank lines after
    /// an element, before the end, are the element's." Gives the line after it.
    fn leaf(
        &mut self,
        kind: u32,
        at: usize,
        own_end: usize,
        inner: Span,
        detail: u32,
        container: Container,
    ) -> usize {
        let next = self.after_blank_lines(own_end, container.ends.container);
        let span = self.span_of(at, next);
        self.record(kind, span, inner, container.index, detail);
        next
    }

    /// "12 comment, 13 fixed-width, 16 paragraph | own lines without blank lines after".
    fn own_lines(&mut self, kind: u32, at: usize, end: usize, container: Container) -> usize {
        let inner = self.span_of(at, end);
        self.leaf(kind, at, end, inner, 0, container)
    }

    /// A drawer or greater block; inner span "lines between opener and closer". "An outermost
    /// drawer or greater block has depth 1, any other is one deeper than the nearest around it".
    fn holder(
        &mut self,
        kind: u32,
        at: usize,
        closer: usize,
        detail: u32,
        container: Container,
    ) -> usize {
        let index = self.records.len();
        let depth = container.depth + 1;
        self.nesting = self.nesting.max(depth);
        let inner = self.span_of(at + 1, closer);
        let next = self.leaf(kind, at, closer + 1, inner, detail, container);
        self.elements(
            at + 1,
            Container {
                index,
                ends: Ends::at(closer),
                depth,
            },
        );
        next
    }

    /// "of a property drawer, node properties, one for each line".
    fn property_drawer(&mut self, at: usize, closer: usize, container: Container) -> usize {
        let index = self.records.len();
        let inner = self.span_of(at + 1, closer);
        let next = self.leaf(PROPERTY_DRAWER, at, closer + 1, inner, 0, container);
        for line in at + 1..closer {
            if let Some(property) = node_property(&self.text.lines[line]) {
                let span = self.text.lines[line].span;
                self.record(NODE_PROPERTY, span, property.value, index, 0);
            }
        }
        next
    }

    /// "10 table | row lines"; "of a table, rows, one for each row line".
    fn table(&mut self, at: usize, rows_end: usize, end: usize, container: Container) -> usize {
        let index = self.records.len();
        let inner = self.span_of(at, rows_end);
        let next = self.leaf(TABLE, at, end, inner, 0, container);
        for row in at..rows_end {
            let line = self.text.lines[row];
            self.record(ROW, line.span, line.body_span, index, row_detail(&line));
        }
        next
    }

    /// "Items of one indentation in a row make a list, inner span its items, detail 1 if the first has
    /// a number or letter bullet, else 2." "Lists count towards depth 32."
    fn list(&mut self, at: usize, container: Container) -> usize {
        let index = self.records.len();
        let depth = container.depth + 1;
        self.nesting = self.nesting.max(depth);
        let items = items_of_list(&self.text, at, container.ends);
        let own_end = items.last().map_or(at, |item| item.end);
        let inner = self.span_of(at, own_end);
        let next = self.leaf(LIST, at, own_end, inner, self.list_detail(at), container);
        for item in items {
            let ends = Ends {
                container: item.own_end,
                around_lists: container.ends.around_lists,
            };
            self.item(item, Container { index, ends, depth });
        }
        next
    }

    fn list_detail(&self, at: usize) -> u32 {
        match item_line(&self.text.lines[at]) {
            Some(first) if first.is_ordered => 1,
            _ => 2,
        }
    }

    /// "An item's detail is 0, and its inner span runs from after bullet, counter set, check box [..]
    /// to the end of its last non-blank line." `list` tells where the item's elements end.
    fn item(&mut self, item: Item, list: Container) {
        let line = self.text.lines[item.at];
        let inner = Span {
            start: item_line(&line).map_or(line.line_end(), |first| first.inner_start),
            end: self.line_start(item.own_end),
        };
        let span = self.span_of(item.at, item.end);
        let index = self.record(ITEM, span, inner, list.index, 0);
        let held = Container { index, ..list };
        let below = if inner.start < line.line_end() {
            self.first_paragraph(inner.start, item.at, held)
        } else {
            item.at + 1
        };
        self.elements(below, held);
    }

    /// "What is left on the first line begins a paragraph that goes on by rule 10". It starts at byte
    /// `start` of line `at`; gives the line after it.
    fn first_paragraph(&mut self, start: usize, at: usize, item: Container) -> usize {
        let end = paragraph_end(&self.text, at, item.ends);
        let next = self.after_blank_lines(end, item.ends.container);
        let span = Span {
            start,
            end: self.line_start(next),
        };
        let inner = Span {
            start,
            end: self.line_start(end),
        };
        self.record(PARAGRAPH, span, inner, item.index, 0);
        next
    }

    /// The first line from `from` on that isn't blank, else `end`; `from` where that is past the end.
    fn after_blank_lines(&self, from: usize, end: usize) -> usize {
        let found = (from..end).find(|index| !self.text.lines[*index].is_blank());
        found.unwrap_or(end.max(from))
    }

    /// The bytes of the lines `from` up to `end`.
    fn span_of(&self, from: usize, end: usize) -> Span {
        Span {
            start: self.line_start(from),
            end: self.line_start(end),
        }
    }

    fn line_start(&self, index: usize) -> usize {
        let line = self.text.lines.get(index);
        line.map_or(self.bytes.len(), |line| line.span.start)
    }

    /// Appends a record and gives its index.
    fn record(&mut self, kind: u32, span: Span, inner: Span, parent: usize, detail: u32) -> usize {
        let line_number = self.line_number(span.start);
        self.records.push(Record {
            kind,
            start: span.start as u32,
            end: span.end as u32,
            inner_start: inner.start as u32,
            inner_end: inner.end as u32,
            parent: parent as u32,
            detail,
            line_number,
        });
        self.records.len() - 1
    }

    /// Order 7: "how many bytes 10 stand before the record's start". No record starts before the one
    /// written last, so that one's count is carried on.
    fn line_number(&self, start: usize) -> u32 {
        let (from, before) = match self.records.last() {
            Some(last) => (last.start as usize, last.line_number),
            None => (0, 0),
        };
        let newlines = self.bytes[from..start].iter().filter(|byte| **byte == 10);
        before + newlines.count() as u32
    }
}
