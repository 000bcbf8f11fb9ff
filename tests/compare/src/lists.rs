//! What lists and items of a text show (document 02, order 4), so that a run in which something of it
//! never comes is told.

use plain_reader::{Reading, Record};

use crate::drawers::is_heading;
use crate::proper::{DRAWER, GREATER_BLOCK, ITEM, LIST, PARAGRAPH, TABLE, VERBATIM_BLOCK};

const SECTION: u32 = 3;
const PLANNING: u32 = 4;
const PROPERTY_DRAWER: u32 = 5;
const COMMENT: u32 = 12;
const FIXED_WIDTH: u32 = 13;
const RULE: u32 = 14;
const KEYWORD: u32 = 15;

/// Does a list or an item show something?
type Shows = fn(&Shown) -> bool;

/// What lists may show.
const OF_LISTS: [(&str, Shows); 26] = [
    ("list in an item", |list| list.is_in(ITEM)),
    ("in a drawer", |list| list.is_in(DRAWER)),
    ("in a greater block", |list| list.is_in(GREATER_BLOCK)),
    ("right after a heading line", |list| {
        list.is_in(SECTION) && list.line_before().is_some_and(is_heading)
    }),
    ("after planning", |list| list.follows(PLANNING)),
    ("after a property drawer", |list| {
        list.follows(PROPERTY_DRAWER)
    }),
    ("after a comment", |list| list.follows(COMMENT)),
    ("after a paragraph's line", |list| {
        list.follows(PARAGRAPH) && list.line_before().is_some_and(|line| !is_blank(line))
    }),
    ("at depth 32", |list| list.depth() == 32),
    ("first bullet a number or letter", |list| {
        list.record().detail == 1
    }),
    ("bullets of two sorts", |list| list.has_two_sorts()),
    ("one indentation of other bytes", |list| {
        list.has_two_indentations()
    }),
    ("falling indentation", |list| {
        list.is_before(LIST) && list.own_blank_lines() < 2
    }),
    ("two blank lines before a list", |list| {
        list.is_before(LIST) && list.own_blank_lines() > 1
    }),
    ("two blank lines after lists in lists", |list| {
        list.own_blank_lines() > 1 && list.ends_with_list()
    }),
    ("blank line after an inner list", |list| {
        list.is_in(ITEM) && list.own_blank_lines() == 1
    }),
    ("blank line after lists that end in an item", |list| {
        list.is_in(ITEM) && list.own_blank_lines() == 1 && list.ends_with_list()
    }),
    ("blank line after lists that all end", |list| {
        !list.is_in(ITEM) && list.own_blank_lines() == 1 && list.ends_with_list()
    }),
    ("before a paragraph", |list| list.is_before(PARAGRAPH)),
    ("before a rule", |list| list.is_before(RULE)),
    ("before a drawer", |list| list.is_before(DRAWER)),
    ("within a run of comment lines", |list| {
        list.cuts_run(COMMENT)
    }),
    ("within a run of fixed-width lines", |list| {
        list.cuts_run(FIXED_WIDTH)
    }),
    ("before a heading line", |list| {
        list.lines_after().next().is_some_and(is_heading)
    }),
    ("before a closer indented more", |list| {
        list.is_before_end() && list.indentation_after() > list.indentation()
    }),
    ("at the text's end", |list| {
        list.lines_after().next().is_none()
    }),
];

/// What items may show.
const OF_ITEMS: [(&str, Shows); 45] = [
    ("hyphen", |item| item.bullet() == b"-"),
    ("plus", |item| item.bullet() == b"+"),
    ("star", |item| item.bullet() == b"*"),
    ("number and dot", |item| {
        item.is_counted(u8::is_ascii_digit, b'.')
    }),
    ("number and bracket", |item| {
        item.is_counted(u8::is_ascii_digit, b')')
    }),
    ("letter and dot", |item| {
        item.is_counted(u8::is_ascii_alphabetic, b'.')
    }),
    ("letter and bracket", |item| {
        item.is_counted(u8::is_ascii_alphabetic, b')')
    }),
    ("long number", |item| item.bullet().len() > 10),
    ("tab after the bullet", |item| {
        item.after_bullet() == Some(9)
    }),
    ("byte 13 after the bullet", |item| {
        item.after_bullet() == Some(13)
    }),
    ("byte 10 after the bullet", |item| {
        item.after_bullet() == Some(10)
    }),
    ("text's end after the bullet", |item| {
        item.after_bullet().is_none()
    }),
    ("indented by a tab", |item| {
        item.line().contains(&9) && item.indentation() >= 8
    }),
    ("nothing in it", |item| item.children().next().is_none()),
    ("line end above an element", |item| {
        item.blank_lines_above() == Some(0)
    }),
    ("line end and a blank line above an element", |item| {
        item.blank_lines_above() == Some(1)
    }),
    ("counter set", |item| {
        item.has_marks(b"[@") && !item.has_marks(b" [")
    }),
    ("check box", |item| {
        item.has_marks(b"[") && !item.has_marks(b"@")
    }),
    ("counter set and check box", |item| {
        item.has_marks(b"[@") && item.has_marks(b" [")
    }),
    ("line end after a check box", |item| {
        item.has_marks(b"]") && !item.has_first_text()
    }),
    ("counter set after a check box", |item| {
        item.has_marks(b"]") && !item.has_marks(b"@") && item.first_text().starts_with(b"[@5] ")
    }),
    ("bracket left as text", |item| {
        item.first_text().starts_with(b"[")
    }),
    ("first text like a row", |item| {
        item.first_text().starts_with(b"|")
    }),
    ("first text like a comment", |item| {
        item.first_text().starts_with(b"# ")
    }),
    ("first text like a rule", |item| {
        item.first_text().starts_with(b"-----")
    }),
    ("first text like an item", |item| {
        item.first_text().starts_with(b"- ")
    }),
    ("first text like an opener", |item| {
        item.first_text().starts_with(b"#+begin_")
    }),
    ("first text of two lines", |item| {
        item.first_text().contains(&10)
    }),
    ("own blank line", |item| item.own_blank_lines() == 1),
    ("own blank line after an inner list", |item| {
        item.own_blank_lines() == 1 && item.ends_with(LIST)
    }),
    ("own blank line after a block", |item| {
        item.own_blank_lines() == 1
            && (item.ends_with(GREATER_BLOCK) || item.ends_with(VERBATIM_BLOCK))
    }),
    ("holds a comment", |item| item.holds(COMMENT)),
    ("holds a fixed-width area", |item| item.holds(FIXED_WIDTH)),
    ("holds a rule", |item| item.holds(RULE)),
    ("holds a keyword", |item| item.holds(KEYWORD)),
    ("unclosed opener", |item| item.holds_unclosed_opener()),
    ("greater block out of line", |item| {
        item.shelters(GREATER_BLOCK, |_| true)
    }),
    ("verbatim block out of line", |item| {
        item.shelters(VERBATIM_BLOCK, |_| true)
    }),
    ("drawer out of line", |item| item.shelters(DRAWER, |_| true)),
    ("table out of line", |item| {
        item.shelters(TABLE, |line| body(line).starts_with(b"|"))
    }),
    ("formula out of line", |item| {
        item.shelters(TABLE, |line| body(line).starts_with(b"#"))
    }),
    ("item line out of line", |item| {
        item.shelters_any(|line| body(line).starts_with(b"- "))
    }),
    ("closer out of line", |item| {
        item.shelters_any(|line| {
            body(line).starts_with(b"#+end") || body(line).starts_with(b":END")
        })
    }),
    ("sheltered from an item around", |item| {
        item.shelters_from_around()
    }),
    ("two blank lines sheltered", |item| {
        item.shelters_blank_lines()
    }),
];

/// The names of all that is shown, in the order of `Met`.
pub fn names() -> impl Iterator<Item = &'static str> {
    let shown = OF_LISTS.iter().chain(&OF_ITEMS).map(|(name, _)| *name);
    shown.chain(["too deep by lists"])
}

/// How many they are.
pub const COUNT: usize = OF_LISTS.len() + OF_ITEMS.len() + 1;

/// How often each of them was seen.
pub type Met = [usize; COUNT];

/// Counts what the text's lists and items show.
pub fn count_lists(text: &[u8], reading: &Reading, met: &mut Met) {
    let Reading::Table(records) = reading else {
        met[COUNT - 1] += usize::from(is_too_deep_by_lists(text, reading));
        return;
    };
    let (of_lists, of_items) = met.split_at_mut(OF_LISTS.len());
    for index in 0..records.len() {
        let shown = Shown {
            text,
            records,
            index,
        };
        match shown.record().kind {
            LIST => shown.count(&OF_LISTS, of_lists),
            ITEM => shown.count(&OF_ITEMS, of_items),
            _ => {}
        }
    }
}

/// A text with too few openers for number 2.
fn is_too_deep_by_lists(text: &[u8], reading: &Reading) -> bool {
    let lines = text.split(|byte| *byte == 10).map(body);
    let openers = lines.filter(|body| matches!(body.first(), Some(b'#' | b':')));
    *reading == Reading::TooDeep && openers.count() <= 32
}

/// A list or item.
struct Shown<'t> {
    text: &'t [u8],
    records: &'t [Record],
    index: usize,
}

impl<'t> Shown<'t> {
    fn count(&self, shows: &[(&str, Shows)], met: &mut [usize]) {
        for (count, (_, shows)) in met.iter_mut().zip(shows) {
            *count += usize::from(shows(self));
        }
    }

    fn record(&self) -> &'t Record {
        &self.records[self.index]
    }

    fn parent(&self) -> &'t Record {
        &self.records[self.record().parent as usize]
    }

    fn is_in(&self, kind: u32) -> bool {
        self.parent().kind == kind
    }

    /// How many lists, drawers and greater blocks there are from here up.
    fn depth(&self) -> usize {
        let up =
            |index: &usize| Some(self.records[*index].parent as usize).filter(|next| next != index);
        let around = std::iter::successors(Some(self.index), up);
        around
            .filter(|index| matches!(self.records[*index].kind, LIST | DRAWER | GREATER_BLOCK))
            .count()
    }

    fn children(&self) -> impl Iterator<Item = &'t Record> + '_ {
        let end = self.record().end;
        let held = self.records[self.index + 1..].iter();
        let held = held.take_while(move |record| record.start < end);
        held.filter(|record| record.parent as usize == self.index)
    }

    fn holds(&self, kind: u32) -> bool {
        self.children().any(|child| child.kind == kind)
    }

    fn ends_with(&self, kind: u32) -> bool {
        self.children()
            .last()
            .is_some_and(|child| child.kind == kind)
    }

    /// The list's last item ends with a list.
    fn ends_with_list(&self) -> bool {
        let end = self.record().inner_end;
        let inner = self.records[self.index + 1..].iter();
        let mut inner = inner.take_while(|record| record.start < end);
        inner.any(|record| record.kind == LIST && record.end == end)
    }

    fn bytes(&self, start: u32, end: u32) -> &'t [u8] {
        &self.text[start as usize..end as usize]
    }

    /// The line where the record starts, to its byte 10.
    fn line(&self) -> &'t [u8] {
        first_line(&self.text[self.record().start as usize..])
    }

    fn line_before(&self) -> Option<&'t [u8]> {
        let before = &self.text[..self.record().start as usize];
        before.split_inclusive(|byte| *byte == 10).next_back()
    }

    /// The record's sibling before it is of that kind.
    fn follows(&self, kind: u32) -> bool {
        let parent = self.record().parent;
        let earlier = self.records[..self.index].iter().rev();
        let sibling = earlier.take(8).find(|record| record.parent == parent);
        sibling.is_some_and(|record| record.kind == kind && record.end == self.record().start)
    }

    /// The sibling right after it is of that kind.
    fn is_before(&self, kind: u32) -> bool {
        let end = self.record().end;
        let mut later = self.records[self.index + 1..].iter();
        let next = later.find(|record| record.start >= end);
        next.is_some_and(|next| next.kind == kind && next.parent == self.record().parent)
    }

    /// What is right before its end and what is right after it are of that kind.
    fn cuts_run(&self, kind: u32) -> bool {
        let end = self.record().end;
        let inner = self.records[self.index + 1..].iter();
        let mut inner = inner.take_while(|record| record.start < end);
        self.is_before(kind) && inner.any(|record| record.kind == kind && record.inner_end == end)
    }

    fn lines_after(&self) -> impl Iterator<Item = &'t [u8]> {
        let after = &self.text[self.record().end as usize..];
        after.split_inclusive(|byte| *byte == 10)
    }

    /// The drawer or greater block around it ends right after it.
    fn is_before_end(&self) -> bool {
        (self.is_in(DRAWER) || self.is_in(GREATER_BLOCK))
            && self.record().end == self.parent().inner_end
    }

    fn indentation_after(&self) -> usize {
        self.lines_after().next().map_or(0, indentation)
    }

    fn indentation(&self) -> usize {
        indentation(self.line())
    }

    fn own_blank_lines(&self) -> usize {
        let record = self.record();
        let blank = self.bytes(record.inner_end, record.end);
        blank.split_inclusive(|byte| *byte == 10).count()
    }

    /// The first lines of its items.
    fn item_lines(&self) -> impl Iterator<Item = &'t [u8]> + '_ {
        self.children()
            .map(|item| first_line(&self.text[item.start as usize..]))
    }

    fn has_two_sorts(&self) -> bool {
        let first = body(self.line()).first().copied();
        self.item_lines()
            .any(|line| body(line).first().copied() != first)
    }

    fn has_two_indentations(&self) -> bool {
        let first = leading(self.line());
        self.item_lines().any(|line| leading(line) != first)
    }

    fn bullet(&self) -> &'t [u8] {
        let body = body(self.line());
        let blank = body.iter().position(|byte| matches!(byte, 9 | 13 | 32));
        &body[..blank.unwrap_or(body.len())]
    }

    fn is_counted(&self, is_counter: fn(&u8) -> bool, mark: u8) -> bool {
        let bullet = self.bullet();
        bullet.first().is_some_and(is_counter) && bullet.last() == Some(&mark)
    }

    /// The byte after the bullet; none at the text's end.
    fn after_bullet(&self) -> Option<u8> {
        let line = self.line();
        let place = leading(line).len() + self.bullet().len();
        self.text.get(self.record().start as usize + place).copied()
    }

    /// What stands between the bullet and the inner span holds those bytes.
    fn has_marks(&self, bytes: &[u8]) -> bool {
        let record = self.record();
        let before = self.bytes(record.start, record.inner_start);
        let marks = &before[leading(before).len() + self.bullet().len()..];
        let marks = &marks[marks
            .iter()
            .take_while(|byte| is_blank_byte(**byte))
            .count()..];
        marks.windows(bytes.len()).any(|window| window == bytes)
    }

    fn has_first_text(&self) -> bool {
        !self.first_text().is_empty()
    }

    /// The paragraph that begins on the item's first line.
    fn first_text(&self) -> &'t [u8] {
        let start = self.record().inner_start;
        let first = self.children().next().filter(|child| child.start == start);
        match first {
            Some(text) if self.text[start as usize - 1] != 10 => {
                let bytes = self.bytes(text.inner_start, text.inner_end);
                bytes.strip_suffix(b"\n").unwrap_or(bytes)
            }
            _ => b"",
        }
    }

    /// How many blank lines stand between the first line, of which nothing is left, and the first
    /// element.
    fn blank_lines_above(&self) -> Option<usize> {
        let first = self.children().next()?;
        let between = self.bytes(self.record().inner_start, first.start);
        let lines = between.iter().filter(|byte| **byte == 10).count();
        lines.checked_sub(1)
    }

    /// A paragraph of it has a line, not the first, that looks like an opener.
    fn holds_unclosed_opener(&self) -> bool {
        let mut paragraphs = self.children().filter(|child| child.kind == PARAGRAPH);
        paragraphs.any(|paragraph| {
            let lines = self.bytes(paragraph.start, paragraph.end);
            let mut later = lines.split(|byte| *byte == 10).skip(1).map(body);
            later.any(|body| body.starts_with(b"#+begin_") || body == b":d:")
        })
    }

    /// The lines after the first of what it holds of that kind.
    fn later_lines(&self, kind: u32) -> impl Iterator<Item = &'t [u8]> + '_ {
        let held = self.children().filter(move |child| child.kind == kind);
        held.flat_map(|child| {
            let lines = self.bytes(child.start, child.end);
            lines.split_inclusive(|byte| *byte == 10).skip(1)
        })
    }

    /// What it holds of that kind has such a later line, and that is indented no more than the item.
    fn shelters(&self, kind: u32, is_such: fn(&[u8]) -> bool) -> bool {
        let own = self.indentation();
        self.later_lines(kind)
            .any(|line| !is_blank(line) && indentation(line) <= own && is_such(line))
    }

    fn shelters_any(&self, is_such: fn(&[u8]) -> bool) -> bool {
        let kinds = [DRAWER, GREATER_BLOCK, VERBATIM_BLOCK];
        kinds.iter().any(|kind| self.shelters(*kind, is_such))
    }

    /// A sheltered line is indented no more than the item around this one.
    fn shelters_from_around(&self) -> bool {
        let around = &self.records[self.parent().parent as usize];
        let line = first_line(&self.text[around.start as usize..]);
        let kinds = [DRAWER, GREATER_BLOCK, VERBATIM_BLOCK, TABLE];
        let mut lines = kinds.iter().flat_map(|kind| self.later_lines(*kind));
        around.kind == ITEM
            && lines.any(|later| !is_blank(later) && indentation(later) <= indentation(line))
    }

    fn shelters_blank_lines(&self) -> bool {
        let kinds = [DRAWER, GREATER_BLOCK, VERBATIM_BLOCK];
        kinds.iter().any(|kind| {
            let lines: Vec<&[u8]> = self.later_lines(*kind).collect();
            lines
                .windows(2)
                .any(|pair| pair.iter().all(|line| is_blank(line)))
        })
    }
}

fn first_line(text: &[u8]) -> &[u8] {
    text.split(|byte| *byte == 10).next().unwrap_or_default()
}

fn is_blank_byte(byte: u8) -> bool {
    matches!(byte, 9 | 13 | 32)
}

fn is_blank(line: &[u8]) -> bool {
    line.iter().all(|byte| is_blank_byte(*byte) || *byte == 10)
}

fn leading(line: &[u8]) -> &[u8] {
    let length = line.iter().take_while(|byte| matches!(**byte, 9 | 32));
    &line[..length.count()]
}

fn indentation(line: &[u8]) -> usize {
    let widths = leading(line)
        .iter()
        .map(|byte| if *byte == 9 { 8 } else { 1 });
    widths.sum()
}

/// The line without its indentation and the blank bytes at its end.
fn body(line: &[u8]) -> &[u8] {
    let mut body = &line[leading(line).len()..];
    while let [before @ .., 9 | 10 | 13 | 32] = body {
        body = before;
    }
    body
}
