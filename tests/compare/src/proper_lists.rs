//! Document 02, order 4: the clauses that proper readings gain for lists and items, as far as they
//! need no line rule but the bullets. They judge a table by the text and its own numbers alone.

use plain_reader::Record;

use crate::proper::{
    is_blank, require, DRAWER, GREATER_BLOCK, ITEM, LIST, PARAGRAPH, TABLE, VERBATIM_BLOCK,
};

/// The first clause that the table fails, in words.
pub fn check_lists(text: &[u8], records: &[Record]) -> Result<(), String> {
    let table = Table { text, records };
    for (index, record) in records.iter().enumerate().skip(1) {
        let clauses = match record.kind {
            LIST => table.list_clauses(index),
            ITEM => table.item_clauses(index),
            _ => [("where a record starts", table.starts_in_place(index)); 4],
        };
        for (clause, holds) in clauses {
            require(holds, clause, index)?;
        }
        let further_in = table.is_further_in(index);
        require(further_in, "lines of an item are indented more", index)?;
    }
    Ok(())
}

type Clauses = [(&'static str, bool); 4];

struct Table<'t> {
    text: &'t [u8],
    records: &'t [Record],
}

impl Table<'_> {
    /// "Items of one indentation in a row make a list, inner span its items, detail 1 if the first has
    /// a number or letter bullet, else 2." A list is as long as it can be.
    fn list_clauses(&self, index: usize) -> Clauses {
        let list = &self.records[index];
        let first = self.records.get(index + 1);
        let starts_with_item = first.is_some_and(|item| {
            item.parent as usize == index && [item.start, list.inner_start] == [list.start; 2]
        });
        let detail = self.bullet(list).map(|ordered| if ordered { 1 } else { 2 });
        let next = self.after(index).filter(|next| next.kind == LIST);
        let joins_next = next.is_some_and(|next| {
            self.indentation(next.start) == self.indentation(list.start)
                && self.newlines(list.inner_end, list.end) < 2
        });
        [
            ("a list starts with an item", starts_with_item),
            ("a list's detail", detail == Some(list.detail)),
            ("a list is as long as it can be", !joins_next),
            ("two blank lines end all lists", self.ends_all(list)),
        ]
    }

    /// "An item's detail is 0, and its inner span runs [..] to the end of its last non-blank line." Its
    /// own blank lines stand before the next item, and two together end it.
    fn item_clauses(&self, index: usize) -> Clauses {
        let item = &self.records[index];
        let list = &self.records[item.parent as usize];
        let of_one_indentation = self.indentation(item.start) == self.indentation(list.start);
        let has_last_line = !self.is_blank_line_before(item.inner_end)
            && is_blank(self.text, item.inner_end, item.end);
        let is_last = item.end == list.inner_end;
        let own_blank_lines = if is_last { 0 } else { 1 };
        [
            (
                "an item has a bullet",
                self.bullet(item).is_some() && item.detail == 0,
            ),
            ("items are of one indentation", of_one_indentation),
            ("an item's inner span ends with a line", has_last_line),
            (
                "an item's own blank lines",
                self.newlines(item.inner_end, item.end) <= own_blank_lines,
            ),
        ]
    }

    /// Only text on an item's first line starts in mid-line: right where the item's inner span does.
    fn starts_in_place(&self, index: usize) -> bool {
        let record = &self.records[index];
        let parent = &self.records[record.parent as usize];
        let starts_line = record.start == 0 || self.text[record.start as usize - 1] == 10;
        starts_line
            || (record.kind == PARAGRAPH
                && parent.kind == ITEM
                && record.start == parent.inner_start)
    }

    /// "two blank lines together end all lists up to there": a list that has them is in no other.
    fn ends_all(&self, list: &Record) -> bool {
        let parent = &self.records[list.parent as usize];
        self.newlines(list.inner_end, list.end) < 2 || parent.kind != ITEM
    }

    /// "An item ends before a non-blank line indented no more than it, or at two blank lines together
    /// [..]; of a block, drawer or table within it only the first line counts so".
    fn is_further_in(&self, index: usize) -> bool {
        let record = &self.records[index];
        let parent = &self.records[record.parent as usize];
        if parent.kind != ITEM || record.kind == LIST {
            return true;
        }
        let shelters = matches!(record.kind, DRAWER | GREATER_BLOCK | VERBATIM_BLOCK | TABLE);
        let counted = if shelters { 1 } else { usize::MAX };
        let is_first_text = record.start == parent.inner_start;
        let lines = self.line_starts(record).take(counted);
        let (blank, others): (Vec<u32>, Vec<u32>) = lines
            .skip(usize::from(is_first_text))
            .partition(|line| self.is_blank_line(*line));
        let item = self.indentation(parent.start);
        blank.len() < 2 && others.iter().all(|line| self.indentation(*line) > item)
    }

    /// The record after this one and all that it holds, if both have the same parent.
    fn after(&self, index: usize) -> Option<&Record> {
        let record = &self.records[index];
        let mut later = self.records[index + 1..].iter();
        let next = later.find(|next| next.start >= record.end)?;
        (next.parent == record.parent).then_some(next)
    }

    /// Where the record's lines start; the first may start in mid-line.
    fn line_starts(&self, record: &Record) -> impl Iterator<Item = u32> + '_ {
        let (start, end) = (record.start, record.end);
        let after_newline = move |at: &u32| *at == start || self.text[*at as usize - 1] == 10;
        (start..end).filter(after_newline)
    }

    fn is_blank_line(&self, start: u32) -> bool {
        let line = &self.text[start as usize..];
        let bytes = line.iter().take_while(|byte| **byte != 10);
        bytes.into_iter().all(|byte| matches!(byte, 9 | 13 | 32))
    }

    /// The line that ends at byte `end` is blank.
    fn is_blank_line_before(&self, end: u32) -> bool {
        let before = &self.text[..end as usize];
        let line = before.strip_suffix(b"\n").unwrap_or(before);
        let start = line.iter().rposition(|byte| *byte == 10);
        self.is_blank_line(start.map_or(0, |newline| newline as u32 + 1))
    }

    fn newlines(&self, start: u32, end: u32) -> usize {
        let bytes = &self.text[start as usize..end as usize];
        bytes.iter().filter(|byte| **byte == 10).count()
    }

    /// "Indentation counts 1 for a space, 8 for a tab."
    fn indentation(&self, line: u32) -> usize {
        let bytes = self.text[line as usize..].iter();
        let leading = bytes.take_while(|byte| matches!(**byte, 9 | 32));
        leading.map(|byte| if *byte == 9 { 8 } else { 1 }).sum()
    }

    /// Has the line where the record starts a number or letter bullet? None where it has no bullet.
    fn bullet(&self, record: &Record) -> Option<bool> {
        let line = &self.text[record.start as usize..];
        let indented = matches!(line.first(), Some(9 | 32));
        let start = line.iter().position(|byte| !matches!(byte, 9 | 32))?;
        let end = line
            .iter()
            .skip(start)
            .position(|byte| matches!(byte, 9 | 10 | 13 | 32));
        match &line[start..end.map_or(line.len(), |length| start + length)] {
            b"-" | b"+" => Some(false),
            b"*" => indented.then_some(false),
            [counter @ .., b'.' | b')'] => is_counter(counter).then_some(true),
            _ => None,
        }
    }
}

/// A number or one letter.
fn is_counter(bytes: &[u8]) -> bool {
    match bytes {
        [] => false,
        [letter] if letter.is_ascii_alphabetic() => true,
        _ => bytes.iter().all(u8::is_ascii_digit),
    }
}
