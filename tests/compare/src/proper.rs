//! Document 01, "When a finished table is a proper reading": the clauses that need no line rule, and
//! document 02, order 7, by which every "proper reading gains an eighth number". Those of order 4 are
//! in `proper_lists`.
//!
//! They judge a table by the text and its own numbers alone, so they would also show a mistake that
//! the plain reader and the library have in common.

use plain_reader::Record;

use crate::proper_lists::check_lists;

const DOCUMENT: u32 = 1;
const HEADING: u32 = 2;
const SECTION: u32 = 3;
const PROPERTY_DRAWER: u32 = 5;
const NODE_PROPERTY: u32 = 6;
pub const DRAWER: u32 = 7;
pub const GREATER_BLOCK: u32 = 8;
pub const VERBATIM_BLOCK: u32 = 9;
pub const TABLE: u32 = 10;
const ROW: u32 = 11;
pub const PARAGRAPH: u32 = 16;
pub const LIST: u32 = 17;
pub const ITEM: u32 = 18;

/// The first clause that the table fails, in words.
pub fn check_proper(text: &[u8], records: &[Record]) -> Result<(), String> {
    let end = text.len() as u32;
    let whole = Some([DOCUMENT, 0, end, 0, end, 0, 0, 0]);
    require(
        records.first().map(Record::numbers) == whole,
        "record 0 is the document",
        0,
    )?;
    for (index, record) in records.iter().enumerate().skip(1) {
        require(record.start < record.end, "a record has bytes", index)?;
        require(
            is_followed_by(records, index - 1, record),
            "order of records",
            index,
        )?;
        let parent = &records[record.parent as usize];
        require(
            may_hold(parent.kind, record.kind),
            "kinds of children",
            index,
        )?;
    }
    for index in 0..records.len() {
        let covered = children_cover(text, records, index);
        require(covered, "children cover the inner span", index)?;
    }
    check_headings(text, records)?;
    check_lists(text, records)?;
    check_line_numbers(text, records)
}

pub fn require(holds: bool, clause: &str, index: usize) -> Result<(), String> {
    if holds {
        return Ok(());
    }
    Err(format!("no proper reading: {clause}, record {index}"))
}

/// `next` may follow record `index`: its parent is that record or one around it.
fn is_followed_by(records: &[Record], index: usize, next: &Record) -> bool {
    let mut around = index;
    while around != next.parent as usize && around != 0 {
        around = records[around].parent as usize;
    }
    around == next.parent as usize
}

/// "Children of the document or a heading are headings and sections; of a section, drawer or greater
/// block, elements; of a property drawer, node properties [..]; of a table, rows". Order 4: of a list,
/// items; of an item, elements.
fn may_hold(parent: u32, child: u32) -> bool {
    let is_part = matches!(child, NODE_PROPERTY | ROW | ITEM);
    match parent {
        DOCUMENT | HEADING => matches!(child, HEADING | SECTION),
        SECTION => child > SECTION && !is_part,
        DRAWER | GREATER_BLOCK | ITEM => child > PROPERTY_DRAWER && !is_part,
        PROPERTY_DRAWER => child == NODE_PROPERTY,
        TABLE => child == ROW,
        LIST => child == ITEM,
        _ => false,
    }
}

/// "children lie in the parent's inner span; each starts where the one before ended; the last ends at
/// the inner end. Before the first, or where there is none, only blank lines stand. All other kinds are
/// leaves".
fn children_cover(text: &[u8], records: &[Record], index: usize) -> bool {
    let parent = &records[index];
    let inside = parent.start <= parent.inner_start
        && parent.inner_start <= parent.inner_end
        && parent.inner_end <= parent.end;
    let held = records[index + 1..]
        .iter()
        .take_while(|record| record.start < parent.end);
    let mut children = held
        .filter(|record| record.parent as usize == index)
        .peekable();
    let first = children
        .peek()
        .map_or(parent.inner_end, |child| child.start);
    if !holds_children(parent.kind) {
        return inside && children.peek().is_none();
    }
    if !inside || first < parent.inner_start || !is_blank(text, parent.inner_start, first) {
        return false;
    }
    let mut at = first;
    for child in children {
        if child.start != at {
            return false;
        }
        at = child.end;
    }
    at == parent.inner_end
}

/// "In kinds 1, 2, 3, 5, 7, 8 and 10 children lie in the parent's inner span"; order 4: in lists and
/// items too.
fn holds_children(kind: u32) -> bool {
    matches!(
        kind,
        DOCUMENT
            | HEADING
            | SECTION
            | PROPERTY_DRAWER
            | DRAWER
            | GREATER_BLOCK
            | TABLE
            | LIST
            | ITEM
    )
}

pub fn is_blank(text: &[u8], start: u32, end: u32) -> bool {
    let bytes = &text[start as usize..end as usize];
    bytes.iter().all(|byte| matches!(byte, 9 | 10 | 13 | 32))
}

/// Where heading lines start.
fn heading_starts(text: &[u8]) -> impl Iterator<Item = u32> + '_ {
    let mut start = 0;
    text.split_inclusive(|byte| *byte == 10)
        .filter_map(move |line| {
            let here = start;
            start += line.len() as u32;
            let stars = line.iter().take_while(|byte| **byte == b'*').count();
            (stars > 0 && line.get(stars) == Some(&32)).then_some(here)
        })
}

/// "Every heading line starts one heading record, no heading record starts elsewhere". "It ends
/// before the next heading line with as many stars or fewer, or at the text's end."
fn check_headings(text: &[u8], records: &[Record]) -> Result<(), String> {
    let headings = records.iter().filter(|record| record.kind == HEADING);
    let headings: Vec<&Record> = headings.collect();
    let starts = headings.iter().map(|heading| heading.start);
    require(heading_starts(text).eq(starts), "heading lines", 0)?;
    for (index, heading) in headings.iter().enumerate() {
        let mut later = headings[index + 1..].iter();
        let next = later.find(|other| other.detail <= heading.detail);
        let end = next.map_or(text.len() as u32, |other| other.start);
        require(heading.end == end, "where a heading ends", index)?;
    }
    Ok(())
}

/// "an eighth number: how many bytes 10 stand before the record's start".
fn check_line_numbers(text: &[u8], records: &[Record]) -> Result<(), String> {
    let newlines: Vec<usize> = (0..text.len()).filter(|at| text[*at] == 10).collect();
    for (index, record) in records.iter().enumerate() {
        let before = newlines.partition_point(|at| *at < record.start as usize);
        require(record.line_number as usize == before, "line number", index)?;
    }
    Ok(())
}
