//! Document 02, order 4: the lines of an item and of a list.

use crate::item::item_line;
use crate::line::Line;
use crate::rules::{rules_3_to_5, Element, Ends, Text};

/// An item's lines.
#[derive(Clone, Copy, Debug)]
pub struct Item {
    /// Its first line.
    pub at: usize,
    /// The line after its last non-blank one.
    pub own_end: usize,
    /// The line after its own blank lines.
    pub end: usize,
}

/// "Items of one indentation in a row make a list". The blank lines before a next item "are the own
/// blank lines of the item before it"; the last item has none.
pub fn items_of_list(text: &Text, first: usize, ends: Ends) -> Vec<Item> {
    let mut items = Vec::new();
    let mut at = first;
    loop {
        let stop = item_stop(text, at, ends);
        let goes_on = stop < ends.container && is_item_of(&text.lines, first, stop);
        let own_end = after_last_non_blank(&text.lines, at, stop);
        items.push(Item {
            at,
            own_end,
            end: if goes_on { stop } else { own_end },
        });
        if !goes_on {
            return items;
        }
        at = stop;
    }
}

/// Line `at` begins an item of the list whose first item begins at line `first`.
fn is_item_of(lines: &[Line], first: usize, at: usize) -> bool {
    lines[at].indentation() == lines[first].indentation() && item_line(&lines[at]).is_some()
}

/// The line where the item at line `at` ends: "before a non-blank line indented no more than it, or
/// at two blank lines together, or at its container's end; of a block, drawer or table within it
/// only the first line counts so, not the later ones".
fn item_stop(text: &Text, at: usize, ends: Ends) -> usize {
    let mut line = at + 1;
    while line < ends.container && !ends_item(&text.lines, at, line) {
        line = after_sheltered(text, line, ends);
    }
    line
}

fn ends_item(lines: &[Line], item: usize, at: usize) -> bool {
    if lines[at].is_blank() {
        lines.get(at + 1).is_some_and(Line::is_blank)
    } else {
        lines[at].indentation() <= lines[item].indentation()
    }
}

/// The line after the block, drawer or table that starts at line `at`, else after that line.
fn after_sheltered(text: &Text, at: usize, ends: Ends) -> usize {
    match rules_3_to_5(text, at, ends) {
        Some(Element::GreaterBlock { closer, .. }) => closer + 1,
        Some(Element::VerbatimBlock { closer, .. }) => closer + 1,
        Some(Element::Drawer { closer }) => closer + 1,
        Some(Element::Table { end, .. }) => end,
        _ => at + 1,
    }
}

fn after_last_non_blank(lines: &[Line], from: usize, end: usize) -> usize {
    let last = (from..end).rfind(|index| !lines[*index].is_blank());
    last.map_or(from, |last| last + 1)
}
