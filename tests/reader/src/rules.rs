//! Document 01, "What starts at a line"; rule 1 by document 02, order 1, and rule 9a by order 4.
//!
//! A rule is asked of line `at` of a text, with the ends that it is to heed. It answers with what it
//! found there, lines being named by their index.

use crate::closer::Closer;
use crate::item::item_line;
use crate::line::{
    first_run, is_blank_byte, lines_of, same_letters, starts_with_letters, Line, Span,
};
use crate::planning::planning_parts;

/// A text as the rules see it.
pub struct Text<'t> {
    pub lines: Vec<Line<'t>>,
    /// The first later line that closes each opener, before the next heading line: the search for it
    /// is done once, whatever ends it is asked for.
    closers: Vec<Option<usize>>,
}

impl<'t> Text<'t> {
    pub fn new(bytes: &'t [u8]) -> Self {
        let lines = lines_of(bytes);
        let closers = (0..lines.len()).map(|at| closer_of(&lines, at)).collect();
        Text { lines, closers }
    }

    /// "the first later line before the end" that closes line `at`.
    fn closer_before(&self, at: usize, end: usize) -> Option<usize> {
        self.closers[at].filter(|closer| *closer < end)
    }
}

fn closer_of(lines: &[Line], at: usize) -> Option<usize> {
    let closer = Closer::of(&lines[at])?;
    let later = lines[at + 1..].iter().take_while(|line| !line.is_heading());
    let distance = later.enumerate().find(|(_, line)| closer.is(line))?.0;
    Some(at + 1 + distance)
}

/// The lines where elements end.
#[derive(Clone, Copy, Debug)]
pub struct Ends {
    /// The end of the container: a section, drawer, greater block or item.
    pub container: usize,
    /// "the end of the section, block or drawer around its lists", up to which a closer within an
    /// item is sought (order 4). Outside of lists it is the container's.
    pub around_lists: usize,
}

impl Ends {
    /// The ends in a section, drawer or greater block.
    pub fn at(end: usize) -> Self {
        Ends {
            container: end,
            around_lists: end,
        }
    }
}

/// The element that starts at a line.
#[derive(Clone, Copy, Debug)]
pub enum Element {
    Planning,
    PropertyDrawer { closer: usize },
    GreaterBlock { closer: usize, detail: u32 },
    VerbatimBlock { closer: usize, detail: u32 },
    Drawer { closer: usize },
    Table { rows_end: usize, end: usize },
    Comment { end: usize },
    FixedWidth { end: usize },
    HorizontalRule,
    Keyword { value: Span },
    List,
    Paragraph { end: usize },
}

/// A node property's name and value.
#[derive(Clone, Copy, Debug)]
pub struct NodeProperty<'t> {
    pub name: &'t [u8],
    pub value: Span,
}

/// "the first of these that holds at a non-blank line names the element".
pub fn element_at(text: &Text, at: usize, ends: Ends) -> Element {
    if is_planning_line(&text.lines, at) {
        return Element::Planning;
    }
    if let Some(closer) = property_drawer_closer(text, at, ends) {
        return Element::PropertyDrawer { closer };
    }
    rules_3_to_9a(text, at, ends).unwrap_or_else(|| Element::Paragraph {
        end: paragraph_end(text, at, ends),
    })
}

fn rules_3_to_9a(text: &Text, at: usize, ends: Ends) -> Option<Element> {
    rules_3_to_5(text, at, ends).or_else(|| rules_6_to_9a(&text.lines, at, ends))
}

/// Blocks, drawers and tables: what may reach beyond a line that would end the item around it.
pub fn rules_3_to_5(text: &Text, at: usize, ends: Ends) -> Option<Element> {
    if let Some(block) = block(text, at, ends) {
        return Some(block);
    }
    if let Some(closer) = drawer_closer(text, at, ends) {
        return Some(Element::Drawer { closer });
    }
    is_row_line(&text.lines[at]).then(|| table(&text.lines, at, ends))
}

fn rules_6_to_9a(lines: &[Line], at: usize, ends: Ends) -> Option<Element> {
    let line = &lines[at];
    if is_comment_line(line) {
        return Some(Element::Comment {
            end: run_end(lines, at, ends.container, is_comment_line),
        });
    }
    if is_fixed_width_line(line) {
        return Some(Element::FixedWidth {
            end: run_end(lines, at, ends.container, is_fixed_width_line),
        });
    }
    if is_horizontal_rule(line) {
        return Some(Element::HorizontalRule);
    }
    if let Some(value) = keyword_value(line) {
        return Some(Element::Keyword { value });
    }
    item_line(line).map(|_| Element::List)
}

/// Rule 1: "only on the line right after a heading line", and by order 1 "dates all through".
fn is_planning_line(lines: &[Line], at: usize) -> bool {
    is_right_after_heading(lines, at) && planning_parts(lines[at].body).is_some()
}

fn is_right_after_heading(lines: &[Line], at: usize) -> bool {
    at > 0 && lines[at - 1].is_heading()
}

/// Rule 2: "Body `:PROPERTIES:`, then node property lines only (none is allowed), then body
/// `:END:`. The first end line closes."
fn property_drawer_closer(text: &Text, at: usize, ends: Ends) -> Option<usize> {
    let lines = &text.lines;
    if !is_property_drawer_opener(&lines[at]) || !is_property_drawer_place(lines, at) {
        return None;
    }
    let closer = text.closer_before(at, ends.container)?;
    let between = &lines[at + 1..closer];
    let only_properties = between.iter().all(|line| node_property(line).is_some());
    only_properties.then_some(closer)
}

pub fn is_property_drawer_opener(line: &Line) -> bool {
    same_letters(line.body, b":PROPERTIES:")
}

/// Rule 2: "only right after a heading line or its planning line with no blank line between; or as
/// the zeroth section's own first element, or right after a comment that is that first element,
/// again with no blank line between".
fn is_property_drawer_place(lines: &[Line], at: usize) -> bool {
    is_right_after_heading(lines, at)
        || (at > 0 && is_planning_line(lines, at - 1))
        || is_first_non_blank_line(lines, at)
        || is_right_after_first_comment(lines, at)
}

fn is_first_non_blank_line(lines: &[Line], at: usize) -> bool {
    lines[..at].iter().all(Line::is_blank)
}

/// Before line `at` there are blank lines, then comment lines only, at least one.
fn is_right_after_first_comment(lines: &[Line], at: usize) -> bool {
    let Some(first) = lines[..at].iter().position(|line| !line.is_blank()) else {
        return false;
    };
    lines[first..at].iter().all(is_comment_line)
}

/// Rule 2: "the body starts with a non-blank byte, and its first run of such bytes is `:`, X, `:`.
/// X is not empty; less one final `+`, it is not empty and doesn't end in `+`. X less that `+` is
/// the name."
pub fn node_property<'t>(line: &Line<'t>) -> Option<NodeProperty<'t>> {
    let run = first_run(line.body);
    let x = run.strip_prefix(b":")?.strip_suffix(b":")?;
    let name = x.strip_suffix(b"+").unwrap_or(x);
    if name.is_empty() || name.ends_with(b"+") {
        return None;
    }
    Some(NodeProperty {
        name,
        value: line.value_after(run.len()),
    })
}

pub fn is_end_line(line: &Line) -> bool {
    same_letters(line.body, b":END:")
}

/// Rule 3: "body `#+begin_NAME`, alone or with blank bytes and parameters. [..] It closes at the
/// first later line before the end whose body is `#+end_NAME`, case ignored. With no such line it
/// is no block."
fn block(text: &Text, at: usize, ends: Ends) -> Option<Element> {
    let name = block_name(&text.lines[at])?;
    let closer = text.closer_before(at, ends.around_lists)?;
    Some(match verbatim_detail(name) {
        Some(detail) => Element::VerbatimBlock { closer, detail },
        None => Element::GreaterBlock {
            closer,
            detail: greater_detail(name),
        },
    })
}

/// Rule 3: "NAME is one or more non-blank bytes."
pub fn block_name<'t>(line: &Line<'t>) -> Option<&'t [u8]> {
    let opener = b"#+begin_";
    if !starts_with_letters(line.body, opener) {
        return None;
    }
    let name = first_run(&line.body[opener.len()..]);
    (!name.is_empty()).then_some(name)
}

pub fn is_block_closer(line: &Line, name: &[u8]) -> bool {
    let closer = b"#+end_";
    starts_with_letters(line.body, closer) && same_letters(&line.body[closer.len()..], name)
}

/// Kind 9: "1 comment, 2 example, 3 export, 4 src, 5 verse".
fn verbatim_detail(name: &[u8]) -> Option<u32> {
    let names: [(&[u8], u32); 5] = [
        (b"comment", 1),
        (b"example", 2),
        (b"export", 3),
        (b"src", 4),
        (b"verse", 5),
    ];
    let found = names
        .iter()
        .find(|(verbatim, _)| same_letters(name, verbatim));
    found.map(|(_, detail)| *detail)
}

/// Kind 8: "1 quote, 2 center, 3 any other name".
fn greater_detail(name: &[u8]) -> u32 {
    if same_letters(name, b"quote") {
        1
    } else if same_letters(name, b"center") {
        2
    } else {
        3
    }
}

/// Rule 4: "closes at the first later `:END:` line before the end, else it is no drawer."
fn drawer_closer(text: &Text, at: usize, ends: Ends) -> Option<usize> {
    if !is_drawer_opener(&text.lines[at]) {
        return None;
    }
    text.closer_before(at, ends.around_lists)
}

/// Rule 4: "body `:NAME:`, NAME one or more letters, digits, `-`, `_`, not `END`".
pub fn is_drawer_opener(line: &Line) -> bool {
    let inside = line.body.strip_prefix(b":");
    let Some(name) = inside.and_then(|rest| rest.strip_suffix(b":")) else {
        return false;
    };
    !name.is_empty() && name.iter().all(|byte| is_drawer_byte(*byte)) && !same_letters(name, b"END")
}

fn is_drawer_byte(byte: u8) -> bool {
    byte.is_ascii_alphanumeric() || matches!(byte, b'-' | b'_')
}

/// Rule 5: "lines whose body starts with `|`; lines right after whose body starts with `#+TBLFM:`
/// belong to it." Of a table within an item only the first line has to be in it.
fn table(lines: &[Line], at: usize, ends: Ends) -> Element {
    let rows_end = run_end(lines, at, ends.around_lists, is_row_line);
    Element::Table {
        rows_end,
        end: run_end(lines, rows_end, ends.around_lists, is_formula_line),
    }
}

fn is_row_line(line: &Line) -> bool {
    line.body.starts_with(b"|")
}

fn is_formula_line(line: &Line) -> bool {
    starts_with_letters(line.body, b"#+TBLFM:")
}

/// Kind 11: "0 standard, 1 rule (`|-`)".
pub fn row_detail(line: &Line) -> u32 {
    u32::from(line.body.starts_with(b"|-"))
}

/// Rule 6: "lines whose body is `#` or starts with `#` and a blank byte."
fn is_comment_line(line: &Line) -> bool {
    is_mark_line(line, b'#')
}

/// Rule 7: "the same with `:`."
fn is_fixed_width_line(line: &Line) -> bool {
    is_mark_line(line, b':')
}

fn is_mark_line(line: &Line, mark: u8) -> bool {
    match line.body {
        [first] => *first == mark,
        [first, second, ..] => *first == mark && is_blank_byte(*second),
        [] => false,
    }
}

/// "Runs of lines under 5 to 7 are as long as they can be."
fn run_end(lines: &[Line], at: usize, end: usize, belongs: fn(&Line) -> bool) -> usize {
    let stop = (at..end).find(|index| !belongs(&lines[*index]));
    stop.unwrap_or(end)
}

/// Rule 8: "a body of five or more `-` only."
fn is_horizontal_rule(line: &Line) -> bool {
    line.body.len() >= 5 && line.body.iter().all(|byte| *byte == b'-')
}

/// Rule 9: "the body starts with `#+`, and its first run holds a later colon with at least one byte
/// between. The last colon of the run ends the key." The value is what follows that colon.
fn keyword_value(line: &Line) -> Option<Span> {
    let key_and_more = first_run(line.body).strip_prefix(b"#+")?;
    let key = key_and_more.iter().rposition(|byte| *byte == b':')?;
    (key > 0).then(|| line.value_after(b"#+".len() + key + b":".len()))
}

/// Rule 10: "this line, up to a blank line, the end, or a line where one of 3 to 9 holds"; order 4:
/// "an item line ends a paragraph".
pub fn paragraph_end(text: &Text, at: usize, ends: Ends) -> usize {
    let stops = |index: &usize| {
        text.lines[*index].is_blank() || rules_3_to_9a(text, *index, ends).is_some()
    };
    let end = ends.container;
    (at + 1..end).find(stops).unwrap_or(end)
}
