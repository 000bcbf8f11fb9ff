//! Texts with lists: the order book that people write, and texts made to be slow.

use crate::texts::{ended, filled, numbered, opening, wrapped, Dice, Text, PARTS};

/// How many lists lie in one another around the lines of a hostile text. The limit is 32.
const DEPTHS: [usize; 4] = [1, 4, 11, 31];

/// Whole orders with parts lists, as many as fit.
pub fn book(size: usize) -> Text {
    let mut book = String::from("#+TITLE: Parts\n\n");
    let mut dice = Dice(3);
    for number in 2001.. {
        let order = order(number, &mut dice);
        if book.len() + order.len() > size {
            break;
        }
        book += &order;
    }
    Text::new("parts lists", book)
}

/// One order: planning, drawer, remarks and up to three lists.
fn order(number: usize, dice: &mut Dice) -> String {
    let mut order = opening(number, 1 + dice.below(28), dice);
    order += &wrapped(1 + dice.below(3), dice);
    for _ in 0..1 + dice.below(3) {
        order += &list(dice);
    }
    order
}

/// A list of five to ten parts and the blank line after it. Every other one is numbered,
/// some of these from a number that a counter set gives.
fn list(dice: &mut Dice) -> String {
    let (ordered, first) = (dice.below(2) == 0, 1 + 4 * dice.below(2));
    let mut list = String::new();
    for number in first..first + 5 + dice.below(6) {
        let bullet = match (ordered, number) {
            (false, _) => "- ".to_string(),
            (true, 5) if first == 5 => "5. [@5] ".to_string(),
            (true, number) => format!("{number}. "),
        };
        list += &bullet;
        list += &item(dice);
    }
    list + "\n"
}

/// What follows a bullet: a check box or none, a part, and by chance a remark on a line of its
/// own or a list of what belongs to the part.
fn item(dice: &mut Dice) -> String {
    let mut item = format!("{}{}", dice.pick(&BOXES), part(dice));
    match dice.below(8) {
        0 | 1 => item += &format!("   {}", wrapped(1, dice)),
        2 => {
            for _ in 0..2 + dice.below(3) {
                item += &format!("   - {}{}", dice.pick(&BOXES), part(dice));
            }
        }
        _ => {}
    }
    item
}

fn part(dice: &mut Dice) -> String {
    let (part, count, price) = (dice.pick(&PARTS), 1 + dice.below(8), 5 + dice.below(900));
    format!("{part}, {count} at {price}.00\n")
}

const BOXES: [&str; 5] = ["", "", "[ ] ", "[X] ", "[-] "];

/// Lists of which a reading is to be linear. At 64 KB they have fewer records than a reading
/// keeps, so that all of them are read once.
pub fn growing(size: usize) -> [Text; 3] {
    let words = "words ".repeat(15);
    let item = format!("- {words}\n");
    let deep_item = indented(&format!("- a\n\t{words}\n"), &indentation(31));
    let line = format!("  {words}\n");
    [
        ("one list", filled("", &item, size)),
        ("list in 31 lists", filled(&nest(31), &deep_item, size)),
        ("one item", filled("- a\n", &line, size)),
    ]
    .map(|(name, bytes)| Text::new(name, bytes))
}

/// Texts made to be slow.
pub fn hostile(size: usize) -> Vec<Text> {
    let mut texts: Vec<Text> = DEPTHS
        .into_iter()
        .flat_map(|depth| open_in_lists(depth, size))
        .collect();
    texts.extend(many_lists(size));
    texts.extend(like_bullets(size));
    texts.extend(tables(size));
    texts
}

/// Openers that nothing closes, in lists that lie in one another: as the lines of the innermost
/// item, with nothing below them or a line of each item around them, and one in each of the
/// innermost list's items.
fn open_in_lists(depth: usize, size: usize) -> Vec<Text> {
    let within = |lines: &str| indented(lines, &indentation(depth));
    let nested = |lines| filled(&nest(depth), &within(lines), size);
    let numbered_in = |lines| {
        let nest = nest(depth).into_bytes();
        let rest = numbered(&within(lines), size - nest.len());
        [nest, rest].concat()
    };
    let last = within("#+begin_z\n#+end_z\n");
    let below = lines_below(depth);
    let items = |opener| {
        let items = format!("- a\n\t{opener}");
        let items = indented(&items, &indentation(depth - 1));
        filled(&nest(depth - 1), &items, size)
    };
    [
        ("blocks", nested("#+begin_x\n")),
        ("drawers", nested(":x:\n")),
        ("blocks, blanks", nested("#+begin_x\n\n")),
        ("drawers, blanks", nested(":x:\n\n")),
        ("other closers", nested("#+begin_a\n#+end_b\n")),
        ("block names", numbered_in("#+begin_%\n")),
        ("drawer names", numbered_in(":x%:\n")),
        ("other pairs", numbered_in("#+begin_a%\n#+end_b%\n")),
        ("closed last", ended(nested("#+begin_x\n"), &last)),
        (
            "names, closed last",
            ended(numbered_in("#+begin_%\n"), &last),
        ),
        ("blocks, left", ended(nested("#+begin_x\n"), &below)),
        ("drawers, left", ended(nested(":x:\n"), &below)),
        ("items, blocks", items("#+begin_x\n")),
        ("items, drawers", items(":x:\n")),
    ]
    .map(|(name, bytes)| Text::new(format!("{name} in {depth}"), bytes))
    .into()
}

/// Many lists and items: side by side, in one list, and in one another down to the limit and
/// below it, where the text is refused.
fn many_lists(size: usize) -> Vec<Text> {
    let falling: String = (0..8).rev().map(|width| item_line(width, "")).collect();
    let deep_lines = indented("a\n", &indentation(32));
    [
        ("lists, blanks", filled("", "-\n\n\n", size)),
        ("falling lists", filled("", &(falling + "x\n"), size)),
        ("one long fall", long_fall(size)),
        ("empty items", filled("", "-\n", size)),
        ("items", filled("", "- a\n", size)),
        ("spaced items", filled("", "- a\n\n", size)),
        ("nests of 32", filled("", &nest(32), size)),
        ("lines in 32 lists", filled(&nest(32), &deep_lines, size)),
        ("nest without end", filled("", &nest(400), size)),
        (
            "33 deep at last",
            ended(filled("", "- a\n", size), &nest(33)),
        ),
    ]
    .map(|(name, bytes)| Text::new(name, bytes))
    .into()
}

/// Paragraphs whose lines start as bullets do and have none, by themselves, in an item, and in an
/// item in 31 lists.
fn like_bullets(size: usize) -> Vec<Text> {
    let lines = [
        ("letters", "a word\n".to_string()),
        ("numbers", "1 word\n12345 words\n".to_string()),
        ("marks", "a.b\n1)c\n".to_string()),
        ("long numbers", "12345".repeat(200) + "\n"),
    ];
    let deep = indentation(31);
    let in_an_item = |lines: &str| filled("- a\n", &indented(lines, "\t"), size);
    let in_31_lists = |lines: &str| filled(&nest(31), &indented(lines, &deep), size);
    lines
        .iter()
        .flat_map(|(name, lines)| {
            [
                Text::new(*name, filled("", lines, size)),
                Text::new(format!("{name} in 1"), in_an_item(lines)),
                Text::new(format!("{name} in 31"), in_31_lists(lines)),
            ]
        })
        .collect()
}

/// Tables in items: one in each, one that goes on over rows that are indented less, and one in
/// 31 lists.
fn tables(size: usize) -> [Text; 3] {
    let deep = indented("| r\n", &indentation(31));
    [
        ("tables in items", filled("", "- a\n  | r\n", size)),
        ("one table in 1", filled("- a\n  | r\n", "| r\n", size)),
        ("one table in 31", filled(&nest(31), &deep, size)),
    ]
    .map(|(name, bytes)| Text::new(name, bytes))
}

/// Lists in one another, of one item each.
fn nest(depth: usize) -> String {
    (0..depth).map(|width| item_line(width, "a")).collect()
}

/// A line of text of each of these items, from the innermost on, so that no item but the outermost
/// ends where what is around it does.
fn lines_below(depth: usize) -> String {
    let line = |width| " ".repeat(width) + "x\n";
    (1..=depth).rev().map(line).collect()
}

fn item_line(width: usize, text: &str) -> String {
    format!("{}- {text}\n", " ".repeat(width))
}

/// The fewest bytes that indent a line so that it lies in an item of so many lists in one
/// another: a tab counts for 8 of them.
fn indentation(depth: usize) -> String {
    "\t".repeat(depth.div_ceil(8))
}

/// The lines with this before each that is not empty.
fn indented(lines: &str, indentation: &str) -> String {
    let indent = |line: &str| match line {
        "\n" => line.to_string(),
        line => format!("{indentation}{line}"),
    };
    lines.split_inclusive('\n').map(indent).collect()
}

/// Lists side by side, each indented a little less than the one before it.
fn long_fall(size: usize) -> Vec<u8> {
    let length = |width: usize| width * (width + 5) / 2;
    let widest = (0..).take_while(|width| length(width + 1) <= size).count();
    let lines = (0..widest).rev().map(|width| item_line(width, ""));
    lines.collect::<String>().into_bytes()
}

#[cfg(test)]
mod tests {
    use comaltzex::{CheckBox, Item, Kind, Record, Refusal, Table};

    use super::*;

    #[test]
    fn texts_have_their_size() {
        for size in [4096, 65_536] {
            let book = book(size).bytes;
            assert!(book.len() <= size && book.len() > size - 2500);
            for text in growing(size).into_iter().chain(hostile(size)) {
                let length = text.bytes.len();
                assert!(length <= size && length > size - 400, "{}", text.name);
            }
        }
    }

    #[test]
    fn names_differ() {
        let mut names: Vec<String> = hostile(4096).into_iter().map(|text| text.name).collect();
        names.sort();
        names.dedup();
        assert_eq!(names.len(), hostile(4096).len());
    }

    #[test]
    fn nests_and_indentation() {
        assert_eq!(nest(3), "- a\n - a\n  - a\n");
        assert_eq!(lines_below(3), "   x\n  x\n x\n");
        assert_eq!([0, 1, 8, 9].map(indentation), ["", "\t", "\t", "\t\t"]);
        assert_eq!(indented("a\n\nb\n", "\t"), "\ta\n\n\tb\n");
    }

    #[test]
    fn a_long_fall_ends_without_indentation() {
        let text = String::from_utf8(long_fall(4096)).unwrap();
        assert!(text.ends_with("\n  - \n - \n- \n"));
        assert!(long_fall(4096).len() <= 4096);
        assert_eq!(long_fall(12), b"  - \n - \n- \n");
        assert_eq!(long_fall(11), b" - \n- \n");
    }

    /// How many lists lie in one another in a text that can be read.
    fn depth(text: &Text) -> usize {
        let table = Table::read(&text.bytes).unwrap();
        let mut depths: Vec<usize> = Vec::new();
        for record in table.records() {
            let around = depths.get(record.parent).copied().unwrap_or(0);
            depths.push(around + usize::from(record.kind == Kind::List));
        }
        depths.into_iter().max().unwrap()
    }

    #[test]
    fn lists_lie_as_deep_as_their_texts_say() {
        for size in [4096, 65_536] {
            for text in hostile(size) {
                let Some((_, lists)) = text.name.rsplit_once(" in ") else {
                    continue;
                };
                if let Ok(lists) = lists.parse::<usize>() {
                    assert_eq!(depth(&text), lists, "{}", text.name);
                }
            }
            assert_eq!(growing(size).map(|text| depth(&text)), [1, 32, 1]);
        }
    }

    /// The record counts of what is made to have many records, and what is refused.
    #[test]
    fn hostile_texts_are_what_they_are_called() {
        let texts = hostile(65_536);
        let read = |name| {
            let text = texts.iter().find(|text| text.name == name).unwrap();
            Table::read(&text.bytes).map(|table| table.len())
        };
        assert_eq!(read("lists, blanks"), Ok(2 + 2 * 16_384));
        assert_eq!(read("empty items"), Ok(3 + 32_768));
        assert_eq!(read("items"), Ok(3 + 2 * 16_384));
        assert_eq!(read("letters"), Ok(3));
        assert_eq!(read("marks in 31"), Ok(2 + 3 * 31));
        assert_eq!(read("blocks in 31"), Ok(2 + 3 * 31));
        assert_eq!(read("closed last in 31"), Ok(2 + 3 * 31 + 1));
        assert_eq!(read("blocks, left in 31"), Ok(2 + 3 * 31 + 30));
        assert_eq!(read("nest without end"), Err(Refusal::TooDeep));
        assert_eq!(read("33 deep at last"), Err(Refusal::TooDeep));
    }

    #[test]
    fn growing_texts_are_read_once() {
        for text in growing(65_536) {
            assert!(
                Table::read(&text.bytes).unwrap().len() < 1900,
                "{}",
                text.name
            );
        }
    }

    /// Lists in lists, of both details, with counter sets, check boxes and second lines.
    #[test]
    fn the_book_has_all_that_parts_lists_have() {
        let text = book(4096).bytes;
        let records: Vec<Record> = Table::read(&text).unwrap().records().collect();
        let items: Vec<Item> = records.iter().filter_map(|r| r.item(&text)).collect();
        for check_box in [CheckBox::Blank, CheckBox::Partial, CheckBox::Done] {
            assert!(items.iter().any(|item| item.check_box == Some(check_box)));
        }
        assert!(items.iter().any(|item| item.check_box.is_none()));
        assert!(items.iter().any(|item| item.counter == Some(b"5")));
        let lists = || records.iter().filter(|record| record.kind == Kind::List);
        assert!([1, 2]
            .iter()
            .all(|detail| lists().any(|list| list.detail == *detail)));
        assert!(lists().any(|list| records[list.parent].kind == Kind::Item));
        let is_long = |text: &[u8]| text.iter().filter(|byte| **byte == b'\n').count() == 2;
        let in_item =
            |r: &&Record| r.kind == Kind::Paragraph && records[r.parent].kind == Kind::Item;
        let mut texts = records.iter().filter(in_item);
        assert!(texts.any(|r| r.text(&text).is_some_and(is_long)));
    }

    #[test]
    fn a_longer_book_goes_on_where_a_heading_starts() {
        let (short, long) = (book(4096).bytes, book(8192).bytes);
        assert!(long.starts_with(&short));
        assert!(long[short.len()..].starts_with(b"* "));
    }
}
