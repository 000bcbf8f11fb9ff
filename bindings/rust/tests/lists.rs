//! Lists and items (document 02, order 4), through the safe interface.

mod nested;

use comaltzex::{CheckBox, Item, Kind, Record, Refusal, Table, DEPTH_LIMIT, RECORD_SIZE};
use nested::nested_lists;

use Kind::{GreaterBlock, List, Paragraph, Row};

const ITEM: Kind = Kind::Item;
const TABLE: Kind = Kind::Table;

const PARTS: &[u8] =
    b"Parts:\n- [X] pump\n  1. [@3] seal\n  2. ring\n     of steel\n\n- hose\n\nEnd\n";

#[rustfmt::skip]
const PARTS_TABLE: [u32; 14 * RECORD_SIZE] = [
    1, 0, 70, 0, 70, 0, 0, 0,
    3, 0, 70, 0, 70, 0, 0, 0,
    16, 0, 7, 0, 7, 1, 0, 0,
    17, 7, 66, 7, 65, 1, 2, 1,
    18, 7, 58, 13, 57, 3, 0, 1,
    16, 13, 18, 13, 18, 4, 0, 1,
    17, 18, 57, 18, 57, 4, 1, 2,
    18, 18, 33, 28, 33, 6, 0, 2,
    16, 28, 33, 28, 33, 7, 0, 2,
    18, 33, 57, 38, 57, 6, 0, 3,
    16, 38, 57, 38, 57, 9, 0, 3,
    18, 58, 65, 60, 65, 3, 0, 6,
    16, 60, 65, 60, 65, 11, 0, 6,
    16, 66, 70, 66, 70, 1, 0, 8,
];

fn records(text: &[u8]) -> Vec<Record> {
    Table::read(text).unwrap().records().collect()
}

/// The kinds of what a text's one section holds.
fn kinds(text: &str) -> Vec<Kind> {
    let records = records(text.as_bytes());
    assert_eq!(records[1].kind, Kind::Section, "{text:?}");
    records[2..].iter().map(|record| record.kind).collect()
}

#[test]
fn a_parts_list() {
    assert_eq!(Table::read(PARTS).unwrap().numbers(), PARTS_TABLE);
}

#[test]
fn items_and_their_texts() {
    let records = records(PARTS);
    let items = records.iter().filter(|r| r.kind == Kind::Item);
    let found: Vec<(Item, &[u8])> = items
        .map(|r| (r.item(PARTS).unwrap(), r.inner_text(PARTS).unwrap()))
        .collect();
    let item = |bullet, counter, check_box| Item {
        bullet,
        counter,
        check_box,
    };
    let wanted: [(Item, &[u8]); 4] = [
        (
            item(b"-", None, Some(CheckBox::Done)),
            b"pump\n  1. [@3] seal\n  2. ring\n     of steel\n",
        ),
        (item(b"1.", Some(b"3"), None), b"seal\n"),
        (item(b"2.", None, None), b"ring\n     of steel\n"),
        (item(b"-", None, None), b"hose\n"),
    ];
    assert_eq!(found, wanted);
}

#[test]
fn other_records_are_no_items() {
    for record in records(PARTS) {
        let is_item = record.kind == Kind::Item;
        assert_eq!(record.item(PARTS).is_some(), is_item, "{record:?}");
    }
}

/// What a line may begin with: of each group one, and of those after the bullet none, too.
const BEGINNINGS: [&[&str]; 5] = [
    &["", " ", "\t", "\r"],
    &[
        "-", "+", "*", "--", "12.", "1)", "12", "a.", "Z)", "ab.", "a",
    ],
    &["", " ", "\t\r", "x"],
    &["", "[@5]", "[@a] ", "[@5]x", "[@ab] ", "[@]"],
    &[
        "", "[ ]", "[\t] ", "[X]\r", "[x]x", "[-] x", "[] ", "[ ] [X] ",
    ],
];

/// All ways to take one of each group, in order.
fn lines(groups: &[&[&str]]) -> Vec<String> {
    let longer = |starts: Vec<String>, group: &&[&str]| {
        let ends = |start: &String| group.iter().map(|end| [start, *end].concat()).collect();
        starts.iter().flat_map::<Vec<String>, _>(ends).collect()
    };
    groups.iter().fold(vec![String::new()], longer)
}

/// Crate and library agree on what of an item's line is text: there is an item for each record.
#[test]
fn each_item_that_is_read_can_be_taken_apart() {
    let both = |line: String| [format!("{line}\n"), line];
    let mut items = 0;
    for line in lines(&BEGINNINGS).into_iter().flat_map(both) {
        for record in records(line.as_bytes()) {
            let item = record.item(line.as_bytes());
            assert_eq!(item.is_some(), record.kind == Kind::Item, "{line:?}");
            items += usize::from(item.is_some());
        }
    }
    // with a line end and without: 20 ways to have a bullet with its indentation, after each the
    // line's end, or one of two blanks with what may follow it
    assert_eq!(items, 2 * 20 * (1 + 2 * 6 * 8));
}

#[test]
fn details_of_lists() {
    let detail = |text: &str| {
        let list = records(text.as_bytes()).swap_remove(2);
        assert_eq!(list.kind, Kind::List, "{text:?}");
        list.detail
    };
    assert_eq!(["1. a\n", "a)\n", "12)\n- b\n"].map(detail), [1, 1, 1]);
    assert_eq!(
        ["- a\n", "+", " * a\n", "-\n1. b\n"].map(detail),
        [2, 2, 2, 2]
    );
}

/// README.md says each of these of lists.
#[test]
fn lines_that_start_a_list() {
    assert_eq!(kinds("a\n- b\n"), [Paragraph, List, ITEM, Paragraph]);
    assert_eq!(kinds("a\n-b\n"), [Paragraph]);
    assert_eq!(
        kinds("the car of\n1984. It\n"),
        [Paragraph, List, ITEM, Paragraph]
    );
    assert_eq!(kinds("the car of\n1984 it\n"), [Paragraph]);
    assert_eq!(kinds("he and\nI. It\n"), [Paragraph, List, ITEM, Paragraph]);
    assert_eq!(kinds("he and\nI it\n"), [Paragraph]);
}

#[test]
fn a_closer_below_the_list_draws_all_up_to_it_into_the_item() {
    let open = "- a\n  #+begin_x\n- b\n\n\ntext\n";
    let item = [List, ITEM, Paragraph];
    let items = [&item[..], &item[1..], &[Paragraph]].concat();
    assert_eq!(kinds(open), items);
    let closed = [open, "#+end_x\n"].concat();
    let block = [&item[..], &[GreaterBlock], &item, &[Paragraph]].concat();
    assert_eq!(kinds(&closed), block);
}

#[test]
fn indentation_makes_lists() {
    let item = [List, ITEM, Paragraph];
    let one_list = [&item[..], &item[1..]].concat();
    let two_lists = [item, item].concat();
    assert_eq!(kinds("- a\n- b\n"), one_list);
    // the second in the first, and beside it
    for text in ["- a\n - b\n", " - a\n- b\n"] {
        assert_eq!(kinds(text), two_lists);
    }
    let parent = |text: &str| records(text.as_bytes())[5].parent;
    assert_eq!(parent("- a\n - b\n"), 3);
    assert_eq!(parent(" - a\n- b\n"), 1);
    assert_eq!(kinds("\t- a\n        - b\n"), one_list);
    assert_eq!(kinds("\t- a\n       - b\n"), two_lists);
}

#[test]
fn a_table_goes_on_over_rows_that_are_indented_less() {
    assert_eq!(
        kinds("- a\n  | r\n| q\n"),
        [List, ITEM, Paragraph, TABLE, Row, Row]
    );
    assert_eq!(
        kinds("- a\n  # c\n# d\n"),
        [List, ITEM, Paragraph, Kind::Comment, Kind::Comment]
    );
}

#[test]
fn text_on_the_first_line_opens_nothing() {
    let item = [List, ITEM, Paragraph];
    assert_eq!(kinds("- #+begin_x\n  #+end_x\n"), item);
    let below = [&item[..], &[GreaterBlock]].concat();
    assert_eq!(kinds("- a\n  #+begin_x\n  #+end_x\n"), below);
    assert_eq!(kinds("- - a\n"), item);
}

#[test]
fn two_blank_lines_end_all_lists() {
    let item = [List, ITEM, Paragraph];
    assert_eq!(kinds("- a\n\n- b\n"), [&item[..], &item[1..]].concat());
    assert_eq!(kinds("- a\n\n\n- b\n"), [item, item].concat());
    let in_a_block = "- a\n  #+begin_x\n\n\n  #+end_x\n- b\n";
    let block = [&item[..], &[GreaterBlock], &item[1..]].concat();
    assert_eq!(kinds(in_a_block), block);
}

#[test]
fn lists_count_towards_the_depth() {
    for (with_blocks, count) in [(false, 2 + 3 * 32), (true, 2 + 3 * 16 + 16)] {
        let deepest = Table::read(&nested_lists(DEPTH_LIMIT, with_blocks)).unwrap();
        assert_eq!(deepest.len(), count);
        let deeper = nested_lists(DEPTH_LIMIT + 1, with_blocks);
        assert_eq!(Table::read(&deeper), Err(Refusal::TooDeep));
    }
}
