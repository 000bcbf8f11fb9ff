//! Document 01, "Sample readings", with what document 02 changed in them: line numbers by order 7, the
//! lookup's numbers by order 2; searches for closers, order 3.

use plain_reader::{answer, closer_search, lookup, read, Reading, NUMBERS_OF_A_RECORD};

/// The lines of `text` with byte 10 after each.
fn book(lines: &[&str]) -> Vec<u8> {
    lines
        .iter()
        .flat_map(|line| [line.as_bytes(), b"\n"])
        .flatten()
        .copied()
        .collect()
}

fn table(text: &[u8]) -> Vec<[u32; NUMBERS_OF_A_RECORD]> {
    match read(text) {
        Reading::Table(records) => records.iter().map(|record| record.numbers()).collect(),
        refusal => panic!("{refusal:?}"),
    }
}

fn kinds(text: &[u8]) -> Vec<u32> {
    table(text).iter().map(|numbers| numbers[0]).collect()
}

/// Greater blocks one in the other, `levels` deep.
fn nested_blocks(levels: usize) -> Vec<u8> {
    let openers = (1..=levels).map(|level| format!("#+begin_b{level}\n"));
    let closers = (1..=levels).rev().map(|level| format!("#+end_b{level}\n"));
    openers.chain(closers).collect::<String>().into_bytes()
}

#[test]
fn an_order_with_its_drawer() {
    let text = book(&["* A", ":PROPERTIES:", ":VIN: 7", ":END:", "", "hi"]);
    assert_eq!(text.len(), 35);
    let expected = [
        [1, 0, 35, 0, 35, 0, 0, 0],
        [2, 0, 35, 4, 35, 0, 1, 0],
        [3, 4, 35, 4, 35, 1, 0, 1],
        [5, 4, 32, 17, 25, 2, 0, 1],
        [6, 17, 25, 23, 24, 3, 0, 2],
        [16, 32, 35, 32, 35, 2, 0, 5],
    ];
    assert_eq!(table(&text), expected);
    assert_eq!(lookup(&text, 0, b"vin"), (0, 23, 24, 0));
}

#[test]
fn a_blank_line_above_the_drawer() {
    let text = book(&["* A", "", ":PROPERTIES:", ":VIN: 7", ":END:"]);
    assert_eq!(text.len(), 32);
    assert_eq!(kinds(&text), [1, 2, 3, 7, 16]);
    assert_eq!(lookup(&text, 0, b"vin"), (8, 0, 0, 0));
}

#[test]
fn a_heading_inside_an_open_block() {
    let text = book(&["#+begin_src", "* A", "#+end_src"]);
    assert_eq!(text.len(), 26);
    assert_eq!(kinds(&text), [1, 3, 16, 2, 3, 16]);
}

#[test]
fn the_empty_text() {
    assert_eq!(table(b""), [[1, 0, 0, 0, 0, 0, 0, 0]]);
}

#[test]
fn a_star_needs_a_space() {
    assert_eq!(kinds(b"*"), [1, 3, 16]);
    assert_eq!(kinds(b"* "), [1, 2]);
}

#[test]
fn a_rule_needs_five_hyphens() {
    assert_eq!(kinds(b"----"), [1, 3, 16]);
    assert_eq!(kinds(b"-----"), [1, 3, 14]);
}

#[test]
fn node_properties_and_plus() {
    let with = |line| kinds(&book(&["* A", ":PROPERTIES:", line, ":END:"]));
    assert_eq!(with(":+:"), [1, 2, 3, 7, 16]);
    assert_eq!(with(":A++:"), [1, 2, 3, 7, 16]);
    assert_eq!(with(":A+:"), [1, 2, 3, 5, 6]);
}

#[test]
fn a_keyword_needs_a_byte_before_its_colon() {
    assert_eq!(kinds(b"#+:"), [1, 3, 16]);
    assert_eq!(kinds(b"#+::"), [1, 3, 15]);
}

#[test]
fn the_longest_text() {
    assert_eq!(kinds(&[b'a'; 65_536]), [1, 3, 16]);
    assert_eq!(read(&[b'a'; 65_537]), Reading::TooLong);
    assert_eq!(answer(&[b'a'; 65_537], &mut []), (1, 0));
    assert_eq!(lookup(&[b'a'; 65_537], 0, b""), (1, 0, 0, 0));
}

#[test]
fn the_greatest_depth() {
    assert_eq!(kinds(&nested_blocks(32)).len(), 2 + 32);
    assert_eq!(read(&nested_blocks(33)), Reading::TooDeep);
    assert_eq!(answer(&nested_blocks(33), &mut []), (2, 0));
}

#[test]
fn room_exact_and_one_less() {
    let text = book(&["* A", ":PROPERTIES:", ":VIN: 7", ":END:", "", "hi"]);
    let mut short = [9; 47];
    assert_eq!(answer(&text, &mut short), (3, 6));
    assert_eq!(short, [9; 47]);
    let mut exact = [9; 48];
    assert_eq!(answer(&text, &mut exact), (0, 6));
    assert_eq!(exact.as_slice(), table(&text).concat());
    let mut longer = [9; 50];
    assert_eq!(answer(&text, &mut longer), (0, 6));
    assert_eq!(longer[48..], [9; 2]);
}

#[test]
fn the_programs_room() {
    let mut table = [9; 16_384];
    assert_eq!(answer(&b"|\n".repeat(2_046), &mut table), (3, 2_049));
    assert_eq!(answer(&b"|\n".repeat(2_045), &mut table), (0, 2_048));
    assert_eq!(
        table[16_376..],
        [11, 4_088, 4_090, 4_088, 4_089, 2, 0, 2_044]
    );
}

#[test]
fn a_byte_10_at_the_start_is_not_before_it() {
    assert_eq!(table(b"\n"), [[1, 0, 1, 0, 1, 0, 0, 0]]);
}

#[test]
fn byte_13_ends_no_line() {
    let expected = [
        [1, 0, 5, 0, 5, 0, 0, 0],
        [3, 2, 5, 2, 5, 0, 0, 1],
        [16, 2, 5, 2, 5, 1, 0, 1],
    ];
    assert_eq!(table(b"\r\n\ra\n"), expected);
}

#[test]
fn headings_have_the_line_numbers_of_their_lines() {
    let expected = [
        [1, 0, 12, 0, 12, 0, 0, 0],
        [2, 0, 9, 4, 9, 0, 1, 0],
        [2, 4, 9, 9, 9, 1, 2, 1],
        [2, 9, 12, 12, 12, 0, 1, 2],
    ];
    assert_eq!(table(b"* A\n** B\n* C"), expected);
}

/// "Easy wrong turns": one text for each.
mod easy_wrong_turns {
    use super::*;

    #[test]
    fn no_identity_from_an_outer_or_earlier_heading() {
        let text = book(&["* A", ":PROPERTIES:", ":VIN: 7", ":END:", "** B", "* C"]);
        assert_eq!(lookup(&text, 0, b"VIN"), (0, 23, 24, 0));
        assert_eq!(lookup(&text, 31, b"VIN"), (5, 0, 0, 0));
        assert_eq!(lookup(&text, 36, b"VIN"), (5, 0, 0, 0));
    }

    #[test]
    fn the_first_closer_closes() {
        let text = book(&["#+begin_a", "#+begin_a", "#+end_a", "#+end_a"]);
        assert_eq!(kinds(&text), [1, 3, 8, 16, 16]);
        let text = book(&["#+begin_a", "#+begin_b", "#+end_a", "#+end_b"]);
        assert_eq!(kinds(&text), [1, 3, 8, 16, 16]);
    }

    #[test]
    fn an_unclosed_opener_does_not_end_a_paragraph() {
        assert_eq!(kinds(&book(&["a", "#+begin_src", ":LOG:"])), [1, 3, 16]);
    }

    #[test]
    fn nothing_runs_across_a_heading() {
        assert_eq!(
            kinds(&book(&[":LOG:", "* A", ":END:"])),
            [1, 3, 16, 2, 3, 16]
        );
    }

    #[test]
    fn blank_lines_go_to_the_last_element() {
        let text = book(&["* A", "a", "", "* B"]);
        let expected = [
            [1, 0, 11, 0, 11, 0, 0, 0],
            [2, 0, 7, 4, 7, 0, 1, 0],
            [3, 4, 7, 4, 7, 1, 0, 1],
            [16, 4, 7, 4, 6, 2, 0, 1],
            [2, 7, 11, 11, 11, 0, 1, 3],
        ];
        assert_eq!(table(&text), expected);
    }
}

mod closers {
    use super::*;

    /// The search up to the text's end.
    fn search(text: &[u8], at: usize) -> (u32, usize, usize, usize) {
        closer_search(text, at, text.len())
    }

    #[test]
    fn one_line_compared() {
        assert_eq!(search(b"#+begin_a\nx\n#+end_a\n", 0), (1, 12, 20, 1));
    }

    #[test]
    fn no_closer_counted_to_the_end() {
        assert_eq!(search(b"#+begin_a\nx\n# c\n:END:\n", 0), (0, 0, 0, 1));
    }

    #[test]
    fn indented_and_blank_lines() {
        let text = b"#+begin_a\n  # x\n\n\t#+end_a\n";
        assert_eq!(search(text, 0), (1, 17, 26, 2));
    }

    #[test]
    fn byte_13_before_the_mark_is_compared_but_no_closer() {
        let text = b"#+begin_a\n\r#+end_a\n#+end_a\n";
        assert_eq!(search(text, 0), (1, 19, 27, 2));
    }

    #[test]
    fn first_closer_closes() {
        let text = b"#+begin_a\n#+begin_a\n#+end_a\n#+end_a\n";
        assert_eq!(search(text, 0), (1, 20, 28, 2));
    }

    #[test]
    fn many_unclosed_drawers() {
        let text = b":a:\n:a:\n:a:\n:a:\n";
        assert_eq!(search(text, 0), (0, 0, 0, 3));
        assert_eq!(search(text, 12), (0, 0, 0, 0));
    }

    #[test]
    fn colon_lines_are_not_compared_for_a_block() {
        assert_eq!(search(b"#+begin_d\n:END:\n#+end_d", 0), (1, 16, 23, 1));
    }

    #[test]
    fn blank_bytes_after_the_closer() {
        assert_eq!(search(b"#+begin_a\n#+end_a \r\n", 0), (1, 10, 20, 1));
    }

    #[test]
    fn a_closer_takes_no_parameters() {
        assert_eq!(search(b"#+begin_a\n#+end_a x\n", 0), (0, 0, 0, 1));
    }

    #[test]
    fn keywords_and_comments_count() {
        let text = b"#+begin_a\n#+k: v\n#\n##\n#+end_a\n";
        assert_eq!(search(text, 0), (1, 22, 30, 4));
    }

    #[test]
    fn the_end_cuts_a_line() {
        let text = b":a:\n:end: x\n";
        assert_eq!(closer_search(text, 0, 9), (1, 4, 9, 1));
        assert_eq!(closer_search(text, 0, 11), (0, 0, 0, 1));
        assert_eq!(closer_search(b":a:b\n:end:", 0, 3), (0, 0, 0, 0));
    }

    #[test]
    fn without_an_opener_all_is_0() {
        let text = b" :a:\n:end:\n:x\n:end:\n";
        let none = (0, 0, 0, 0);
        for at in [1, 5, 11, 20, 21, usize::MAX] {
            assert_eq!(search(text, at), none, "at {at}");
        }
        for end in [0, text.len() + 1, usize::MAX] {
            assert_eq!(closer_search(text, 0, end), none, "end {end}");
        }
    }
}
