//! Document 02, order 4: parts lists.

use plain_reader::{answer, lookup, read, Reading, NUMBERS_OF_A_RECORD};

type Numbers = [u32; NUMBERS_OF_A_RECORD];

const LIST: u32 = 17;
const ITEM: u32 = 18;

fn table(text: &str) -> Vec<Numbers> {
    match read(text.as_bytes()) {
        Reading::Table(records) => records.iter().map(|record| record.numbers()).collect(),
        refusal => panic!("{text:?}: {refusal:?}"),
    }
}

/// What the first section holds, as kinds with what each holds in brackets.
fn tree(text: &str) -> String {
    let table = table(text);
    let section = table.iter().position(|record| record[0] == 3);
    held(&table, section.expect("a section"))
}

fn held(table: &[Numbers], parent: usize) -> String {
    let children = (1..table.len()).filter(|index| table[*index][5] as usize == parent);
    let told = children.map(|child| match held(table, child) {
        inner if inner.is_empty() => table[child][0].to_string(),
        inner => format!("{}({inner})", table[child][0]),
    });
    told.collect::<Vec<String>>().join(" ")
}

/// Start, end, inner start and inner end of every record of that kind.
fn spans(text: &str, kind: u32) -> Vec<[u32; 4]> {
    let table = table(text);
    let records = table.iter().filter(|record| record[0] == kind);
    records
        .map(|record| [record[1], record[2], record[3], record[4]])
        .collect()
}

/// The details of the lists.
fn details(text: &str) -> Vec<u32> {
    let table = table(text);
    let lists = table.iter().filter(|record| record[0] == LIST);
    lists.map(|record| record[6]).collect()
}

/// Lists one in the other, each begun by a lone bullet, then `innermost` indented by as much again.
fn nested(lists: usize, innermost: &str) -> String {
    let bullets = (0..lists).map(|level| format!("{}-\n", " ".repeat(level)));
    let inside = innermost
        .lines()
        .map(|line| format!("{}{line}\n", " ".repeat(lists)));
    bullets.chain(inside).collect()
}

#[test]
fn one_item() {
    let expected = [
        [1, 0, 4, 0, 4, 0, 0, 0],
        [3, 0, 4, 0, 4, 0, 0, 0],
        [17, 0, 4, 0, 4, 1, 2, 0],
        [18, 0, 4, 2, 4, 2, 0, 0],
        [16, 2, 4, 2, 4, 3, 0, 0],
    ];
    assert_eq!(table("- a\n"), expected);
}

#[test]
fn lists_and_items_start_with_their_indentation() {
    let expected = [
        [1, 0, 14, 0, 14, 0, 0, 0],
        [3, 1, 14, 1, 14, 0, 0, 1],
        [17, 1, 14, 1, 14, 1, 1, 1],
        [18, 1, 8, 6, 8, 2, 0, 1],
        [16, 6, 8, 6, 8, 3, 0, 1],
        [18, 8, 14, 12, 14, 2, 0, 2],
        [16, 12, 14, 12, 14, 5, 0, 2],
    ];
    assert_eq!(table("\n  1) a\n  - b\n"), expected);
}

mod bullets {
    use super::*;

    #[test]
    fn hyphen_plus_star_number_letter() {
        for bullet in [
            "-",
            "+",
            "1.",
            "1)",
            "0.",
            "007)",
            "12345678901234567890.",
            "a.",
            "a)",
            "Z.",
            "Z)",
            " -",
            " +",
            " *",
            "\t*",
            "  *",
            " 1.",
            "\ta)",
        ] {
            assert_eq!(tree(&format!("{bullet} x\n")), "17(18(16))", "{bullet:?}");
        }
    }

    #[test]
    fn what_is_no_bullet() {
        for bullet in [
            "ab.", "a1.", "1a.", "1", "a", "1:", "a:", ".", ")", "(1)", "--", "-+", "-1", "+1",
            "1..", "1.)", " **", "\u{e9}.", "\u{2022}", "\x0B-", "\r-", " \r-", "\r*", "#.", "1 .",
        ] {
            assert_eq!(tree(&format!("{bullet} x\n")), "16", "{bullet:?}");
        }
    }

    #[test]
    fn a_star_at_the_lines_start_is_none() {
        assert_eq!(tree("*\tx\n"), "16");
        assert_eq!(tree("*\rx\n"), "16");
        assert_eq!(tree("*"), "16");
        assert_eq!(table("* x\n")[1][0], 2);
    }

    #[test]
    fn then_a_blank_byte_or_line_end() {
        for after in [" x\n", "\tx\n", "\rx\n"] {
            assert_eq!(tree(&format!("-{after}")), "17(18(16))", "{after:?}");
            assert_eq!(tree(&format!("1.{after}")), "17(18(16))", "{after:?}");
        }
        for after in ["\n", "", " ", "\t\n", "\r\n", "\r"] {
            assert_eq!(tree(&format!("-{after}")), "17(18)", "{after:?}");
            assert_eq!(tree(&format!("a){after}")), "17(18)", "{after:?}");
        }
        for after in ["x\n", "\x0Bx\n", "\x0Cx\n", "\u{a0}x\n", "\0", "-\n"] {
            assert_eq!(tree(&format!("-{after}")), "16", "{after:?}");
            assert_eq!(tree(&format!("1.{after}")), "16", "{after:?}");
        }
    }

    #[test]
    fn five_hyphens_are_a_rule() {
        assert_eq!(tree("-----\n"), "14");
        assert_eq!(tree("----\n"), "16");
        assert_eq!(tree("- ----\n"), "17(18(16))");
        assert_eq!(tree("- -----\n"), "17(18(16))");
        assert_eq!(tree("-----\n- a\n-----\n"), "14 17(18(16)) 14");
    }

    #[test]
    fn the_first_tells_the_detail() {
        assert_eq!(details("1. a\n"), [1]);
        assert_eq!(details("b) a\n"), [1]);
        for text in ["- a\n", "+ a\n", " * a\n"] {
            assert_eq!(details(text), [2]);
        }
        assert_eq!(details("- a\n1. b\n"), [2]);
        assert_eq!(details("1. a\n- b\n"), [1]);
        assert_eq!(details("- a\n  1. b\n\n\n1. c\n"), [2, 1, 1]);
    }

    #[test]
    fn a_change_of_bullet_makes_no_second_list() {
        let text = "- a\n+ b\n1. c\n2) d\nx. e\n";
        assert_eq!(tree(text), "17(18(16) 18(16) 18(16) 18(16) 18(16))");
    }
}

mod first_lines {
    use super::*;

    /// Where the inner span of the item on that line starts.
    fn inner_start(line: &str) -> u32 {
        spans(&format!("{line}\n"), ITEM)[0][2]
    }

    #[test]
    fn blank_bytes_after_the_bullet() {
        for (line, start) in [
            ("- a", 2),
            ("-   a", 4),
            ("-\ta", 2),
            ("-\ra", 2),
            ("- \t\r a", 5),
            ("  - a", 4),
            ("\t* a", 3),
            ("10) a", 4),
        ] {
            assert_eq!(inner_start(line), start, "{line:?}");
        }
    }

    #[test]
    fn counter_sets() {
        for (line, start) in [
            ("- [@5] a", 7),
            ("1. [@10]  a", 10),
            ("a) [@b]\ta", 8),
            ("+ [@Z]\ra", 7),
            ("- [@5]a", 2),
            ("- [@] a", 2),
            ("- [@ab] a", 2),
            ("- [@1a] a", 2),
            ("- [@-1] a", 2),
            ("- [5] a", 2),
            ("- [@5 ] a", 2),
            ("- @5 a", 2),
            ("- [@5] [@6] a", 7),
        ] {
            assert_eq!(inner_start(line), start, "{line:?}");
        }
    }

    #[test]
    fn check_boxes() {
        for (line, start) in [
            ("- [ ] a", 6),
            ("- [\t] a", 6),
            ("- [\r] a", 6),
            ("- [X] a", 6),
            ("- [x]  a", 7),
            ("- [-]\ra", 6),
            ("- [Y] a", 2),
            ("- [] a", 2),
            ("- [  ] a", 2),
            ("- [XX] a", 2),
            ("- [X]a", 2),
            ("- [X][X] a", 2),
            ("- (X) a", 2),
            ("- [X] [X] a", 6),
        ] {
            assert_eq!(inner_start(line), start, "{line:?}");
        }
    }

    #[test]
    fn the_set_comes_first() {
        assert_eq!(inner_start("- [@5] [X] a"), 11);
        assert_eq!(inner_start("- [@5]\t[X]\ra"), 11);
        assert_eq!(inner_start("- [X] [@5] a"), 6);
        assert_eq!(inner_start("- [@5][X] a"), 2);
        assert_eq!(inner_start("- [@5] [X]a"), 7);
    }

    #[test]
    fn tags_stay_text() {
        assert_eq!(spans("- a :: b\n", 16), [[2, 9, 2, 9]]);
        assert_eq!(details("- a :: b\n"), [2]);
    }

    #[test]
    fn a_line_end_left_alone() {
        for (text, inner) in [
            ("-", [1, 1]),
            ("- ", [2, 2]),
            ("-\n", [1, 2]),
            ("- \t\n", [3, 4]),
            ("-\r\n", [2, 3]),
            ("- [ ]", [5, 5]),
            ("- [X] \r\n", [7, 8]),
            ("1. [@1] [-]\n", [11, 12]),
        ] {
            assert_eq!(tree(text), "17(18)", "{text:?}");
            assert_eq!(spans(text, ITEM)[0][2..], inner, "{text:?}");
        }
    }

    #[test]
    fn it_may_stand_before_the_first_element_and_is_no_blank_line() {
        assert_eq!(tree("-\n  a\n"), "17(18(16))");
        assert_eq!(tree("-\n\n  a\n"), "17(18(16))");
        assert_eq!(spans("-\n\n  a\n", ITEM), [[0, 7, 1, 7]]);
        assert_eq!(tree("-\n\n\n  a\n"), "17(18) 16");
        assert_eq!(tree("-\n  - a\n"), "17(18(17(18(16))))");
        assert_eq!(tree("-\n -\n  -\n"), "17(18(17(18(17(18)))))");
    }

    #[test]
    fn text_there_is_a_paragraph_whatever_it_looks_like() {
        for text in [
            "- | a\n",
            "- # a\n",
            "- : a\n",
            "- #+a: b\n",
            "- -----\n",
            "- - a\n",
            "- 1. a\n",
            "- * a\n",
            "- :a:\n",
            "- CLOSED: [2024-01-01]\n",
        ] {
            assert_eq!(tree(text), "17(18(16))", "{text:?}");
        }
        assert_eq!(tree("- #+begin_a\n  #+end_a\n"), "17(18(16))");
        assert_eq!(tree("- :a:\n  :END:\n"), "17(18(16))");
    }

    #[test]
    fn the_paragraph_goes_on_by_rule_10() {
        assert_eq!(spans("- a\n  b\n c\n", 16), [[2, 11, 2, 11]]);
        assert_eq!(spans("- a\n\n  b\n", 16), [[2, 5, 2, 4], [5, 9, 5, 9]]);
        assert_eq!(tree("- a\n  # c\n"), "17(18(16 12))");
        assert_eq!(tree("- a\n  | c\n"), "17(18(16 10(11)))");
        assert_eq!(tree("- a\n  - c\n"), "17(18(16 17(18(16))))");
        assert_eq!(tree("- a\n  :b:\n"), "17(18(16))");
        assert_eq!(tree("- a\n  :b:\n:END:\n"), "17(18(16 7))");
    }
}

mod where_items_end {
    use super::*;

    #[test]
    fn before_a_line_indented_no_more() {
        assert_eq!(tree("- a\n b\n"), "17(18(16))");
        assert_eq!(tree("- a\nb\n"), "17(18(16)) 16");
        assert_eq!(tree("  - a\n   b\n"), "17(18(16))");
        assert_eq!(tree("  - a\n  b\n"), "17(18(16)) 16");
        assert_eq!(tree("  - a\n b\n"), "17(18(16)) 16");
        assert_eq!(tree("- a\n\n b\n"), "17(18(16 16))");
        assert_eq!(tree("- a\n\nb\n"), "17(18(16)) 16");
        assert_eq!(tree("- a\n\r b\n"), "17(18(16)) 16");
    }

    #[test]
    fn a_tab_counts_8() {
        assert_eq!(tree("\t- a\n        b\n"), "17(18(16)) 16");
        assert_eq!(tree("\t- a\n         b\n"), "17(18(16))");
        assert_eq!(tree("        - a\n\t- b\n"), "17(18(16) 18(16))");
        assert_eq!(tree(" \t- a\n         - b\n"), "17(18(16) 18(16))");
        assert_eq!(tree("       - a\n\tb\n"), "17(18(16))");
        assert_eq!(tree("\t - a\n \t- b\n"), "17(18(16) 18(16))");
    }

    #[test]
    fn any_element_indented_no_more() {
        for (line, kinds) in [
            ("#+a: b", "15"),
            ("# b", "12"),
            (": b", "13"),
            ("| b", "10(11)"),
            ("-----", "14"),
            (":b:\n:END:", "7"),
            ("#+begin_b\n#+end_b", "8"),
        ] {
            assert_eq!(
                tree(&format!("- a\n{line}\n")),
                format!("17(18(16)) {kinds}")
            );
        }
    }

    #[test]
    fn at_two_blank_lines_together() {
        assert_eq!(tree("- a\n\n\n  b\n"), "17(18(16)) 16");
        assert_eq!(tree("- a\n\n\n- b\n"), "17(18(16)) 17(18(16))");
        assert_eq!(tree("- a\n \t\n\r\n- b\n"), "17(18(16)) 17(18(16))");
        assert_eq!(tree("- a\n\n- b\n"), "17(18(16) 18(16))");
        assert_eq!(tree("- a\n\n  b\n\n  c\n"), "17(18(16 16 16))");
        assert_eq!(
            tree("- a\n  - b\n\n\n  - c\n"),
            "17(18(16 17(18(16)))) 17(18(16))"
        );
    }

    #[test]
    fn at_the_containers_end() {
        assert_eq!(tree("#+begin_q\n- a\n  #+end_q\n  b\n"), "8(17(18(16))) 16");
        assert_eq!(tree(":d:\n- a\n  :END:\n  b\n"), "7(17(18(16))) 16");
        assert_eq!(
            tree("- a\n  - b\n- c\n  - d\n"),
            "17(18(16 17(18(16))) 18(16 17(18(16))))"
        );
        assert_eq!(tree("- a\n  b\n* A\n  c\n"), "17(18(16))");
    }

    #[test]
    fn falling_indentation_makes_lists_side_by_side() {
        assert_eq!(
            tree("  - a\n - b\n- c\n"),
            "17(18(16)) 17(18(16)) 17(18(16))"
        );
        let text = "- a\n    - b\n  - c\n- d\n";
        assert_eq!(tree(text), "17(18(16 17(18(16)) 17(18(16))) 18(16))");
    }

    #[test]
    fn a_comment_run_ends_with_the_item() {
        assert_eq!(tree("- a\n  # c\n# d\n"), "17(18(16 12)) 12");
        assert_eq!(tree("- a\n  : c\n: d\n"), "17(18(16 13)) 13");
    }
}

mod sheltered_lines {
    use super::*;

    #[test]
    fn of_a_block_drawer_or_table_only_the_first_line_counts() {
        assert_eq!(
            tree("- a\n  #+begin_b\nx\n#+end_b\n  c\n"),
            "17(18(16 8(16) 16))"
        );
        assert_eq!(
            tree("- a\n  #+begin_src\n- x\n\n\n#+end_src\n  c\n"),
            "17(18(16 9 16))"
        );
        assert_eq!(
            tree("- a\n  :b:\n- x\n:END:\n- c\n"),
            "17(18(16 7(17(18(16)))) 18(16))"
        );
        assert_eq!(
            tree("- a\n  | b\n| c\n#+TBLFM: d\n  e\n"),
            "17(18(16 10(11 11) 16))"
        );
    }

    #[test]
    fn the_first_line_does_count() {
        assert_eq!(tree("- a\n#+begin_b\n  x\n#+end_b\n"), "17(18(16)) 8(16)");
        assert_eq!(tree("- a\n:b:\n  x\n:END:\n"), "17(18(16)) 7(16)");
        assert_eq!(tree("- a\n| b\n  | c\n"), "17(18(16)) 10(11 11)");
    }

    #[test]
    fn from_every_item_around() {
        let text = "- a\n  - b\n    :d:\n- x\n\n\ny\n:END:\n    c\n  - e\n- f\n";
        assert_eq!(
            tree(text),
            "17(18(16 17(18(16 7(17(18(16)) 16) 16) 18(16))) 18(16))"
        );
    }

    #[test]
    fn an_unclosed_opener_shelters_nothing() {
        assert_eq!(tree("- a\n  :b:\nx\n"), "17(18(16)) 16");
        assert_eq!(tree("- a\n  #+begin_b\nx\n"), "17(18(16)) 16");
        assert_eq!(
            tree("- a\n  #+begin_b\n- c\n#+end_c\n"),
            "17(18(16) 18(16)) 16"
        );
    }

    #[test]
    fn a_closer_is_sought_up_to_the_end_around_the_lists() {
        assert_eq!(tree("- a\n  :d:\n- b\n:END:\n"), "17(18(16 7(17(18(16)))))");
        assert_eq!(tree("- a\n  :d:\n\n\n:END:\n"), "17(18(16 7))");
        assert_eq!(tree("- a\n  :d:\nb\n* A\n:END:\n"), "17(18(16)) 16");
        let text = "#+begin_q\n- a\n  :d:\n#+end_q\n:END:\n";
        assert_eq!(tree(text), "8(17(18(16))) 16");
        let text = ":e:\n- a\n  #+begin_q\n:END:\n#+end_q\n";
        assert_eq!(tree(text), "7(17(18(16))) 16");
    }

    #[test]
    fn a_line_after_a_table_is_no_part_of_it() {
        assert_eq!(tree("- a\n  | b\nc\n"), "17(18(16 10(11))) 16");
        assert_eq!(tree("- a\n  | b\n\n| c\n"), "17(18(16 10(11))) 10(11)");
        assert_eq!(tree("- a\n  #+TBLFM: b\n#+TBLFM: c\n"), "17(18(16 15)) 15");
    }

    #[test]
    fn first_lines_open_nothing() {
        assert_eq!(tree("- #+begin_b\nx\n#+end_b\n"), "17(18(16)) 16");
        assert_eq!(tree("- :b:\nx\n:END:\n"), "17(18(16)) 16");
        assert_eq!(tree("- | b\n| c\n"), "17(18(16)) 10(11)");
    }
}

mod blank_lines {
    use super::*;

    #[test]
    fn before_a_next_item_the_items_own() {
        assert_eq!(spans("- a\n\n- b\n", ITEM), [[0, 5, 2, 4], [5, 9, 7, 9]]);
        assert_eq!(spans("- a\n\n- b\n", LIST), [[0, 9, 0, 9]]);
        assert_eq!(spans("- a\n\n- b\n", 16), [[2, 4, 2, 4], [7, 9, 7, 9]]);
        assert_eq!(spans("-\n\n-\n", ITEM), [[0, 3, 1, 2], [3, 5, 4, 5]]);
    }

    #[test]
    fn before_an_outer_item_not_the_inner_lists() {
        let text = "- a\n  - b\n\n- c\n";
        assert_eq!(spans(text, LIST), [[0, 15, 0, 15], [4, 10, 4, 10]]);
        assert_eq!(
            spans(text, ITEM),
            [[0, 11, 2, 10], [4, 10, 8, 10], [11, 15, 13, 15]]
        );
    }

    #[test]
    fn else_the_outermost_list_that_ends_there() {
        let goes_on = "- a\n  - b\n    - c\n\n  d\n";
        assert_eq!(
            spans(goes_on, LIST),
            [[0, 23, 0, 23], [4, 19, 4, 18], [10, 18, 10, 18]]
        );
        let all_end = "- a\n  - b\n\nx\n";
        assert_eq!(spans(all_end, LIST), [[0, 11, 0, 10], [4, 10, 4, 10]]);
        let two = "- a\n  - b\n\n\n- x\n";
        assert_eq!(
            spans(two, LIST),
            [[0, 12, 0, 10], [4, 10, 4, 10], [12, 16, 12, 16]]
        );
        let at_the_end = "- a\n  - b\n\n";
        assert_eq!(spans(at_the_end, LIST), [[0, 11, 0, 10], [4, 10, 4, 10]]);
    }

    #[test]
    fn within_a_drawer_its_list_ends_there() {
        let text = "- a\n  :d:\n  - b\n\n  :END:\n\n- c\n";
        assert_eq!(spans(text, LIST), [[0, 30, 0, 30], [10, 17, 10, 16]]);
        assert_eq!(spans(text, ITEM)[0], [0, 26, 2, 25]);
        assert_eq!(spans(text, 7), [[4, 25, 10, 17]]);
    }

    #[test]
    fn between_an_items_elements() {
        let text = "- a\n\n  | b\n\n  c\n\n- d\n";
        assert_eq!(spans(text, 10), [[5, 12, 5, 11]]);
        assert_eq!(
            spans(text, 16),
            [[2, 5, 2, 4], [12, 16, 12, 16], [19, 21, 19, 21]]
        );
        assert_eq!(spans(text, ITEM), [[0, 17, 2, 16], [17, 21, 19, 21]]);
    }

    #[test]
    fn without_byte_10() {
        assert_eq!(spans("- a\n ", LIST), [[0, 5, 0, 4]]);
        assert_eq!(spans("- a\n\n ", LIST), [[0, 6, 0, 4]]);
        assert_eq!(spans("- a\n- b", ITEM), [[0, 4, 2, 4], [4, 7, 6, 7]]);
    }
}

mod among_other_elements {
    use super::*;

    #[test]
    fn an_item_line_ends_a_paragraph() {
        assert_eq!(tree("a\n- b\n"), "16 17(18(16))");
        assert_eq!(tree("a\n -b\n"), "16");
        assert_eq!(tree("a\n  * b\n"), "16 17(18(16))");
        assert_eq!(tree("a\n1. b\nc\n"), "16 17(18(16)) 16");
    }

    #[test]
    fn earlier_rules_come_first() {
        assert_eq!(tree("* A\nCLOSED: [2024-01-01]\n- a\n"), "4 17(18(16))");
        assert_eq!(tree("* A\n- a\nCLOSED: [2024-01-01]\n"), "17(18(16)) 16");
        assert_eq!(tree("# a\n- b\n"), "12 17(18(16))");
        assert_eq!(tree("- a\n-----\n- b\n"), "17(18(16)) 14 17(18(16))");
    }

    #[test]
    fn a_heading_line_is_in_no_list() {
        assert_eq!(tree("- a\n* A\n- b\n"), "17(18(16))");
        assert_eq!(
            table("- a\n* A\n- b\n")
                .iter()
                .filter(|r| r[0] == LIST)
                .count(),
            2
        );
    }

    #[test]
    fn a_drawer_in_an_item_is_no_property_drawer() {
        for text in [
            "- a\n  :PROPERTIES:\n  :VIN: 7\n  :END:\n",
            "* A\n- a\n  :PROPERTIES:\n  :VIN: 7\n  :END:\n",
            "* A\n-\n  :PROPERTIES:\n  :VIN: 7\n  :END:\n",
        ] {
            assert!(tree(text).contains("7(16)"), "{text}");
        }
        let text = "* A\n-\n  :PROPERTIES:\n  :VIN: 7\n  :END:\n";
        assert_eq!(lookup(text.as_bytes(), 0, b"VIN"), (5, 0, 0, 0));
        let text = "* A\n:PROPERTIES:\n- a\n:END:\n";
        assert_eq!(tree(text), "7(17(18(16)))");
        assert_eq!(lookup(text.as_bytes(), 0, b"VIN"), (9, 0, 0, 17));
    }
}

mod depth {
    use super::*;

    /// Is the text read, or is it too deep?
    fn is_read(text: &str) -> bool {
        answer(text.as_bytes(), &mut []).0 == 3
    }

    #[test]
    fn lists_count() {
        assert_eq!(table(&nested(32, "")).len(), 2 + 2 * 32);
        assert!(is_read(&nested(32, "a")));
        assert_eq!(read(nested(33, "").as_bytes()), Reading::TooDeep);
        assert_eq!(answer(nested(33, "").as_bytes(), &mut []), (2, 0));
    }

    #[test]
    fn items_do_not() {
        assert!(is_read(&"- a\n".repeat(40)));
    }

    #[test]
    fn with_drawers_and_greater_blocks_inside() {
        assert!(is_read(&nested(31, ":d:\n:END:")));
        assert!(!is_read(&nested(32, ":d:\n:END:")));
        assert!(is_read(&nested(31, "#+begin_b\n#+end_b")));
        assert!(!is_read(&nested(32, "#+begin_b\n#+end_b")));
        assert!(is_read(&nested(32, "#+begin_src\n#+end_src")));
        assert!(is_read(&nested(32, "| a")));
        assert!(!is_read(&nested(31, ":d:\n- a\n:END:")));
    }

    #[test]
    fn within_drawers_and_greater_blocks() {
        let in_drawer = |lists| format!("#+begin_b\n:d:\n{}:END:\n#+end_b\n", nested(lists, ""));
        assert!(is_read(&in_drawer(30)));
        assert!(!is_read(&in_drawer(31)));
    }
}
