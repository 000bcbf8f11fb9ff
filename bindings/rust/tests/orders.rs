//! The example `orders`: its unit tests, and its program run as a clerk does.

mod example;

use std::env;
use std::ffi::OsStr;
use std::fs::File;
use std::io::Write;
use std::os::unix::ffi::OsStrExt;
use std::process::{Command, Stdio};

use comaltzex::{DEPTH_LIMIT, TEXT_LIMIT};
use example::{check, run_on};

// what only `main` calls is of use in the program
#[allow(dead_code)]
#[path = "../examples/orders/main.rs"]
mod program;

const GOOD: &str = "* One\n:PROPERTIES:\n:VIN: 7\n:END:\n** Its notes\n";
const HOUSE: &str = "* House\n:PROPERTIES:\n:FUEL: 98\n:VIN: 1\n:END:\n";
const BLANK_FIRST: &str = "* One\n\n:PROPERTIES:\n:VIN: 7\n:END:\n";
const BLANK_FIRST_WARNING: &str =
    ":2: warning: One  a blank line stands above the property drawer\n";

/// The program, in a folder of the test's own that holds these books.
fn orders(folder: &str, books: &[(&[u8], &str)]) -> Command {
    example::program("orders", folder, books)
}

#[test]
fn help_and_version() {
    let help = orders("help", &[]).arg("--help").output().unwrap();
    check(help, 0, include_str!("../examples/orders/help.txt"), "");
    let version = orders("help", &[]).arg("--version").output().unwrap();
    let wanted = concat!("orders (comaltzex) ", env!("CARGO_PKG_VERSION"), "\n");
    check(version, 0, wanted, "");
}

#[test]
fn a_good_book() {
    let books = [(&b"good.org"[..], GOOD)];
    let list = orders("good", &books).arg("good.org").output().unwrap();
    let wanted = "good.org:1: One  VIN 7\ngood.org:5: Its notes  no property drawer\n";
    check(list, 0, wanted, "");
    let mut missing = orders("good", &books);
    missing.args(["--missing", "good.org"]);
    check(missing.output().unwrap(), 0, "", "");
    missing.arg("--all");
    let wanted = "good.org:5: warning: Its notes  no property drawer\n";
    check(missing.output().unwrap(), 1, wanted, "");
}

#[test]
fn a_fault_is_a_warning_and_status_1() {
    let books = [(&b"b.org"[..], BLANK_FIRST)];
    let mut missing = orders("fault", &books);
    missing.args(["--missing", "b.org"]);
    let wanted = format!("b.org{BLANK_FIRST_WARNING}");
    check(missing.output().unwrap(), 1, &wanted, "");
    let list = orders("fault", &books).arg("b.org").output().unwrap();
    check(list, 0, &wanted.replace("warning: ", ""), "");
}

/// Four orders have no property drawer, and the one of the archive has no VIN.
#[test]
fn the_shipped_book() {
    let book = include_str!("../../../tests/books/orders.org");
    let mut missing = orders("shipped", &[(b"orders.org", book)]);
    let output = missing.args(["--missing", "orders.org"]).output().unwrap();
    let warnings = String::from_utf8(output.stdout).unwrap();
    let places = warnings
        .lines()
        .map(|line| line.split(": warning: ").next());
    let wanted = [90, 610, 2015, 2266, 2287].map(|line| format!("orders.org:{line}"));
    assert!(
        places.eq(wanted.iter().map(|place| Some(&place[..]))),
        "{warnings}"
    );
    assert_eq!(output.status.code(), Some(1));
}

#[test]
fn another_key() {
    let mut missing = orders("key", &[(b"good.org", GOOD)]);
    missing.args(["--missing", "--key", "FUEL", "good.org"]);
    let wanted = "good.org:2: warning: One  no FUEL in its drawer\n";
    check(missing.output().unwrap(), 1, wanted, "");
}

/// One order has its own fuel, one the house's, and a note has none.
const FUELS: &str = "* One\n:PROPERTIES:\n:FUEL: 102\n:END:\n\
    * Two\n:PROPERTIES:\n:VIN: 7\n:END:\n** Note\n";

#[test]
fn house_defaults() {
    let files = [(&b"book.org"[..], FUELS), (b"house.org", HOUSE)];
    for options in [&["--defaults", "house.org"][..], &["--defaults=house.org"]] {
        let mut list = orders("defaults", &files);
        list.args(options).args(["--key", "FUEL", "book.org"]);
        let wanted = "book.org:1: One  FUEL 102\n\
            book.org:5: Two  FUEL 98 (default)\n\
            book.org:9: Note  no property drawer\n";
        check(list.output().unwrap(), 0, wanted, "");
        list.arg("--missing");
        check(list.output().unwrap(), 0, "", "");
    }
}

#[test]
fn what_the_defaults_lack_is_a_fault() {
    let files = [(&b"book.org"[..], FUELS), (b"house.org", HOUSE)];
    let mut missing = orders("lacking", &files);
    missing.args(["--missing", "--defaults=house.org", "book.org", "--key"]);
    let boost = missing.arg("BOOST").output().unwrap();
    let wanted = "book.org:2: warning: One  no BOOST in its drawer or the defaults\n\
        book.org:6: warning: Two  no BOOST in its drawer or the defaults\n";
    check(boost, 1, wanted, "");
}

#[test]
fn a_vin_is_never_a_default() {
    let files = [(&b"book.org"[..], FUELS), (b"house.org", HOUSE)];
    let mut missing = orders("identity", &files);
    missing.args(["--missing", "--defaults=house.org", "book.org"]);
    let wanted = "book.org:2: warning: One  no VIN in its drawer\n";
    check(missing.output().unwrap(), 1, wanted, "");
}

#[test]
fn defaults_from_standard_input() {
    let mut list = orders("house", &[(b"good.org", GOOD)]);
    list.args(["--defaults", "-", "--key=FUEL", "good.org"]);
    let wanted = "good.org:1: One  FUEL 98 (default)\n\
        good.org:5: Its notes  no property drawer\n";
    check(run_on(list, HOUSE), 0, wanted, "");
    let mut list = orders("house", &[(b"good.org", GOOD)]);
    list.args(["--defaults=-", "good.org", "-"]);
    let error = "orders: standard input cannot be both a book and the defaults: \
        see `orders --help`\n";
    check(list.output().unwrap(), 2, "", error);
}

/// Nothing is listed: what a drawer lacks would be told wrong.
#[test]
fn defaults_that_cannot_be_read_are_status_2() {
    let long = format!("{HOUSE}{}", "x".repeat(TEXT_LIMIT));
    let files = [(&b"a.org"[..], BLANK_FIRST), (b"long.org", &long)];
    let errors = [
        ("none.org", "No such file or directory (os error 2)"),
        (".", "Is a directory (os error 21)"),
        ("long.org", "the text is longer than 65,536 bytes"),
    ];
    for (name, error) in errors {
        let mut list = orders("unread_defaults", &files);
        list.args(["a.org", "--missing", "--defaults", name]);
        let error = format!("orders: {name}: {error}\n");
        check(list.output().unwrap(), 2, "", &error);
    }
}

#[test]
fn defaults_of_the_greatest_length() {
    let blanks = "\n".repeat(TEXT_LIMIT - HOUSE.len());
    let house = format!("{blanks}{HOUSE}");
    let files = [(&b"book.org"[..], FUELS), (b"house.org", &house)];
    let mut missing = orders("long_defaults", &files);
    missing.args([
        "--missing",
        "--defaults=house.org",
        "--key=FUEL",
        "book.org",
    ]);
    check(missing.output().unwrap(), 0, "", "");
}

#[test]
fn standard_input() {
    for arguments in [&["--missing"][..], &["--missing", "-"]] {
        let mut missing = orders("stdin", &[]);
        missing.args(arguments);
        let wanted = format!("stdin{BLANK_FIRST_WARNING}");
        check(run_on(missing, BLANK_FIRST), 1, &wanted, "");
    }
}

#[test]
fn books_are_reported_on_in_order() {
    let books = [(&b"a.org"[..], BLANK_FIRST), (b"b.org", GOOD)];
    let mut missing = orders("several", &books);
    missing.args(["--missing", "b.org", "-", "a.org", "b.org"]);
    let wanted = format!("stdin{BLANK_FIRST_WARNING}a.org{BLANK_FIRST_WARNING}");
    check(run_on(missing, BLANK_FIRST), 1, &wanted, "");
}

#[test]
fn a_book_that_cannot_be_read_is_status_2() {
    let books = [(&b"a.org"[..], BLANK_FIRST)];
    let mut missing = orders("unread", &books);
    missing.args(["--missing", "none.org", "a.org", ".", "a.org"]);
    let wanted = format!("a.org{BLANK_FIRST_WARNING}").repeat(2);
    let errors = "orders: none.org: No such file or directory (os error 2)\n\
        orders: .: Is a directory (os error 21)\n";
    check(missing.output().unwrap(), 2, &wanted, errors);
}

#[test]
fn a_refused_book_is_status_2() {
    let long = "x".repeat(TEXT_LIMIT + 1);
    let openers = (0..=DEPTH_LIMIT).map(|i| format!("#+begin_b{i}\n"));
    let closers = (0..=DEPTH_LIMIT).rev().map(|i| format!("#+end_b{i}\n"));
    let deep: String = openers.chain(closers).collect();
    let books = [(&b"long.org"[..], &long[..]), (b"deep.org", &deep)];
    let mut list = orders("refused", &books);
    list.args(["long.org", "deep.org"]);
    let errors = "orders: long.org: the text is longer than 65,536 bytes\n\
        orders: deep.org: lists, drawers or blocks lie more than 32 deep\n";
    check(list.output().unwrap(), 2, "", errors);
}

/// Who writes it must not fail: `run_on` would.
#[test]
fn long_standard_input_is_taken_whole() {
    let long = "x".repeat(10 * TEXT_LIMIT);
    let errors = "orders: stdin: the text is longer than 65,536 bytes\n";
    check(run_on(orders("long", &[]), &long), 2, "", errors);
}

#[test]
fn bad_usage_is_told_before_a_book_is_read() {
    let mut list = orders("usage", &[]);
    list.args(["none.org", "--mising"]);
    let error = "orders: unknown option --mising: see `orders --help`\n";
    check(list.output().unwrap(), 2, "", error);
    let mut list = orders("usage", &[]);
    list.args(["none.org", "--defaults"]);
    let error = "orders: --defaults needs a file: see `orders --help`\n";
    check(list.output().unwrap(), 2, "", error);
    let mut list = orders("usage", &[]);
    list.args(["none.org", "--key=VIN+"]);
    let error = "orders: --key \"VIN+\": a key has 1 to 64 bytes, no blanks or line ends, \
        and no `+` at its end\n";
    check(list.output().unwrap(), 2, "", error);
}

#[test]
fn file_names_are_any_bytes() {
    let name = b"M\xfcller\n.org";
    let mut missing = orders("names", &[(name, BLANK_FIRST)]);
    missing.args([OsStr::new("--missing"), OsStr::from_bytes(name)]);
    let output = missing.output().unwrap();
    let wanted = [name, BLANK_FIRST_WARNING.as_bytes()].concat();
    assert_eq!((output.stdout, output.stderr), (wanted, Vec::new()));
    assert_eq!(output.status.code(), Some(1));

    for option in [&[][..], &["--defaults"]] {
        let mut none = orders("names", &[]);
        none.args(option).arg(OsStr::from_bytes(b"\xff"));
        let error = b"orders: \xff: No such file or directory (os error 2)\n";
        assert_eq!(none.output().unwrap().stderr, error);
    }
}

#[test]
fn a_reader_that_has_gone_away_is_no_failure() {
    for (arguments, status) in [(&["-"][..], 0), (&["--missing", "-", "none.org"], 1)] {
        let mut command = orders("pipe", &[]);
        command.args(arguments).stdin(Stdio::piped());
        command.stdout(Stdio::piped()).stderr(Stdio::piped());
        let mut child = command.spawn().unwrap();
        drop(child.stdout.take());
        let mut stdin = child.stdin.take().unwrap();
        stdin.write_all(BLANK_FIRST.as_bytes()).unwrap();
        drop(stdin);
        check(child.wait_with_output().unwrap(), status, "", "");
    }
}

#[test]
fn output_that_cannot_be_written_is_status_2() {
    for argument in ["a.org", "--help"] {
        let mut list = orders("full", &[(b"a.org", GOOD)]);
        list.arg(argument).stderr(Stdio::piped());
        list.stdout(File::create("/dev/full").unwrap());
        let output = list.spawn().unwrap().wait_with_output().unwrap();
        let error = "orders: standard output: No space left on device (os error 28)\n";
        check(output, 2, "", error);
    }
}
