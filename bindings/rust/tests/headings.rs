//! The example `headings`: its unit tests, and its program run on books that still come in.

mod example;

use std::env;
use std::ffi::OsStr;
use std::fs::File;
use std::io::{BufRead, BufReader, Write};
use std::os::unix::ffi::OsStrExt;
use std::process::{Child, ChildStdin, ChildStdout, Command, Stdio};

use comaltzex::TEXT_LIMIT;
use example::{check, run_on};

// what only `main` calls is of use in the program
#[allow(dead_code)]
#[path = "../examples/headings/main.rs"]
mod program;

const BOOK: &str = "#+TITLE: Orders\n* One\ntext\n** Its parts\n* Two";
const LISTED: &str = ":2: One\n:4:   Its parts\n:5: Two\n";

/// The program, with these files.
fn headings(folder: &str, books: &[(&[u8], &str)]) -> Command {
    example::program("headings", &format!("headings_{folder}"), books)
}

/// What is listed of `BOOK`, under this name.
fn listed(name: &str) -> String {
    LISTED
        .lines()
        .map(|line| format!("{name}{line}\n"))
        .collect()
}

/// The program, and both ends of its pipes.
struct Running {
    child: Child,
    input: ChildStdin,
    output: BufReader<ChildStdout>,
}

impl Running {
    fn new(folder: &str) -> Running {
        let mut command = headings(folder, &[]);
        command.stdin(Stdio::piped());
        command.stdout(Stdio::piped()).stderr(Stdio::piped());
        let mut child = command.spawn().unwrap();
        Running {
            input: child.stdin.take().unwrap(),
            output: BufReader::new(child.stdout.take().unwrap()),
            child,
        }
    }

    fn write(&mut self, piece: &str) {
        self.input.write_all(piece.as_bytes()).unwrap();
        self.input.flush().unwrap();
    }

    /// The next line that it prints. The test waits for it; nothing else may stand before it.
    #[track_caller]
    fn check_line(&mut self, wanted: &str) {
        let mut line = String::new();
        self.output.read_line(&mut line).unwrap();
        assert_eq!(line, wanted);
    }

    /// Closes the pipe, and checks what comes then.
    #[track_caller]
    fn check_rest(mut self, wanted: &str) {
        drop(self.input);
        let rest: Vec<String> = self.output.lines().map(Result::unwrap).collect();
        assert_eq!(rest.concat(), wanted);
        assert_eq!(self.child.wait().unwrap().code(), Some(0));
    }
}

#[test]
fn help_and_version() {
    let help = headings("help", &[]).arg("--help").output().unwrap();
    check(help, 0, include_str!("../examples/headings/help.txt"), "");
    let version = headings("help", &[]).arg("--version").output().unwrap();
    let wanted = concat!("headings (comaltzex) ", env!("CARGO_PKG_VERSION"), "\n");
    check(version, 0, wanted, "");
}

#[test]
fn the_help_shows_what_is_printed() {
    let book = format!(
        "#+TITLE: Orders\n* stage 1 map for Volvo 240\n{}** parts\n{}* fuel rail\n",
        "text\n".repeat(6),
        "- part\n".repeat(4)
    );
    let printed = run_on(headings("help", &[]), book).stdout;
    let shown = include_str!("../examples/headings/help.txt").replace("\n    ", "\n");
    assert!(shown.contains(str::from_utf8(&printed).unwrap()));
}

/// A heading is there as soon as its line is finished, while the pipe is open.
#[test]
fn headings_come_before_the_book_has_ended() {
    let mut running = Running::new("early");
    running.write("#+TITLE: Orders\n* One\n");
    running.check_line("stdin:2: One\n");
    running.write("text\n** Its parts \t\n* Tw");
    running.check_line("stdin:4:   Its parts\n");
    running.write("o\r\n* Three\n* Four\n");
    running.check_line("stdin:5: Two\n");
    running.check_line("stdin:6: Three\n");
    running.check_line("stdin:7: Four\n");
    running.write("more text\n");
    running.check_rest("");
}

#[test]
fn stars_and_line_ends_may_come_one_by_one() {
    let mut running = Running::new("split");
    for piece in ["*", "*", "*", " ", "A", " ", "b", " ", "\r"] {
        running.write(piece);
    }
    running.write("\n");
    running.check_line("stdin:1:     A b\n");
    for piece in ["*", "x", "\n", " ", "* y\n", "*", "\n", "*"] {
        running.write(piece);
    }
    running.write(" z\n");
    running.check_line("stdin:5: z\n");
    running.check_rest("");
}

#[test]
fn a_last_line_without_line_end_comes_with_the_end() {
    let mut running = Running::new("last");
    running.write("* One\n** Two ");
    running.check_line("stdin:1: One\n");
    running.check_rest("stdin:2:   Two");
    let mut running = Running::new("last");
    running.write("* One\n**");
    running.check_line("stdin:1: One\n");
    running.check_rest("");
}

#[test]
fn books_are_listed_in_order() {
    let books = [(&b"a.org"[..], BOOK), (b"b.org", "* B\n"), (b"empty", "")];
    let mut list = headings("several", &books);
    list.args(["b.org", "empty", "-", "a.org"]);
    let wanted = format!("b.org:1: B\n{}{}", listed("stdin"), listed("a.org"));
    check(run_on(list, BOOK), 0, &wanted, "");
    check(
        run_on(headings("several", &[]), BOOK),
        0,
        &listed("stdin"),
        "",
    );
}

/// All that fits is listed, however it comes, but not the line that the limit cuts.
#[test]
fn a_long_book_is_status_1() {
    let orders = "* A title\n".repeat(TEXT_LIMIT / 10);
    let fitting = format!("{orders}* last");
    assert_eq!(fitting.len(), TEXT_LIMIT);
    let lines = |name: &str, count: usize| -> String {
        (1..=count)
            .map(|line| format!("{name}:{line}: A title\n"))
            .collect()
    };
    let count = TEXT_LIMIT / 10;
    let long = format!("{fitting} one\n* after\n");
    let books = [(&b"fits.org"[..], &fitting[..]), (b"long.org", &long)];

    let mut list = headings("long", &books);
    let output = list.arg("fits.org").output().unwrap();
    let wanted = lines("fits.org", count) + &format!("fits.org:{}: last\n", count + 1);
    check(output, 0, &wanted, "");

    let mut list = headings("long", &books);
    let output = list.args(["long.org", "fits.org"]).output().unwrap();
    let error = "headings: long.org: the book is longer than 65,536 bytes: \
        what comes after these is not listed\n";
    let wanted = lines("long.org", count) + &wanted;
    check(output, 1, &wanted, error);
}

/// What was printed stays, and it ends at once: nothing waits for the rest.
#[test]
fn a_long_upload_ends_with_status_1() {
    let mut running = Running::new("long_upload");
    running.write("* One\n");
    running.check_line("stdin:1: One\n");
    running.write(&"x\n".repeat(TEXT_LIMIT / 2 - 3));
    running.write("\n");
    let Running { child, input, .. } = running;
    let output = child.wait_with_output().unwrap();
    drop(input);
    let error = "headings: stdin: the book is longer than 65,536 bytes: \
        what comes after these is not listed\n";
    check(output, 1, "", error);
}

#[test]
fn a_book_that_cannot_be_read_is_status_2() {
    let mut list = headings("unread", &[(b"a.org", BOOK)]);
    list.args(["none.org", "a.org", "."]);
    let errors = "headings: none.org: No such file or directory (os error 2)\n\
        headings: .: Is a directory (os error 21)\n";
    check(list.output().unwrap(), 2, &listed("a.org"), errors);
}

#[test]
fn bad_usage_is_told_before_a_book_is_read() {
    let mut list = headings("usage", &[]);
    list.args(["none.org", "--al"]);
    let error = "headings: unknown option --al: see `headings --help`\n";
    check(list.output().unwrap(), 2, "", error);
}

#[test]
fn bytes_of_titles_and_names() {
    let name = b"M\xfcller\n.org";
    let mut list = headings("names", &[(name, "* \x1b[2J\u{202e}x\n*  \n")]);
    let output = list.arg(OsStr::from_bytes(name)).output().unwrap();
    let wanted = [
        name,
        &b":1: \\u{1b}[2J\\u{202e}x\n"[..],
        name,
        b":2: (no title)\n",
    ]
    .concat();
    assert_eq!((output.stdout, output.stderr), (wanted, Vec::new()));
    let output = run_on(headings("names", &[]), b"* M\xfcller\n");
    check(output, 0, "stdin:1: M\\xfcller\n", "");
}

/// It ends with its next heading, though the book goes on.
#[test]
fn a_reader_that_has_gone_away_is_no_failure() {
    let mut running = Running::new("pipe");
    running.write("* One\n");
    running.check_line("stdin:1: One\n");
    let Running {
        child,
        mut input,
        output,
    } = running;
    drop(output);
    // the pipe may live on for a moment, in the copy of this process that another test starts
    while input.write_all(b"* Two\n").is_ok() {}
    check(child.wait_with_output().unwrap(), 0, "", "");
}

#[test]
fn output_that_cannot_be_written_is_status_2() {
    for argument in ["a.org", "--help"] {
        let mut list = headings("full", &[(b"a.org", BOOK)]);
        list.arg(argument).stderr(Stdio::piped());
        list.stdout(File::create("/dev/full").unwrap());
        let output = list.spawn().unwrap().wait_with_output().unwrap();
        let error = "headings: standard output: No space left on device (os error 28)\n";
        check(output, 2, "", error);
    }
}
