//! The example `sheet`: its unit tests, and its program run as a clerk does.

mod example;

use std::env;
use std::ffi::OsStr;
use std::fs::File;
use std::io::Write;
use std::os::unix::ffi::OsStrExt;
use std::process::{Command, Stdio};

use example::{check, run_on};

// what only `main` calls is of use in the program
#[allow(dead_code)]
#[path = "../examples/sheet/main.rs"]
mod program;

const BUFFER: &[u8] = b"\x01\x00A\x02\x03VIN\x01\x007\x04Fuel\x00\x00";
const SHEET: &str = "* A\n:PROPERTIES:\n:VIN: 7\n:Fuel:\n:END:\n";

const NAME_RULE: &str =
    "a key has 1 to 64 bytes, no blanks or line ends, no `+` at its end, and is not END";

/// The program, with these files.
fn sheet_with(folder: &str, files: &[(&[u8], &[u8])]) -> Command {
    example::program("sheet", &format!("sheet_{folder}"), files)
}

/// The program with these arguments.
fn sheet(folder: &str, arguments: &[&str]) -> Command {
    let mut command = sheet_with(folder, &[]);
    command.args(arguments);
    command
}

/// Checks that nothing is written, and what standard error says.
#[track_caller]
fn check_error(arguments: &[&str], status: i32, error: &str) {
    let output = sheet("errors", arguments).output().unwrap();
    check(output, status, "", &format!("sheet: {error}\n"));
}

#[test]
fn help_and_version() {
    let help = sheet("help", &["--help"]).output().unwrap();
    check(help, 0, include_str!("../examples/sheet/help.txt"), "");
    let version = sheet("help", &["--version"]).output().unwrap();
    let wanted = concat!("sheet (comaltzex) ", env!("CARGO_PKG_VERSION"), "\n");
    check(version, 0, wanted, "");
}

#[test]
fn the_help_shows_what_is_written() {
    let title = "stage 1 map for Volvo 240";
    let arguments = ["--title", title, "VIN=YV1242449G1380060", "FUEL="];
    let written = sheet("help", &arguments).output().unwrap().stdout;
    let shown = include_str!("../examples/sheet/help.txt").replace("\n    ", "\n");
    assert!(shown.contains(str::from_utf8(&written).unwrap()));
}

#[test]
fn a_title_and_properties() {
    let mut parts = sheet("parts", &["--title", "A", "VIN=7", "Fuel="]);
    check(parts.output().unwrap(), 0, SHEET, "");
    let mut bare = sheet("parts", &["--title="]);
    check(bare.output().unwrap(), 0, "* \n:PROPERTIES:\n:END:\n", "");
}

#[test]
fn bytes_are_written_as_they_are() {
    let mut command = sheet("bytes", &["--title"]);
    command.args([b"\xff\x1b", &b"K\xfe=\x01 \x02"[..]].map(OsStr::from_bytes));
    let wanted = b"* \xff\x1b\n:PROPERTIES:\n:K\xfe: \x01 \x02\n:END:\n";
    assert_eq!(command.output().unwrap().stdout, wanted);
}

#[test]
fn a_buffer_of_the_site() {
    let mut file = sheet_with("buffer", &[(b"order", BUFFER)]);
    let written = file.args(["--buffer", "order"]).output().unwrap();
    check(written, 0, SHEET, "");
    let written = run_on(sheet("buffer", &["--buffer=-"]), BUFFER);
    check(written, 0, SHEET, "");
}

#[test]
fn a_refused_part_is_status_1() {
    let error = "the title has a line end in it, or a blank at either end";
    check_error(&["--title=A "], 1, error);
    let error = "the value of \"B\" has a line end in it, or a blank at either end";
    check_error(&["--title=A", "A=1", "B=1\r2"], 1, error);
    let error = format!("\"eNd\" is no key: {NAME_RULE}");
    check_error(&["--title=A", "A=1", "eNd=2"], 1, &error);
    let error = "there is a key \"vin\" already; capital and small letters count as one";
    check_error(&["--title=A", "VIN=1", "vin=2"], 1, error);
    let title = format!("--title={}", "A".repeat(65_515));
    let error = "the title makes the sheet longer than 65,536 bytes";
    check_error(&[&title], 1, error);
}

#[test]
fn sixteen_properties_and_one_more() {
    let pairs: Vec<String> = (1..=17).map(|i| format!("K{i}={i}")).collect();
    let arguments: Vec<&str> = pairs.iter().map(String::as_str).collect();
    let [sixteen, seventeen] = [16, 17].map(|n| [&["--title=A"], &arguments[..n]].concat());
    let output = sheet("sixteen", &sixteen).output().unwrap();
    let wanted: String = (1..=16).map(|i| format!(":K{i}: {i}\n")).collect();
    let wanted = format!("* A\n:PROPERTIES:\n{wanted}:END:\n");
    check(output, 0, &wanted, "");
    let error = "\"K17\" is one key too many: an order has at most 16";
    check_error(&seventeen, 1, error);
}

/// Checks that a buffer is refused, from a file and from standard input.
#[track_caller]
fn check_refused(buffer: &[u8], error: &str) {
    let mut file = sheet_with("refused", &[(b"order", buffer)]);
    let output = file.arg("--buffer=order").output().unwrap();
    check(output, 1, "", &format!("sheet: order: {error}\n"));
    let output = run_on(sheet("refused", &["--buffer", "-"]), buffer);
    check(output, 1, "", &format!("sheet: stdin: {error}\n"));
}

/// The longest has sixteen pairs of the greatest lengths, and is not cut before its last byte.
#[test]
fn a_refused_buffer_is_status_1() {
    let bad_order = "the order is cut short or too long, or has more than 16 pairs";
    let bad_text = "the title or a value has a line end in it, or a blank at either end";
    let bad_name = format!("not every key is good: {NAME_RULE}");
    let repeated = "two keys are the same; capital and small letters count as one";
    check_refused(&BUFFER[1..], bad_order);
    check_refused(b"\x01\x00\n\x00", bad_text);
    check_refused(b"\x00\x00\x01\x00\x00\x00", &bad_name);
    check_refused(b"\x00\x00\x02\x01A\x00\x00\x01a\x00\x00", repeated);

    let text = [&b"\xff\xff"[..], &[b'x'; 65_535]].concat();
    let pair = [&[255][..], &[b'k'; 255], &text].concat();
    let mut longest = [&text[..], &[16], &pair.repeat(16)].concat();
    check_refused(&longest, &bad_name);
    check_refused(&longest[..longest.len() - 1], bad_order);
    longest.push(b'x');
    check_refused(&longest, bad_order);
    longest.extend([b'x'; 100_000]);
    check_refused(&longest, bad_order);
}

#[test]
fn files_that_cannot_be_read_are_status_2() {
    let error = "none: No such file or directory (os error 2)";
    check_error(&["--buffer=none"], 2, error);
    let error = ".: Is a directory (os error 21)";
    check_error(&["--buffer", "."], 2, error);
}

#[test]
fn bad_usage_is_status_2() {
    let usage: [(&[&str], &str); 5] = [
        (&[], "--title or --buffer is needed"),
        (&["--title=A", "VIN"], "no KEY=VALUE: VIN"),
        (&["--titel=A"], "unknown option --titel=A"),
        (&["VIN=7", "--title"], "--title needs a title"),
        (
            &["--buffer=none", "VIN=7"],
            "--buffer goes with no title and no properties",
        ),
    ];
    for (arguments, error) in usage {
        check_error(arguments, 2, &format!("{error}: see `sheet --help`"));
    }
}

#[test]
fn a_reader_that_has_gone_away_is_no_failure() {
    let mut command = sheet("pipe", &["--buffer=-"]);
    command.stdin(Stdio::piped());
    command.stdout(Stdio::piped()).stderr(Stdio::piped());
    let mut child = command.spawn().unwrap();
    drop(child.stdout.take());
    let mut stdin = child.stdin.take().unwrap();
    stdin.write_all(BUFFER).unwrap();
    drop(stdin);
    check(child.wait_with_output().unwrap(), 0, "", "");
}

#[test]
fn output_that_cannot_be_written_is_status_2() {
    for argument in ["--title=A", "--help"] {
        let mut command = sheet("full", &[argument]);
        command.stderr(Stdio::piped());
        command.stdout(File::create("/dev/full").unwrap());
        let output = command.spawn().unwrap().wait_with_output().unwrap();
        let error = "sheet: standard output: No space left on device (os error 28)\n";
        check(output, 2, "", error);
    }
}
