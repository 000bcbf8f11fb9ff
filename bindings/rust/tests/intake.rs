//! The example `intake`: its unit tests, and its program run as a clerk does.

mod example;

use std::ffi::OsStr;
use std::fs::{self, File, Permissions};
use std::io::Write;
use std::os::unix::ffi::OsStrExt;
use std::os::unix::fs::{symlink, PermissionsExt};
use std::path::PathBuf;
use std::process::{Command, Stdio};
use std::thread;
use std::time::Duration;

use comaltzex::{Order, TEXT_LIMIT};
use example::{check, run_on};

// what only `main` calls is of use in the program
#[allow(dead_code)]
#[path = "../examples/intake/main.rs"]
mod program;

const BUFFER: &[u8] = b"\x01\x00A\x02\x07REQUEST\x02\x00r1\x03VIN\x01\x007";
const SHEET: &str = "* A\n:PROPERTIES:\n:REQUEST: r1\n:VIN: 7\n:END:\n";
const PARTS: [&str; 3] = ["--title=A", "REQUEST=r1", "VIN=7"];

/// A folder of the test's own.
struct Folder {
    name: String,
}

impl Folder {
    /// A new one with these files.
    fn new(name: &str, files: &[(&str, &[u8])]) -> Folder {
        let name = format!("intake_{name}");
        let folder = Folder { name };
        let _ = fs::remove_dir_all(folder.path(""));
        fs::create_dir_all(folder.path("")).unwrap();
        for (name, contents) in files {
            fs::write(folder.path(name), contents).unwrap();
        }
        folder
    }

    fn path(&self, name: &str) -> PathBuf {
        [env!("CARGO_TARGET_TMPDIR"), &self.name, name]
            .iter()
            .collect()
    }

    fn read(&self, name: &str) -> String {
        fs::read_to_string(self.path(name)).unwrap()
    }

    /// The names of its files, in order.
    fn names(&self) -> Vec<String> {
        let entries = fs::read_dir(self.path("")).unwrap();
        let name = |entry: fs::DirEntry| entry.file_name().into_string().unwrap();
        let mut names: Vec<String> = entries.map(|entry| name(entry.unwrap())).collect();
        names.sort();
        names
    }

    /// The program, run in it.
    fn intake(&self, arguments: &[&str]) -> Command {
        let mut command = example::program::<&str>("intake", &self.name, &[]);
        command.args(arguments);
        command
    }

    /// The program with the book b.org and the order of `PARTS`.
    fn take(&self) -> Command {
        let mut command = self.intake(&["--book=b.org"]);
        command.args(PARTS);
        command
    }

    /// The path of a file, as messages have it.
    fn shown(&self, name: &str) -> String {
        let folder = fs::canonicalize(self.path("")).unwrap();
        folder.join(name).into_os_string().into_string().unwrap()
    }
}

#[test]
fn help_and_version() {
    let folder = Folder::new("help", &[]);
    let help = folder.intake(&["--help"]).output().unwrap();
    check(help, 0, include_str!("../examples/intake/help.txt"), "");
    let version = folder.intake(&["--version"]).output().unwrap();
    let wanted = concat!("intake (comaltzex) ", env!("CARGO_PKG_VERSION"), "\n");
    check(version, 0, wanted, "");
    assert!(folder.names().is_empty());
}

#[test]
fn the_help_shows_what_is_said() {
    let folder = Folder::new("shown", &[("book.org", b"")]);
    let order = ["--title", "stage 1 map", "REQUEST=4711-a", "VIN=7"];
    let mut command = folder.intake(&["--book", "book.org"]);
    command.args(order);
    let shown = include_str!("../examples/intake/help.txt").replace("\n    ", "\n");
    for _ in 0..2 {
        let said = command.output().unwrap().stdout;
        assert!(shown.contains(str::from_utf8(&said).unwrap()));
    }
    let text = "\n".repeat(13) + "* stage 1 map\n\n:PROPERTIES:\n";
    fs::write(folder.path("book.org"), text).unwrap();
    let said = String::from_utf8(command.output().unwrap().stderr).unwrap();
    let unwrapped = shown.replace("property\ndrawer;", "property drawer;");
    assert!(unwrapped.contains(&said), "{said}");
}

#[test]
fn a_new_book() {
    let folder = Folder::new("new", &[]);
    let taken = folder.take().output().unwrap();
    check(taken, 0, "b.org: taken in; the book is new\n", "");
    assert_eq!(folder.read("b.org"), SHEET);
    assert_eq!(folder.names(), ["b.org", "b.org.lock", "b.org.log"]);
    assert_eq!(folder.read("b.org.log") + &folder.read("b.org.lock"), "");
}

#[test]
fn a_book_that_is_there() {
    for text in ["", "#+TITLE: B", "#+TITLE: B\n", "x\r"] {
        let folder = Folder::new("there", &[("b.org", text.as_bytes())]);
        let taken = folder.take().output().unwrap();
        check(taken, 0, "b.org: taken in\n", "");
        let newline = if text.is_empty() || text.ends_with('\n') {
            ""
        } else {
            "\n"
        };
        assert_eq!(folder.read("b.org"), format!("{text}{newline}{SHEET}"));
    }
}

#[test]
fn a_double_click_is_no_failure() {
    let folder = Folder::new("double", &[("b.org", SHEET.as_bytes())]);
    let before = fs::metadata(folder.path("b.org")).unwrap();
    let mut other_vin = folder.intake(&["--book=b.org", "--title=B", "REQUEST=r1", "VIN=8"]);
    for command in [&mut folder.take(), &mut other_vin] {
        let seen = command.output().unwrap();
        check(seen, 0, "b.org: already in the book\n", "");
    }
    assert_eq!(folder.read("b.org"), SHEET);
    let after = fs::metadata(folder.path("b.org")).unwrap();
    assert_eq!(after.modified().unwrap(), before.modified().unwrap());
    assert_eq!(folder.names(), ["b.org", "b.org.lock"]);
}

#[test]
fn a_buffer_of_the_site() {
    let folder = Folder::new("buffer", &[("order", BUFFER)]);
    let file = folder
        .intake(&["--book", "a.org", "--buffer", "order"])
        .output();
    check(file.unwrap(), 0, "a.org: taken in; the book is new\n", "");
    let input = run_on(folder.intake(&["--book=b.org", "--buffer=-"]), BUFFER);
    check(input, 0, "b.org: taken in; the book is new\n", "");
    assert_eq!([folder.read("a.org"), folder.read("b.org")], [SHEET; 2]);
}

/// The order is read before the lock is taken.
#[test]
fn a_slow_sender_holds_up_nobody() {
    let folder = Folder::new("slow", &[("b.org", b"")]);
    let mut slow = folder.intake(&["--book=b.org", "--buffer=-"]);
    slow.stdin(Stdio::piped()).stdout(Stdio::piped());
    let mut slow = slow.stderr(Stdio::piped()).spawn().unwrap();
    thread::sleep(Duration::from_millis(100));
    let quick = folder.take().output().unwrap();
    check(quick, 0, "b.org: taken in\n", "");
    slow.stdin.take().unwrap().write_all(BUFFER).unwrap();
    let slow = slow.wait_with_output().unwrap();
    check(slow, 0, "b.org: already in the book\n", "");
}

/// Checks that an order is refused, and that there is no file but the lock.
#[track_caller]
fn check_refused(arguments: &[&str], error: &str) {
    let folder = Folder::new("refused", &[]);
    let mut command = folder.intake(&["--book=b.org"]);
    let output = command.args(arguments).output().unwrap();
    check(output, 1, "", &format!("intake: {error}\n"));
    let names = folder.names();
    assert!(names.is_empty() || names == ["b.org.lock"], "{names:?}");
}

#[test]
fn a_refused_order_is_status_1() {
    let missing = "the order needs a REQUEST and a VIN, and neither may be empty";
    check_refused(&["--title=A", "REQUEST=r1"], missing);
    check_refused(&["--title=A", "VIN=7", "REQUEST="], missing);
    let error = "the title has a line end in it, or a blank at either end";
    check_refused(&["--title=A ", "REQUEST=r1", "VIN=7"], error);
    let error = "there is a key \"vin\" already; capital and small letters count as one";
    check_refused(&["--title=A", "REQUEST=r1", "VIN=7", "vin=7"], error);
}

#[test]
fn a_refused_buffer_is_status_1() {
    let folder = Folder::new("bad", &[("b.org", b"x"), ("order", &BUFFER[1..])]);
    let file = folder.intake(&["--book=b.org", "--buffer=order"]).output();
    let error = "the order is cut short or too long, or has more than 16 pairs";
    check(file.unwrap(), 1, "", &format!("intake: order: {error}\n"));
    let lacking = Order::new(b"A").unwrap();
    let input = run_on(
        folder.intake(&["--book=b.org", "--buffer=-"]),
        lacking.to_bytes(),
    );
    let error = "the order needs a REQUEST and a VIN, and neither may be empty";
    check(input, 1, "", &format!("intake: stdin: {error}\n"));
    assert_eq!(folder.read("b.org"), "x");
}

#[test]
fn a_book_without_room_is_status_1() {
    let longest = "x".repeat(TEXT_LIMIT - SHEET.len() - 1) + "\n";
    let folder = Folder::new("room", &[("b.org", longest.as_bytes())]);
    check(folder.take().output().unwrap(), 0, "b.org: taken in\n", "");
    assert_eq!(folder.read("b.org").len(), TEXT_LIMIT);

    let long = format!("x{longest}");
    let folder = Folder::new("room", &[("b.org", long.as_bytes())]);
    let error = "intake: b.org: with this order the book would be longer than 65,536 bytes\n";
    check(folder.take().output().unwrap(), 1, "", error);
    assert!(folder.read("b.org") == long);

    let too_long = "x".repeat(TEXT_LIMIT + 100);
    let folder = Folder::new("room", &[("b.org", too_long.as_bytes())]);
    let error = "intake: b.org: the book is longer than its buffer, or than 65,536 bytes\n";
    check(folder.take().output().unwrap(), 1, "", error);
    assert!(folder.read("b.org") == too_long);
}

/// What a crash has left in the log.
fn left_order(request: &str) -> (Vec<u8>, String) {
    let mut order = Order::new(b"Left").unwrap();
    order.add(b"REQUEST", request.as_bytes()).unwrap();
    order.add(b"VIN", b"9").unwrap();
    (order.log_entry(), String::from_utf8(order.sheet()).unwrap())
}

const MENDED: &str =
    "intake: b.org: orders that an interrupted run had left in the log were taken in first\n";

#[test]
fn the_log_goes_into_the_book_first() {
    let (entry, left) = left_order("r0");
    let folder = Folder::new("left", &[("b.org", b"x"), ("b.org.log", &entry)]);
    let taken = folder.take().output().unwrap();
    check(taken, 0, "b.org: taken in\n", MENDED);
    assert_eq!(folder.read("b.org"), format!("x\n{left}{SHEET}"));
    assert_eq!(folder.read("b.org.log"), "");
}

/// The order itself was left there, or is refused.
#[test]
fn the_log_goes_into_the_book_without_a_new_order() {
    let (entry, left) = left_order("r1");
    let folder = Folder::new("same", &[("b.org", b"x"), ("b.org.log", &entry)]);
    let seen = folder.take().output().unwrap();
    check(seen, 0, "b.org: already in the book\n", MENDED);
    assert_eq!(folder.read("b.org"), format!("x\n{left}"));
    assert_eq!(folder.read("b.org.log"), "");

    let folder = Folder::new("same", &[("b.org.log", &entry)]);
    let refused = folder
        .intake(&["--book=b.org", "--title=A"])
        .output()
        .unwrap();
    let error = "intake: the order needs a REQUEST and a VIN, and neither may be empty\n";
    check(refused, 1, "", &format!("{MENDED}{error}"));
    assert_eq!(folder.read("b.org"), left);
    assert_eq!(folder.read("b.org.log"), "");
}

/// The crash came after the book was written.
#[test]
fn a_log_that_is_in_the_book_already() {
    let (entry, left) = left_order("r0");
    let files: [(&str, &[u8]); 2] = [("b.org", left.as_bytes()), ("b.org.log", &entry)];
    let folder = Folder::new("already", &files);
    let taken = folder.take().output().unwrap();
    check(taken, 0, "b.org: taken in\n", "");
    assert_eq!(folder.read("b.org"), format!("{left}{SHEET}"));
    let folder = Folder::new("already", &files);
    let seen = folder.intake(&["--book=b.org", "--title=A", "REQUEST=r0", "VIN=9"]);
    let seen = { seen }.output().unwrap();
    check(seen, 0, "b.org: already in the book\n", "");
    assert_eq!(folder.read("b.org"), left);
    assert_eq!(folder.read("b.org.log"), "");
}

#[test]
fn a_log_that_is_cut_short_is_status_2() {
    let (entry, _) = left_order("r0");
    let cut = &entry[..entry.len() - 1];
    let folder = Folder::new("cut", &[("b.org", b"x"), ("b.org.log", cut)]);
    let error = format!(
        "intake: {}: the log is cut short: no order is taken in; look into it, then set it aside\n",
        folder.shown("b.org.log")
    );
    check(folder.take().output().unwrap(), 2, "", &error);
    assert_eq!(folder.read("b.org"), "x");
    assert_eq!(fs::read(folder.path("b.org.log")).unwrap(), cut);
}

#[test]
fn requests_that_are_not_seen_are_warned_of() {
    let text = "* One\n\n:PROPERTIES:\n:REQUEST: r1\n:END:\n";
    let warning = "b.org:2: warning: One  a blank line stands above the property drawer; \
        its REQUEST is not seen\n";
    let folder = Folder::new("unseen", &[("b.org", text.as_bytes())]);
    let taken = folder.take().output().unwrap();
    check(taken, 0, "b.org: taken in\n", warning);
    assert_eq!(folder.read("b.org"), format!("{text}{SHEET}"));
    let seen = folder.take().output().unwrap();
    check(seen, 0, "b.org: already in the book\n", warning);
    let refused = folder
        .intake(&["--book=b.org", "--title=A"])
        .output()
        .unwrap();
    let error = "intake: the order needs a REQUEST and a VIN, and neither may be empty\n";
    check(refused, 1, "", &format!("{warning}{error}"));
}

#[test]
fn permissions_are_kept() {
    for mode in [0o640, 0o606, 0o600, 0o755] {
        let folder = Folder::new("mode", &[("b.org", b"x")]);
        fs::set_permissions(folder.path("b.org"), Permissions::from_mode(mode)).unwrap();
        check(folder.take().output().unwrap(), 0, "b.org: taken in\n", "");
        for name in ["b.org", "b.org.log"] {
            let permissions = fs::metadata(folder.path(name)).unwrap().permissions();
            assert_eq!(permissions.mode() & 0o777, mode, "{name}");
        }
    }
}

/// But whoever may do everything may write it.
#[test]
fn a_book_that_may_not_be_written_is_status_2() {
    let folder = Folder::new("read_only", &[("b.org", b"x")]);
    fs::set_permissions(folder.path("b.org"), Permissions::from_mode(0o444)).unwrap();
    if File::options()
        .append(true)
        .open(folder.path("b.org"))
        .is_ok()
    {
        return;
    }
    let book = folder.shown("b.org");
    let error = format!("{book}: Permission denied (os error 13)");
    check_failed(&folder, &book_arguments("b.org"), &error);
    assert_eq!(folder.read("b.org"), "x");
}

#[test]
fn a_link_stays_one() {
    let folder = Folder::new("link", &[("there.org", b"x")]);
    fs::create_dir(folder.path("books")).unwrap();
    fs::rename(folder.path("there.org"), folder.path("books/a.org")).unwrap();
    symlink("books/a.org", folder.path("b.org")).unwrap();
    check(folder.take().output().unwrap(), 0, "b.org: taken in\n", "");
    assert_eq!(folder.read("books/a.org"), format!("x\n{SHEET}"));
    assert!(fs::symlink_metadata(folder.path("b.org"))
        .unwrap()
        .is_symlink());
    assert!(folder.path("books/a.org.lock").exists() && folder.path("books/a.org.log").exists());
    assert_eq!(folder.names(), ["b.org", "books"]);
}

#[test]
fn books_in_other_folders() {
    let folder = Folder::new("folders", &[]);
    fs::create_dir(folder.path("books")).unwrap();
    let mut intake = folder.intake(&["--book", "books/../books/b.org"]);
    let taken = intake.args(PARTS).output().unwrap();
    check(
        taken,
        0,
        "books/../books/b.org: taken in; the book is new\n",
        "",
    );
    let mut intake = folder.intake(&["--book"]);
    let taken = intake
        .arg(folder.path("books/b.org"))
        .args(PARTS)
        .output()
        .unwrap();
    let said = format!(
        "{}: already in the book\n",
        folder.path("books/b.org").display()
    );
    check(taken, 0, &said, "");
}

/// What an interrupted run has left beside the book is written over.
#[test]
fn left_files_do_no_harm() {
    let left: [(&str, &[u8]); 3] = [
        ("b.org", b"x"),
        (".b.org.intake", b"half a bo"),
        (".b.org.log.intake", b"\x20\x00"),
    ];
    let folder = Folder::new("half", &left);
    check(folder.take().output().unwrap(), 0, "b.org: taken in\n", "");
    assert_eq!(folder.read("b.org"), format!("x\n{SHEET}"));
    assert_eq!(folder.names(), ["b.org", "b.org.lock", "b.org.log"]);
}

/// Checks that nothing is done, and what standard error says.
#[track_caller]
fn check_failed(folder: &Folder, arguments: &[&str], error: &str) {
    let before = folder.names();
    let output = folder.intake(arguments).output().unwrap();
    check(output, 2, "", &format!("intake: {error}\n"));
    let made = |name: &String| !before.contains(name) && !name.ends_with(".lock");
    assert!(!folder.names().iter().any(made));
}

#[test]
fn files_that_cannot_be_read_are_status_2() {
    let folder = Folder::new("unread", &[]);
    fs::create_dir(folder.path("d")).unwrap();
    symlink("none.org", folder.path("l.org")).unwrap();
    let error = "none/b.org: No such file or directory (os error 2)";
    check_failed(&folder, &book_arguments("none/b.org"), error);
    let error = "l.org: the symbolic link leads to no file";
    check_failed(&folder, &book_arguments("l.org"), error);
    let error = format!("{}: not a regular file", folder.shown("d"));
    check_failed(&folder, &book_arguments("d"), &error);
    let arguments = ["--book=b.org", "--buffer=none"];
    let error = "none: No such file or directory (os error 2)";
    check_failed(&folder, &arguments, error);
    fs::create_dir(folder.path("b.org.log")).unwrap();
    let error = format!("{}: not a regular file", folder.shown("b.org.log"));
    check_failed(&folder, &book_arguments("b.org"), &error);
}

fn book_arguments(name: &str) -> Vec<&str> {
    [&["--book", name][..], &PARTS].concat()
}

/// The book's new file cannot be made: a folder has its name.
#[test]
fn files_that_cannot_be_written_are_status_2() {
    let folder = Folder::new("unwritten", &[("b.org", b"x")]);
    fs::create_dir(folder.path(".b.org.log.intake")).unwrap();
    let error = "Is a directory (os error 21)";
    let log = format!("{}: {error}", folder.shown("b.org.log"));
    check_failed(&folder, &book_arguments("b.org"), &log);
    assert_eq!(folder.read("b.org"), "x");

    let folder = Folder::new("unwritten", &[("b.org", b"x")]);
    fs::create_dir(folder.path(".b.org.intake")).unwrap();
    let output = folder.take().output().unwrap();
    let book = folder.shown("b.org");
    check(
        output,
        2,
        "",
        &format!("intake: {book}: {error}; send the order again\n"),
    );
    assert_eq!(folder.read("b.org"), "x");
    fs::remove_dir(folder.path(".b.org.intake")).unwrap();
    let output = folder.take().output().unwrap();
    check(output, 0, "b.org: already in the book\n", MENDED);
    assert_eq!(folder.read("b.org"), format!("x\n{SHEET}"));
}

/// The program, which can write files of so many blocks only, of 512 bytes or 1,024.
fn limited(folder: &Folder, limit: usize) -> Command {
    let intake = folder.take();
    let mut command = Command::new("sh");
    command.args(["-c", "trap '' XFSZ; ulimit -f $1; shift; exec \"$@\"", "sh"]);
    command
        .arg(limit.to_string())
        .arg(intake.get_program())
        .args(intake.get_args());
    command.current_dir(folder.path(""));
    command
}

#[test]
fn nothing_is_left_of_a_file_that_is_not_whole() {
    let text = "x".repeat(1500);
    let folder = Folder::new("limited", &[("b.org", text.as_bytes())]);
    let error = "File too large (os error 27)";
    let output = limited(&folder, 0).output().unwrap();
    let log = folder.shown("b.org.log");
    check(output, 2, "", &format!("intake: {log}: {error}\n"));
    assert_eq!(folder.names(), ["b.org", "b.org.lock"]);
    let output = limited(&folder, 1).output().unwrap();
    let book = folder.shown("b.org");
    check(
        output,
        2,
        "",
        &format!("intake: {book}: {error}; send the order again\n"),
    );
    assert_eq!(folder.names(), ["b.org", "b.org.lock", "b.org.log"]);
    assert_eq!(folder.read("b.org"), text);
    let output = limited(&folder, 4).output().unwrap();
    check(output, 0, "b.org: already in the book\n", MENDED);
    assert_eq!(folder.read("b.org"), format!("{text}\n{SHEET}"));
}

#[test]
fn bad_usage_is_status_2() {
    let folder = Folder::new("usage", &[]);
    let usage: [(&[&str], &str); 4] = [
        (&["--title=A"], "--book is needed"),
        (&["--book=b.org"], "--title or --buffer is needed"),
        (&["--book=-", "--title=A"], "standard input is no book"),
        (&["--book=b.org", "--title=A", "VIN"], "no KEY=VALUE: VIN"),
    ];
    for (arguments, error) in usage {
        check_failed(&folder, arguments, &format!("{error}: see `intake --help`"));
    }
    assert!(folder.names().is_empty());
}

#[test]
fn file_names_are_any_bytes() {
    let folder = Folder::new("names", &[]);
    let name = OsStr::from_bytes(b"M\xfcller\n.org");
    let mut intake = folder.intake(&["--book"]);
    let output = intake.arg(name).args(PARTS).output().unwrap();
    assert_eq!(
        output.stdout,
        b"M\xfcller\n.org: taken in; the book is new\n"
    );
    let book = fs::read_to_string(folder.path("").join(name)).unwrap();
    assert_eq!(book, SHEET);
}

#[test]
fn output_that_cannot_be_written_is_status_2() {
    let folder = Folder::new("full", &[]);
    let mut command = folder.take();
    command.stdout(File::create("/dev/full").unwrap());
    let output = command.stderr(Stdio::piped()).spawn().unwrap();
    let error = "intake: standard output: No space left on device (os error 28)\n";
    check(output.wait_with_output().unwrap(), 2, "", error);
    assert_eq!(folder.read("b.org"), SHEET);
}
