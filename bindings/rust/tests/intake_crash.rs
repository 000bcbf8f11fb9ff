//! The example `intake` killed at every call that changes a file, at random moments, and with
//! several of it at once: a book is as it was or has the order, and no order stands there twice.

// nothing that it says is looked at here
#[allow(dead_code)]
mod example;

use std::fs::{self, File};
use std::os::unix::process::ExitStatusExt;
use std::path::{Path, PathBuf};
use std::process::{Child, Command, Stdio};
use std::sync::OnceLock;
use std::thread;
use std::time::Duration;

use comaltzex::{property, Order};

const OLD: &str = "#+TITLE: Orders\n* A\n:PROPERTIES:\n:REQUEST: r0\n:VIN: 7\n:END:\ntext";

/// The library that kills, made once.
fn crash_library() -> &'static Path {
    static LIBRARY: OnceLock<PathBuf> = OnceLock::new();
    LIBRARY.get_or_init(|| {
        let library = Path::new(env!("CARGO_TARGET_TMPDIR")).join("libcrash.so");
        let source = concat!(env!("CARGO_MANIFEST_DIR"), "/tests/crash/crash.c");
        let mut cc = Command::new("cc");
        cc.args(["-std=c99", "-Wall", "-Wextra", "-shared", "-fPIC", "-o"]);
        let status = cc.args([library.as_os_str(), source.as_ref()]).status();
        assert!(status.unwrap().success(), "cc {source}");
        library
    })
}

/// A folder of the test's own, with a book in it.
struct Shop {
    folder: &'static str,
}

impl Shop {
    fn new(folder: &'static str, book: &str) -> Shop {
        let shop = Shop { folder };
        let _ = fs::remove_dir_all(shop.path(""));
        fs::create_dir_all(shop.path("")).unwrap();
        fs::write(shop.path("b.org"), book).unwrap();
        shop
    }

    fn path(&self, name: &str) -> PathBuf {
        [env!("CARGO_TARGET_TMPDIR"), self.folder, name]
            .iter()
            .collect()
    }

    fn read(&self, name: &str) -> String {
        fs::read_to_string(self.path(name)).unwrap()
    }

    /// The program with an order of this request.
    fn intake(&self, request: &str) -> Command {
        let mut intake = example::program::<&str>("intake", self.folder, &[]);
        intake.args(["--book=b.org", "--title=T", "VIN=7"]);
        intake.arg(format!("REQUEST={request}"));
        intake.stdout(Stdio::null()).stderr(Stdio::null());
        intake
    }

    /// The same, killed at its call of this number.
    fn killed(&self, request: &str, call: usize, half: bool) -> Command {
        let mut intake = self.intake(request);
        intake.env("LD_PRELOAD", crash_library());
        intake.env("CRASH_AT", call.to_string());
        if half {
            intake.env("CRASH_HALF", "1");
        }
        intake
    }

    #[track_caller]
    fn check_taken(&self, request: &str) {
        assert!(self.intake(request).status().unwrap().success());
    }

    /// Checks that each request stands in the book once, and that nothing is left in the log.
    #[track_caller]
    fn check_once(&self, requests: &[&str]) {
        let book = self.read("b.org");
        for request in requests {
            assert_eq!(headings_with(&book, request), 1, "{request}:\n{book}");
        }
        assert_eq!(self.read("b.org.log"), "");
    }
}

fn headings_with(book: &str, request: &str) -> usize {
    let book = book.as_bytes();
    let has = |&at: &usize| property(book, at, b"REQUEST") == Ok(request.as_bytes());
    (0..book.len()).filter(has).count()
}

fn sheet(request: &str) -> String {
    let mut order = Order::new(b"T").unwrap();
    order.add(b"VIN", b"7").unwrap();
    order.add(b"REQUEST", request.as_bytes()).unwrap();
    String::from_utf8(order.sheet()).unwrap()
}

/// Kills at the first call, the second and so on, until the program ends by itself. Gives how many
/// it was killed at.
fn at_each_call(mut killed: impl FnMut(usize) -> Command, mut check: impl FnMut(usize)) -> usize {
    for call in 1..100 {
        let status = killed(call).status().unwrap();
        check(call);
        if status.success() {
            return call - 1;
        }
        assert_eq!(status.signal(), Some(9), "call {call}");
    }
    panic!("the program does not end");
}

/// Each file is on the disk before it has its name, and has it there before the next is made.
#[test]
fn files_go_to_the_disk_in_turn() {
    let shop = Shop::new("crash_trace", OLD);
    fs::write(shop.path("b.org.lock"), "").unwrap();
    let mut intake = shop.killed("r1", 0, false);
    intake.env("CRASH_TRACE", shop.path("trace"));
    assert!(intake.status().unwrap().success());
    let wanted = "\
        unlink .b.org.log.intake\n\
        create .b.org.log.intake\n\
        write .b.org.log.intake\n\
        fsync .b.org.log.intake\n\
        rename .b.org.log.intake b.org.log\n\
        fsync crash_trace\n\
        unlink .b.org.intake\n\
        create .b.org.intake\n\
        write .b.org.intake\n\
        fsync .b.org.intake\n\
        rename .b.org.intake b.org\n\
        fsync crash_trace\n\
        unlink .b.org.log.intake\n\
        create .b.org.log.intake\n\
        fsync .b.org.log.intake\n\
        rename .b.org.log.intake b.org.log\n\
        fsync crash_trace\n\
        write stdout\n";
    assert_eq!(shop.read("trace"), wanted);
}

#[test]
fn a_double_click_changes_no_file() {
    let shop = Shop::new("crash_double", OLD);
    shop.check_taken("r1");
    let mut again = shop.killed("r1", 0, false);
    again.env("CRASH_TRACE", shop.path("trace"));
    assert!(again.status().unwrap().success());
    assert_eq!(shop.read("trace"), "write stdout\n");
}

#[test]
fn killed_at_each_call() {
    let new = format!("{OLD}\n{}", sheet("r1"));
    for half in [false, true] {
        let killed = |call| Shop::new("crash_each", OLD).killed("r1", call, half);
        let shop = Shop {
            folder: "crash_each",
        };
        let calls = at_each_call(killed, |call| {
            let book = shop.read("b.org");
            assert!(book == OLD || book == new, "call {call}:\n{book}");
            shop.check_taken("r1");
            assert_eq!(shop.read("b.org"), new, "call {call}");
            shop.check_once(&["r0", "r1"]);
            let left = fs::read_dir(shop.path("")).unwrap().count();
            assert_eq!(left, 3, "call {call}"); // the book, the log, the lock
        });
        assert_eq!(calls, 19);
    }
}

/// Another order comes after the crash, and a second crash with it. The first leaves the order
/// nowhere, in the log, there still beside a new book that has not its name yet, in both, or in the
/// book alone. What was in the log is in the book at last.
#[test]
fn killed_twice() {
    let one = |request| format!("{OLD}\n{}", sheet(request));
    let both = [one("r1") + &sheet("r2"), one("r2") + &sheet("r1")];
    for (first, is_logged) in [(6, false), (7, true), (12, true), (13, true), (18, true)] {
        let shop = Shop::new("crash_twice", OLD);
        shop.killed("r1", first, false).status().unwrap();
        let (book, log) = (shop.read("b.org"), fs::read(shop.path("b.org.log")));
        let killed = |call| {
            let shop = Shop::new("crash_twice", &book);
            if let Ok(log) = &log {
                fs::write(shop.path("b.org.log"), log).unwrap();
            }
            shop.killed("r2", call, true)
        };
        at_each_call(killed, |_| {
            let found = shop.read("b.org");
            let possible = [OLD, &one("r1"), &one("r2"), &both[0]];
            assert!(possible.contains(&&found[..]), "{found}");
            shop.check_taken("r2");
            if is_logged {
                assert_eq!(shop.read("b.org"), both[0]);
            }
            shop.check_taken("r1");
            assert!(both.contains(&shop.read("b.org")));
            shop.check_once(&["r0", "r1", "r2"]);
        });
    }
}

/// An order that a clerk strikes out of the book does not come back with the next one; nor does one
/// that a crash had left in the log, once another run has been.
#[test]
fn what_is_struck_out_stays_out() {
    for is_killed in [false, true] {
        let shop = Shop::new("crash_struck", OLD);
        if is_killed {
            shop.killed("r1", 13, false).status().unwrap();
            assert_ne!(fs::read(shop.path("b.org.log")).unwrap(), b"");
        }
        shop.check_taken("r1");
        fs::write(shop.path("b.org"), OLD).unwrap();
        for _ in 0..2 {
            shop.check_taken("r2");
            assert_eq!(shop.read("b.org"), format!("{OLD}\n{}", sheet("r2")));
        }
    }
}

/// An editor saves the book while an order is on its way: what it saved stays.
#[test]
fn another_writer_meanwhile() {
    for (call, saved) in [(7, "* Saved\n"), (11, OLD), (11, "* Saved\n")] {
        let shop = Shop::new("crash_editor", OLD);
        let mut stopped = shop.killed("r1", call, false);
        stopped.env("CRASH_STOP", "1").stderr(Stdio::piped());
        let child = stopped.spawn().unwrap();
        wait_until_stopped(&child);
        fs::write(shop.path("b.org"), saved).unwrap();
        go_on(&child);
        let output = child.wait_with_output().unwrap();
        assert_eq!(output.status.code(), Some(2));
        let words = "b.org: another program has written it meanwhile; send the order again\n";
        let said = String::from_utf8(output.stderr).unwrap();
        assert!(said.ends_with(words), "{said}");
        assert_eq!(shop.read("b.org"), saved);
        shop.check_taken("r1");
        let newline = if saved.ends_with('\n') { "" } else { "\n" };
        assert_eq!(
            shop.read("b.org"),
            format!("{saved}{newline}{}", sheet("r1"))
        );
    }
}

fn wait_until_stopped(child: &Child) {
    let stat = format!("/proc/{}/stat", child.id());
    loop {
        let state = fs::read_to_string(&stat).unwrap();
        if state.contains(") T ") {
            return;
        }
        assert!(!state.contains(") Z "), "it has ended");
        thread::sleep(Duration::from_millis(1));
    }
}

fn go_on(child: &Child) {
    let mut kill = Command::new("sh");
    let status = kill
        .args(["-c", &format!("kill -CONT {}", child.id())])
        .status();
    assert!(status.unwrap().success());
}

#[test]
fn one_at_a_time() {
    let shop = Shop::new("crash_lock", OLD);
    let lock = File::create(shop.path("b.org.lock")).unwrap();
    lock.lock().unwrap();
    let mut waiting = shop.intake("r1").spawn().unwrap();
    thread::sleep(Duration::from_millis(300));
    assert_eq!(waiting.try_wait().unwrap(), None);
    assert_eq!(shop.read("b.org"), OLD);
    drop(lock);
    assert!(waiting.wait().unwrap().success());
    shop.check_once(&["r0", "r1"]);
}

/// Chance that is the same in every run; what comes of it is not.
struct Dice(u64);

impl Dice {
    fn below(&mut self, bound: u64) -> u64 {
        self.0 = self
            .0
            .wrapping_mul(6_364_136_223_846_793_005)
            .wrapping_add(1);
        (self.0 >> 33) % bound
    }
}

/// Lets it run for some time, and kills it if it has not ended. Says whether it took the order in.
fn acknowledged(mut child: Child, time: Option<Duration>) -> bool {
    if let Some(time) = time {
        thread::sleep(time);
        child.kill().unwrap();
    }
    let status = child.wait().unwrap();
    assert!(status.success() || status.signal() == Some(9), "{status}");
    status.success()
}

/// Four clerks at once, of whose clicks each is made up to three times and most are killed.
#[test]
fn killed_at_random_moments() {
    const CLERKS: u64 = 4;
    const ORDERS: u64 = 20;
    let shop = Shop::new("crash_random", OLD);
    let clerk = |number: u64| {
        let mut dice = Dice(number);
        let mut taken = Vec::new();
        for order in 0..ORDERS {
            // the clerks share every other request
            let owner = if order % 2 == 0 { CLERKS } else { number };
            let request = format!("r{owner}-{order}");
            for _ in 0..1 + dice.below(3) {
                let child = shop.intake(&request).spawn().unwrap();
                let time = (dice.below(4) > 0).then(|| Duration::from_micros(dice.below(20_000)));
                if acknowledged(child, time) {
                    taken.push(request.clone());
                }
            }
        }
        taken
    };
    let taken: Vec<String> = thread::scope(|scope| {
        let clerks: Vec<_> = (0..CLERKS).map(|n| scope.spawn(move || clerk(n))).collect();
        clerks
            .into_iter()
            .flat_map(|clerk| clerk.join().unwrap())
            .collect()
    });
    let book = shop.read("b.org");
    eprintln!(
        "taken {} of book {}",
        taken.len(),
        book.matches("REQUEST").count()
    );
    for request in &taken {
        assert_eq!(headings_with(&book, request), 1, "{request}");
    }
    check_sheets_only(&book);
    shop.check_taken("last");
    check_sheets_only(&shop.read("b.org"));
    shop.check_once(&["r0", "last"]);
}

/// Checks that the book is the old one and whole sheets, no two of one request.
#[track_caller]
fn check_sheets_only(book: &str) {
    let mut rest = book.strip_prefix(OLD).unwrap();
    rest = rest.strip_prefix('\n').unwrap_or(rest);
    while !rest.is_empty() {
        let start = rest.find(":REQUEST: ").unwrap() + ":REQUEST: ".len();
        let request = rest[start..].lines().next().unwrap();
        assert_eq!(headings_with(book, request), 1, "{request}");
        rest = rest.strip_prefix(&sheet(request)).unwrap();
    }
}
