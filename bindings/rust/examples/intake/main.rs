//! The clerk's intake: takes an order into a book unless its request is there already, from a
//! title and properties on the command line or from a buffer as the site sends it.
//! `intake --help` tells its use.

mod arguments;
#[path = "../common/contents.rs"]
mod contents;
#[path = "../common/ending.rs"]
mod ending;
mod files;
#[path = "../common/given.rs"]
mod given;
#[path = "../common/output.rs"]
mod output;
#[path = "../common/printable.rs"]
mod printable;
mod replace;
#[path = "../common/shown.rs"]
mod shown;
#[path = "../common/source.rs"]
mod source;
mod taking;
#[path = "../common/title.rs"]
mod title;
mod unseen;
#[path = "../common/words.rs"]
mod words;

use std::env;
use std::ffi::OsStr;
use std::os::unix::ffi::OsStrExt;
use std::process::ExitCode;

use comaltzex::IntakeRefusal;

use arguments::Command;
use ending::{complain, print, told, Status};
use files::{Fault, Files};
use given::{Given, NoOrder};
use taking::Taking;

const PROGRAM: &str = "intake";
const HELP: &str = include_str!("help.txt");
const VERSION: &str = concat!("intake (comaltzex) ", env!("CARGO_PKG_VERSION"), "\n");

fn main() -> ExitCode {
    let status = match arguments::parse(env::args_os().skip(1)) {
        Ok(Command::Help) => print(HELP.as_bytes()),
        Ok(Command::Version) => print(VERSION.as_bytes()),
        Ok(Command::Take { order, book }) => take(&order, &book),
        Err(error) => complain(error.as_bytes(), Status::Failed),
    };
    ExitCode::from(status as u8)
}

/// Takes an order into a book. Nobody waits for the lock while it is read.
fn take(order: &Given, book: &OsStr) -> Status {
    let bytes = match order.bytes() {
        Ok(bytes) => bytes,
        Err(NoOrder::Refused(error)) => return complain(&order.told(&error), Status::Refused),
        Err(NoOrder::Unread(error)) => return complain(&order.told(&error), Status::Failed),
    };
    match take_into(book, &bytes) {
        Ok(taking) => tell(order, book.as_bytes(), &taking),
        Err(fault) => complain(&fault, Status::Failed),
    }
}

fn take_into(book: &OsStr, order: &[u8]) -> Result<Taking, Fault> {
    taking::take_in(&Files::new(book)?, order)
}

/// Says what became of the order, and what in the book is to be mended.
fn tell(order: &Given, book: &[u8], taking: &Taking) -> Status {
    output::warn(&unseen::warnings(book, &taking.text));
    if taking.is_mended {
        let words = b": orders that an interrupted run had left in the log were taken in first";
        output::complain(PROGRAM, &[book, words].concat());
    }
    match taking.refusal {
        None if taking.is_new => print(&[book, b": taken in; the book is new\n"].concat()),
        None => print(&[book, b": taken in\n"].concat()),
        Some(IntakeRefusal::Seen) => print(&[book, b": already in the book\n"].concat()),
        Some(refusal) if is_of_the_book(refusal) => {
            complain(&told(book, &refusal), Status::Refused)
        }
        Some(refusal) => complain(&order.told(&refusal), Status::Refused),
    }
}

fn is_of_the_book(refusal: IntakeRefusal) -> bool {
    matches!(
        refusal,
        IntakeRefusal::BadUsed | IntakeRefusal::TooLong | IntakeRefusal::ShortBuffer
    )
}
