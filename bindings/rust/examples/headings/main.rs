//! The clerk's window on an upload: lists the headings of order books that still come in, each as
//! soon as its line is finished. `headings --help` tells its use.

mod arguments;
mod listing;
#[path = "../common/output.rs"]
mod output;
#[path = "../common/printable.rs"]
mod printable;
#[path = "../common/shown.rs"]
mod shown;
#[path = "../common/source.rs"]
mod source;
#[path = "../common/status.rs"]
mod status;

use std::env;
use std::fs::File;
use std::io::{self, ErrorKind, Read};
use std::process::ExitCode;

use comaltzex::TEXT_LIMIT;

use arguments::Command;
use listing::Listing;
use source::Source;
use status::{complain, complain_of, print, Status};

const PROGRAM: &str = "headings";
const HELP: &str = include_str!("help.txt");
const VERSION: &str = concat!("headings (comaltzex) ", env!("CARGO_PKG_VERSION"), "\n");

const TOO_LONG: &[u8] =
    b": the book is longer than 65,536 bytes: what comes after these is not listed";

/// The most bytes that are read at once.
const PIECE: usize = 8192;

fn main() -> ExitCode {
    let status = match arguments::parse(env::args_os().skip(1)) {
        Ok(Command::Help) => print(HELP.as_bytes()).err().unwrap_or(Status::Good),
        Ok(Command::Version) => print(VERSION.as_bytes()).err().unwrap_or(Status::Good),
        Ok(Command::List(books)) => list_all(&books),
        Err(error) => complain(error.as_bytes()),
    };
    ExitCode::from(status as u8)
}

/// Lists each book in turn, and gives the worst status.
fn list_all(books: &[Source]) -> Status {
    let mut worst = Status::Good;
    for book in books {
        match list(book) {
            Ok(status) => worst = worst.max(status),
            Err(status) => return worst.max(status),
        }
    }
    worst
}

/// Lists a book. An error is how to end at once.
fn list(book: &Source) -> Result<Status, Status> {
    let mut input = match open(book) {
        Ok(input) => input,
        Err(error) => return Ok(complain_of(book.name(), &error)),
    };
    let mut listing = Listing::new(book.name());
    let mut buffer = [0; PIECE];
    loop {
        // up to the limit, then one byte to see whether there is more
        let room = (TEXT_LIMIT - listing.length()).clamp(1, PIECE);
        let piece = match input.read(&mut buffer[..room]) {
            Ok(0) => break,
            Ok(length) => &buffer[..length],
            Err(error) if error.kind() == ErrorKind::Interrupted => continue,
            Err(error) => return Ok(complain_of(book.name(), &error)),
        };
        match listing.push(piece) {
            Ok(lines) => print_some(&lines)?,
            Err(_) => {
                complain(&[book.name(), TOO_LONG].concat());
                return Ok(Status::Warned);
            }
        }
    }
    print_some(&listing.finish())?;
    Ok(Status::Good)
}

fn open(book: &Source) -> io::Result<Box<dyn Read>> {
    Ok(match book {
        Source::Stdin => Box::new(io::stdin().lock()),
        Source::File(name) => Box::new(File::open(name)?),
    })
}

/// Prints lines, if there are any, so that they are seen at once.
fn print_some(lines: &[u8]) -> Result<(), Status> {
    if lines.is_empty() {
        return Ok(());
    }
    print(lines)
}
