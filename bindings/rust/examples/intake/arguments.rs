//! What the command line asks for.

use std::ffi::OsString;
use std::os::unix::ffi::{OsStrExt, OsStringExt};

use super::given::{Collected, Given};

#[derive(Debug, PartialEq)]
pub enum Command {
    Help,
    Version,
    /// Take this order into the book of that name.
    Take {
        order: Given,
        book: OsString,
    },
}

/// Reads the arguments after the program's name. An error is a message for the user.
pub fn parse(arguments: impl Iterator<Item = OsString>) -> Result<Command, String> {
    command(arguments).map_err(|fault| format!("{fault}: see `intake --help`"))
}

fn command(mut arguments: impl Iterator<Item = OsString>) -> Result<Command, String> {
    let mut given = Collected::default();
    let mut book = None;
    while let Some(argument) = arguments.next() {
        match argument.as_bytes() {
            b"--help" => return Ok(Command::Help),
            b"--version" => return Ok(Command::Version),
            b"--book" => book = Some(checked_book(arguments.next())?),
            other => match other.strip_prefix(b"--book=") {
                Some(name) => book = Some(checked_book(Some(OsString::from_vec(name.to_vec())))?),
                None => given.take(other, &mut arguments)?,
            },
        }
    }
    let book = book.ok_or("--book is needed")?;
    let order = given.completed()?;
    Ok(Command::Take { order, book })
}

/// The book, if it has a file's name.
fn checked_book(name: Option<OsString>) -> Result<OsString, String> {
    match name {
        None => Err("--book needs a file".into()),
        Some(name) if name.is_empty() => Err("--book needs a file".into()),
        Some(name) if name == "-" => Err("standard input is no book".into()),
        Some(name) => Ok(name),
    }
}

#[cfg(test)]
mod tests {
    use super::super::source::Source;
    use super::*;

    fn parse(arguments: &[&str]) -> Result<Command, String> {
        super::parse(arguments.iter().map(OsString::from))
    }

    fn taken(book: &str) -> Result<Command, String> {
        Ok(Command::Take {
            order: Given::Buffer(Source::Stdin),
            book: book.into(),
        })
    }

    #[track_caller]
    fn check_error(arguments: &[&str], fault: &str) {
        let wanted = format!("{fault}: see `intake --help`");
        assert_eq!(parse(arguments), Err(wanted));
    }

    #[test]
    fn the_book_stands_anywhere() {
        assert_eq!(parse(&["--book", "b.org", "--buffer=-"]), taken("b.org"));
        assert_eq!(parse(&["--buffer", "-", "--book=b.org"]), taken("b.org"));
        let twice = ["--book=a.org", "--buffer=-", "--book", "--title"];
        assert_eq!(parse(&twice), taken("--title"));
    }

    #[test]
    fn after_two_dashes_all_are_pairs() {
        let arguments = ["--book=b.org", "--title=T", "--", "--book=1"];
        assert!(matches!(parse(&arguments), Ok(Command::Take { book, .. }) if book == "b.org"));
        check_error(&["--title=T", "--", "--book=1"], "--book is needed");
    }

    #[test]
    fn help_and_version_end_the_reading() {
        assert_eq!(parse(&["A=1", "--help", "--bad"]), Ok(Command::Help));
        assert_eq!(parse(&["--version", "--help"]), Ok(Command::Version));
    }

    #[test]
    fn faults_lead_to_the_help() {
        check_error(&["--buffer=-"], "--book is needed");
        check_error(&["--book=b.org"], "--title or --buffer is needed");
        check_error(&["--buffer=-", "--book"], "--book needs a file");
        check_error(&["--book=", "--buffer=-"], "--book needs a file");
        check_error(&["--book", "-", "--buffer=-"], "standard input is no book");
        check_error(&["--bock=b.org"], "unknown option --bock=b.org");
    }
}
