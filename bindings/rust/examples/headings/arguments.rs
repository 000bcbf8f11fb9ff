//! What the command line asks for.

use std::ffi::OsString;
use std::os::unix::ffi::OsStrExt;

use super::printable::printable;
use super::source::Source;

#[derive(Debug, PartialEq)]
pub enum Command {
    Help,
    Version,
    /// List the headings of these books, at least one.
    List(Vec<Source>),
}

/// Reads the arguments after the program's name. An error is a message for the user.
pub fn parse(mut arguments: impl Iterator<Item = OsString>) -> Result<Command, String> {
    let mut books = Vec::new();
    while let Some(argument) = arguments.next() {
        match argument.as_bytes() {
            b"--help" => return Ok(Command::Help),
            b"--version" => return Ok(Command::Version),
            b"--" => books.extend(arguments.by_ref().map(Source::from)),
            option if is_option(option) => {
                let option = printable(option);
                return Err(format!("unknown option {option}: see `headings --help`"));
            }
            _ => books.push(Source::from(argument)),
        }
    }
    if books.is_empty() {
        books.push(Source::Stdin);
    }
    Ok(Command::List(books))
}

fn is_option(argument: &[u8]) -> bool {
    argument.len() > 1 && argument.starts_with(b"-")
}

#[cfg(test)]
mod tests {
    use std::os::unix::ffi::OsStringExt;

    use super::*;

    fn parse(arguments: &[&str]) -> Result<Command, String> {
        super::parse(arguments.iter().map(OsString::from))
    }

    fn listed<const N: usize>(books: [&str; N]) -> Result<Command, String> {
        let books = books.map(|name| Source::from(OsString::from(name)));
        Ok(Command::List(books.into()))
    }

    #[test]
    fn without_a_book_standard_input_is_listed() {
        assert_eq!(parse(&[]), listed(["-"]));
        assert_eq!(parse(&["--"]), listed(["-"]));
    }

    #[test]
    fn books_in_their_order() {
        assert_eq!(parse(&["b", "-", "a", "b"]), listed(["b", "-", "a", "b"]));
        assert_eq!(
            parse(&["a", "--", "--help", "--"]),
            listed(["a", "--help", "--"])
        );
    }

    #[test]
    fn help_and_version_end_the_reading() {
        assert_eq!(parse(&["a", "--help", "--bad"]), Ok(Command::Help));
        assert_eq!(parse(&["--version", "--help"]), Ok(Command::Version));
    }

    #[test]
    fn other_options_are_unknown() {
        for option in ["-x", "--helps", "--help=", "---"] {
            let wanted = format!("unknown option {option}: see `headings --help`");
            assert_eq!(parse(&["a", option, "--help"]), Err(wanted));
        }
        let option = OsString::from_vec(b"--\xff\x1b".to_vec());
        let wanted = r"unknown option --\xff\u{1b}: see `headings --help`";
        assert_eq!(super::parse([option].into_iter()), Err(wanted.to_string()));
    }
}
