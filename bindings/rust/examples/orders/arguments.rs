//! What the command line asks for.

use std::ffi::OsString;
use std::os::unix::ffi::{OsStrExt, OsStringExt};

use comaltzex::{lookup, LookupRefusal};

use super::printable::printable;
use super::source::Source;

const STDIN_TWICE: &str =
    "standard input cannot be both a book and the defaults: see `orders --help`";

#[derive(Debug, PartialEq)]
pub enum Command {
    Help,
    Version,
    Report(Request),
}

#[derive(Debug, PartialEq)]
pub struct Request {
    /// Warn of missing values; list no headings.
    pub missing: bool,
    /// Warn of headings, too, that look like no orders.
    pub all: bool,
    /// The property to look for.
    pub key: Vec<u8>,
    /// The text of the house defaults. It is not standard input if a book is.
    pub defaults: Option<Source>,
    /// At least one.
    pub books: Vec<Source>,
}

/// Reads the arguments after the program's name. An error is a message for the user.
pub fn parse(mut arguments: impl Iterator<Item = OsString>) -> Result<Command, String> {
    let mut request = Request {
        missing: false,
        all: false,
        key: b"VIN".to_vec(),
        defaults: None,
        books: Vec::new(),
    };
    while let Some(argument) = arguments.next() {
        match argument.as_bytes() {
            b"--help" => return Ok(Command::Help),
            b"--version" => return Ok(Command::Version),
            b"--missing" => request.missing = true,
            b"--all" => request.all = true,
            b"--key" => request.key = checked_key(arguments.next())?,
            b"--defaults" => request.defaults = Some(checked_defaults(arguments.next())?),
            b"--" => request.books.extend(arguments.by_ref().map(Source::from)),
            option if is_option(option) => request.set(option)?,
            _ => request.books.push(Source::from(argument)),
        }
    }
    request.completed().map(Command::Report)
}

impl Request {
    /// Takes in an option and its value in one argument, `--key=FUEL`.
    fn set(&mut self, option: &[u8]) -> Result<(), String> {
        let value = |bytes: &[u8]| Some(OsString::from_vec(bytes.to_vec()));
        if let Some(key) = option.strip_prefix(b"--key=") {
            self.key = checked_key(value(key))?;
        } else if let Some(name) = option.strip_prefix(b"--defaults=") {
            self.defaults = Some(checked_defaults(value(name))?);
        } else {
            return Err(unknown(option));
        }
        Ok(())
    }

    /// With standard input for a book if there is none. It can be read only once.
    fn completed(mut self) -> Result<Request, String> {
        if self.books.is_empty() {
            self.books.push(Source::Stdin);
        }
        if self.defaults == Some(Source::Stdin) && self.books.contains(&Source::Stdin) {
            return Err(STDIN_TWICE.to_string());
        }
        Ok(self)
    }
}

fn is_option(argument: &[u8]) -> bool {
    argument.len() > 1 && argument.starts_with(b"-")
}

fn unknown(option: &[u8]) -> String {
    let option = printable(option);
    format!("unknown option {option}: see `orders --help`")
}

/// The defaults, if they have a name.
fn checked_defaults(name: Option<OsString>) -> Result<Source, String> {
    let name = name.filter(|name| !name.is_empty());
    let name = name.ok_or("--defaults needs a file: see `orders --help`")?;
    Ok(Source::from(name))
}

/// The key, if a lookup takes it.
fn checked_key(key: Option<OsString>) -> Result<Vec<u8>, String> {
    let key = key.ok_or("--key needs a key: see `orders --help`")?;
    let key = key.into_vec();
    match lookup(b"", 0, &key) {
        Err(refusal @ LookupRefusal::BadKey) => {
            let key = printable(&key);
            Err(format!("--key \"{key}\": {refusal}"))
        }
        _ => Ok(key),
    }
}

#[cfg(test)]
mod tests {
    use super::*;

    fn parse(arguments: &[&str]) -> Result<Command, String> {
        super::parse(arguments.iter().map(OsString::from))
    }

    #[track_caller]
    fn request(arguments: &[&str]) -> Request {
        match parse(arguments) {
            Ok(Command::Report(request)) => request,
            other => panic!("{other:?}"),
        }
    }

    fn file(name: &str) -> Source {
        Source::File(name.into())
    }

    #[test]
    fn without_arguments_standard_input_is_listed() {
        let wanted = Request {
            missing: false,
            all: false,
            key: b"VIN".to_vec(),
            defaults: None,
            books: vec![Source::Stdin],
        };
        assert_eq!(request(&[]), wanted);
    }

    #[test]
    fn options_stand_anywhere() {
        let wanted = Request {
            missing: true,
            all: true,
            key: b"FUEL".to_vec(),
            defaults: Some(file("d")),
            books: vec![file("a"), Source::Stdin, file("b")],
        };
        let spaced = "a --missing - --key FUEL --all --defaults d b";
        let joined = "--key=FUEL --all a - --defaults=d b --missing";
        for arguments in [spaced, joined] {
            let arguments: Vec<&str> = arguments.split(' ').collect();
            assert_eq!(request(&arguments), wanted);
        }
    }

    #[test]
    fn the_last_key_counts() {
        assert_eq!(request(&["--key=A", "--key", "B"]).key, b"B");
        assert_eq!(request(&["--key", "--missing"]).key, b"--missing");
        assert_eq!(request(&["--key=A=B"]).key, b"A=B");
    }

    #[test]
    fn the_last_defaults_count() {
        let defaults = |line: &str| {
            let arguments: Vec<&str> = line.split(' ').collect();
            request(&arguments).defaults
        };
        assert_eq!(defaults("--defaults=a --defaults b"), Some(file("b")));
        assert_eq!(defaults("--defaults=- --defaults=a"), Some(file("a")));
        assert_eq!(defaults("--defaults --all"), Some(file("--all")));
        assert_eq!(defaults("--defaults=a=b"), Some(file("a=b")));
        assert_eq!(defaults("-- --defaults a"), None);
    }

    #[test]
    fn defaults_without_a_file() {
        let wanted = "--defaults needs a file: see `orders --help`";
        let last = ["a", "--defaults"];
        for arguments in [&last[..], &["--defaults="], &["--defaults", "", "a"]] {
            assert_eq!(parse(arguments), Err(wanted.to_string()));
        }
    }

    #[test]
    fn standard_input_is_for_one_use() {
        for books in [&[][..], &["--"], &["a", "-"], &["--", "-", "a"]] {
            let arguments = [&["--defaults=-"], books].concat();
            assert_eq!(parse(&arguments), Err(STDIN_TWICE.to_string()));
        }
        let request = request(&["--defaults", "-", "a", "./-"]);
        assert_eq!(request.defaults, Some(Source::Stdin));
        assert_eq!(request.books, [file("a"), file("./-")]);
    }

    #[test]
    fn after_two_dashes_all_are_books() {
        let books = request(&["--missing", "--", "--all", "-", "--"]).books;
        assert_eq!(books, [file("--all"), Source::Stdin, file("--")]);
        assert_eq!(request(&["--"]).books, [Source::Stdin]);
    }

    #[test]
    fn help_and_version_end_the_reading() {
        assert_eq!(parse(&["a", "--help", "--bad"]), Ok(Command::Help));
        assert_eq!(parse(&["--version", "--help"]), Ok(Command::Version));
        assert_eq!(request(&["--", "--help"]).books, [file("--help")]);
    }

    #[test]
    fn other_options_are_unknown() {
        for option in [
            "-x",
            "--miss",
            "--missing=1",
            "--help=",
            "---",
            "--default",
            "--defaultsa",
        ] {
            let wanted = format!("unknown option {option}: see `orders --help`");
            assert_eq!(parse(&["a", option, "--help"]), Err(wanted));
        }
        let option = OsString::from_vec(b"--\xff\x1b".to_vec());
        let wanted = r"unknown option --\xff\u{1b}: see `orders --help`";
        assert_eq!(super::parse([option].into_iter()), Err(wanted.to_string()));
    }

    #[test]
    fn bad_keys() {
        let rule = "a key has 1 to 64 bytes, no blanks or line ends, and no `+` at its end";
        for key in ["", "VIN+", "V N", "V\nN", &"V".repeat(65)] {
            let wanted = format!("--key \"{}\": {rule}", key.replace('\n', r"\n"));
            assert_eq!(parse(&["--key", key]), Err(wanted.clone()));
            assert_eq!(parse(&[&format!("--key={key}")]), Err(wanted));
        }
        let wanted = "--key needs a key: see `orders --help`";
        assert_eq!(parse(&["--key"]), Err(wanted.to_string()));
        assert_eq!(request(&["--key", &"V".repeat(64)]).key.len(), 64);
    }
}
