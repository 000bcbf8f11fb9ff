//! The order that a command line gives: a title and properties, or a site's buffer.

use std::error::Error;
use std::ffi::OsString;
use std::io;
use std::os::unix::ffi::{OsStrExt, OsStringExt};

use comaltzex::{Order, OrderError, PAIR_LIMIT};

use super::printable::printable;
use super::source::Source;

/// The longest buffer that its own lengths allow. Any longer one goes on after its last
/// pair.
const BUFFER_LIMIT: usize = LONGEST_TEXT + 1 + PAIR_LIMIT * (LONGEST_KEY + LONGEST_TEXT);
const LONGEST_TEXT: usize = 2 + u16::MAX as usize;
const LONGEST_KEY: usize = 1 + u8::MAX as usize;

#[derive(Debug, PartialEq)]
pub enum Given {
    /// The order of these parts.
    Parts(Parts),
    /// The order in this buffer.
    Buffer(Source),
}

#[derive(Debug, PartialEq)]
pub struct Parts {
    title: Vec<u8>,
    pairs: Vec<Pair>,
}

#[derive(Debug, PartialEq)]
struct Pair {
    key: Vec<u8>,
    value: Vec<u8>,
}

/// Why there is no order's buffer.
pub enum NoOrder {
    Refused(OrderError),
    Unread(io::Error),
}

impl Given {
    /// The order as a buffer, which is judged yet where the site made it.
    pub fn bytes(&self) -> Result<Vec<u8>, NoOrder> {
        match self {
            Given::Parts(parts) => match parts.order() {
                Ok(order) => Ok(order.to_bytes().to_vec()),
                Err(error) => Err(NoOrder::Refused(error)),
            },
            Given::Buffer(source) => source.contents(BUFFER_LIMIT).map_err(NoOrder::Unread),
        }
    }

    /// What is wrong, after the name of the buffer that it is wrong with.
    pub fn told(&self, error: &dyn Error) -> Vec<u8> {
        let words = error.to_string().into_bytes();
        match self {
            Given::Parts(_) => words,
            Given::Buffer(source) => [source.name(), b": ", &words].concat(),
        }
    }
}

impl Parts {
    fn order(&self) -> Result<Order, OrderError> {
        let mut order = Order::new(&self.title)?;
        for pair in &self.pairs {
            order.add(&pair.key, &pair.value)?;
        }
        Ok(order)
    }
}

/// What was given so far. Errors are faults of the command line, in words.
#[derive(Default)]
pub struct Collected {
    title: Option<Vec<u8>>,
    buffer: Option<Source>,
    pairs: Vec<Pair>,
}

impl Collected {
    /// Takes in an argument, and those after it that belong to it.
    pub fn take(
        &mut self,
        argument: &[u8],
        arguments: &mut impl Iterator<Item = OsString>,
    ) -> Result<(), String> {
        match argument {
            b"--title" => self.title = Some(checked_title(arguments.next())?),
            b"--buffer" => self.buffer = Some(checked_buffer(arguments.next())?),
            b"--" => self.take_pairs(arguments)?,
            option if option.starts_with(b"-") => self.set(option)?,
            pair => self.pairs.push(Pair::parse(pair)?),
        }
        Ok(())
    }

    /// Takes in an option and its value in one argument, `--title=A`.
    fn set(&mut self, option: &[u8]) -> Result<(), String> {
        let value = |bytes: &[u8]| Some(OsString::from_vec(bytes.to_vec()));
        if let Some(title) = option.strip_prefix(b"--title=") {
            self.title = Some(checked_title(value(title))?);
        } else if let Some(name) = option.strip_prefix(b"--buffer=") {
            self.buffer = Some(checked_buffer(value(name))?);
        } else {
            return Err(format!("unknown option {}", printable(option)));
        }
        Ok(())
    }

    fn take_pairs(&mut self, arguments: &mut impl Iterator<Item = OsString>) -> Result<(), String> {
        for pair in arguments {
            self.pairs.push(Pair::parse(pair.as_bytes())?);
        }
        Ok(())
    }

    /// The one order that was given.
    pub fn completed(self) -> Result<Given, String> {
        let pairs = self.pairs;
        match (self.title, self.buffer) {
            (Some(title), None) => Ok(Given::Parts(Parts { title, pairs })),
            (None, Some(buffer)) if pairs.is_empty() => Ok(Given::Buffer(buffer)),
            (None, None) => Err("--title or --buffer is needed".into()),
            (_, Some(_)) => Err("--buffer goes with no title and no properties".into()),
        }
    }
}

impl Pair {
    fn parse(argument: &[u8]) -> Result<Pair, String> {
        let mut halves = argument.splitn(2, |&byte| byte == b'=');
        match (halves.next(), halves.next()) {
            (Some(key), Some(value)) => Ok(Pair {
                key: key.to_vec(),
                value: value.to_vec(),
            }),
            _ => Err(format!("no KEY=VALUE: {}", printable(argument))),
        }
    }
}

fn checked_title(title: Option<OsString>) -> Result<Vec<u8>, String> {
    let title = title.ok_or("--title needs a title")?;
    Ok(title.into_vec())
}

/// The buffer, if it has a name.
fn checked_buffer(name: Option<OsString>) -> Result<Source, String> {
    let name = name.filter(|name| !name.is_empty());
    let name = name.ok_or("--buffer needs a file")?;
    Ok(Source::from(name))
}

#[cfg(test)]
mod tests {
    use super::*;

    fn parse(arguments: &[&str]) -> Result<Given, String> {
        collect(arguments.iter().map(OsString::from))
    }

    fn collect(mut arguments: impl Iterator<Item = OsString>) -> Result<Given, String> {
        let mut given = Collected::default();
        while let Some(argument) = arguments.next() {
            given.take(argument.as_bytes(), &mut arguments)?;
        }
        given.completed()
    }

    /// An order of parts, as its title and its pairs.
    fn parts(title: &str, pairs: &[(&str, &str)]) -> Result<Given, String> {
        let pair = |&(key, value): &(&str, &str)| Pair {
            key: key.into(),
            value: value.into(),
        };
        Ok(Given::Parts(Parts {
            title: title.into(),
            pairs: pairs.iter().map(pair).collect(),
        }))
    }

    #[track_caller]
    fn check_error(arguments: &[&str], fault: &str) {
        assert_eq!(parse(arguments), Err(fault.to_string()));
    }

    #[test]
    fn options_stand_anywhere() {
        let wanted = parts("T", &[("A", "1"), ("B", "2")]);
        assert_eq!(parse(&["A=1", "--title", "T", "B=2"]), wanted);
        assert_eq!(parse(&["A=1", "B=2", "--title=T"]), wanted);
        assert_eq!(parse(&["--title=T", "--", "A=1", "B=2"]), wanted);
    }

    #[test]
    fn titles_and_values_may_be_empty() {
        assert_eq!(parse(&["--title", ""]), parts("", &[]));
        assert_eq!(parse(&["--title=", "A="]), parts("", &[("A", "")]));
    }

    #[test]
    fn the_first_equals_sign_ends_the_key() {
        let wanted = parts("a=b", &[("A", "1=2="), ("", "3")]);
        assert_eq!(parse(&["--title=a=b", "A=1=2=", "=3"]), wanted);
    }

    #[test]
    fn what_follows_is_a_title_or_a_file() {
        assert_eq!(
            parse(&["--title", "--buffer", "A=1"]),
            parts("--buffer", &[("A", "1")])
        );
        let buffer = Source::File("--title".into());
        assert_eq!(parse(&["--buffer", "--title"]), Ok(Given::Buffer(buffer)));
    }

    #[test]
    fn the_last_title_and_buffer_count() {
        assert_eq!(parse(&["--title=a", "--title", "b"]), parts("b", &[]));
        let arguments = ["--buffer", "a", "--buffer=-"];
        assert_eq!(parse(&arguments), Ok(Given::Buffer(Source::Stdin)));
    }

    #[test]
    fn after_two_dashes_all_are_pairs() {
        let wanted = parts("T", &[("--title", "1"), ("-k", "2")]);
        assert_eq!(parse(&["--title=T", "--", "--title=1", "-k=2"]), wanted);
        check_error(&["--title=T", "--", "--help"], "no KEY=VALUE: --help");
    }

    #[test]
    fn one_order_is_needed() {
        check_error(&[], "--title or --buffer is needed");
        check_error(&["A=1"], "--title or --buffer is needed");
        let wanted = "--buffer goes with no title and no properties";
        check_error(&["--buffer=a", "--title=b"], wanted);
        check_error(&["--buffer=a", "A=1"], wanted);
    }

    #[test]
    fn options_without_their_value() {
        check_error(&["A=1", "--title"], "--title needs a title");
        check_error(&["--buffer"], "--buffer needs a file");
        check_error(&["--buffer="], "--buffer needs a file");
        check_error(&["--buffer", "", "A=1"], "--buffer needs a file");
    }

    #[test]
    fn other_arguments_are_unknown() {
        for option in ["-", "-x", "--titel=a", "--help=", "--titles", "-k=2"] {
            check_error(&["--title=T", option], &format!("unknown option {option}"));
        }
        check_error(&["--title=T", "VIN"], "no KEY=VALUE: VIN");
        check_error(&["--title=T", ""], "no KEY=VALUE: ");
        let argument = OsString::from_vec(b"\xff\x1b".to_vec());
        let wanted = r"no KEY=VALUE: \xff\u{1b}";
        assert_eq!(collect([argument].into_iter()), Err(wanted.into()));
    }
}
