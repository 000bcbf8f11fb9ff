//! What the command line asks for.

use std::ffi::OsString;
use std::os::unix::ffi::OsStrExt;

use super::given::{Collected, Given};

#[derive(Debug, PartialEq)]
pub enum Command {
    Help,
    Version,
    /// Write this order.
    Write(Given),
}

/// Reads the arguments after the program's name. An error is a message for the user.
pub fn parse(arguments: impl Iterator<Item = OsString>) -> Result<Command, String> {
    command(arguments).map_err(|fault| format!("{fault}: see `sheet --help`"))
}

fn command(mut arguments: impl Iterator<Item = OsString>) -> Result<Command, String> {
    let mut given = Collected::default();
    while let Some(argument) = arguments.next() {
        match argument.as_bytes() {
            b"--help" => return Ok(Command::Help),
            b"--version" => return Ok(Command::Version),
            other => given.take(other, &mut arguments)?,
        }
    }
    given.completed().map(Command::Write)
}

#[cfg(test)]
mod tests {
    use super::super::source::Source;
    use super::*;

    fn parse(arguments: &[&str]) -> Result<Command, String> {
        super::parse(arguments.iter().map(OsString::from))
    }

    #[test]
    fn an_order() {
        let buffer = Given::Buffer(Source::Stdin);
        assert_eq!(parse(&["--buffer", "-"]), Ok(Command::Write(buffer)));
    }

    #[test]
    fn help_and_version_end_the_reading() {
        assert_eq!(parse(&["A=1", "--help", "--bad"]), Ok(Command::Help));
        assert_eq!(parse(&["--version", "--help"]), Ok(Command::Version));
    }

    #[test]
    fn faults_lead_to_the_help() {
        let fault = "--title or --buffer is needed: see `sheet --help`";
        assert_eq!(parse(&["A=1"]), Err(fault.into()));
    }
}
