//! How a program that lists books ends.

use std::error::Error;
use std::io::ErrorKind;

use super::output;
use super::PROGRAM;

/// The worst last.
#[derive(Clone, Copy, PartialEq, Eq, PartialOrd, Ord)]
pub enum Status {
    Good = 0,
    /// There was something to warn of.
    Warned = 1,
    /// The command line is wrong, something was not read, or not all was written.
    Failed = 2,
}

/// Writes to standard output. An error is how to end at once: quietly, where the reader
/// has gone away.
pub fn print(text: &[u8]) -> Result<(), Status> {
    output::print(text).map_err(|error| match error.kind() {
        ErrorKind::BrokenPipe => Status::Good,
        _ => complain_of(b"standard output", &error),
    })
}

pub fn complain_of(name: &[u8], error: &dyn Error) -> Status {
    complain(&[name, b": ", error.to_string().as_bytes()].concat())
}

pub fn complain(message: &[u8]) -> Status {
    output::complain(PROGRAM, message);
    Status::Failed
}
