//! How a program that is given an order ends.

use std::error::Error;
use std::io::ErrorKind;

use super::output;
use super::PROGRAM;

pub enum Status {
    Good = 0,
    /// The order is refused.
    Refused = 1,
    /// The command line is wrong, or a file was not read or not written.
    Failed = 2,
}

/// Writes to standard output. A reader that has gone away is no failure.
pub fn print(text: &[u8]) -> Status {
    match output::print(text) {
        Err(error) if error.kind() != ErrorKind::BrokenPipe => {
            complain(&told(b"standard output", &error), Status::Failed)
        }
        _ => Status::Good,
    }
}

/// What is wrong, after the name of what it is wrong with.
pub fn told(name: &[u8], error: &dyn Error) -> Vec<u8> {
    [name, b": ", error.to_string().as_bytes()].concat()
}

pub fn complain(message: &[u8], status: Status) -> Status {
    output::complain(PROGRAM, message);
    status
}
