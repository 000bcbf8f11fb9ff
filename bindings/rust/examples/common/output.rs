//! What a program prints.

use std::io::{self, Write};

/// Writes to standard output.
pub fn print(text: &[u8]) -> io::Result<()> {
    let mut output = io::stdout().lock();
    output.write_all(text)?;
    output.flush()
}

/// Says on standard error what went wrong. Where that fails, the status must do.
pub fn complain(program: &str, message: &[u8]) {
    warn(&[program.as_bytes(), b": ", message, b"\n"].concat());
}

/// Writes whole lines to standard error, if it takes them.
pub fn warn(lines: &[u8]) {
    let _ = io::stderr().write_all(lines);
}
