//! Where the bytes come from that a program reads.

use std::ffi::OsString;
use std::os::unix::ffi::OsStrExt;

#[derive(Debug, PartialEq)]
pub enum Source {
    Stdin,
    File(OsString),
}

impl From<OsString> for Source {
    /// A name on the command line; `-` is standard input.
    fn from(name: OsString) -> Source {
        if name == "-" {
            Source::Stdin
        } else {
            Source::File(name)
        }
    }
}

impl Source {
    /// Its name in what is printed, a file's byte for byte.
    pub fn name(&self) -> &[u8] {
        match self {
            Source::Stdin => b"stdin",
            Source::File(name) => name.as_bytes(),
        }
    }
}

#[cfg(test)]
mod tests {
    use super::*;

    #[test]
    fn a_dash_is_standard_input() {
        assert_eq!(Source::from(OsString::from("-")), Source::Stdin);
        assert_eq!(Source::from(OsString::from("./-")).name(), b"./-");
        assert_eq!(Source::Stdin.name(), b"stdin");
    }
}
