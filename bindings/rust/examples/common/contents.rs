//! All bytes of a source at once.

use std::fs::File;
use std::io::{self, Read};

use super::source::Source;

impl Source {
    /// Its bytes. Where they are more than the limit, as many as show that.
    pub fn contents(&self, limit: usize) -> io::Result<Vec<u8>> {
        match self {
            Source::File(name) => front(&mut File::open(name)?, limit),
            Source::Stdin => {
                let mut input = io::stdin().lock();
                let bytes = front(&mut input, limit)?;
                // the rest is taken too: whoever writes it is not to fail
                io::copy(&mut input, &mut io::sink())?;
                Ok(bytes)
            }
        }
    }
}

/// What is read up to one byte past the limit.
fn front(input: &mut impl Read, limit: usize) -> io::Result<Vec<u8>> {
    let mut bytes = Vec::new();
    input.take(limit as u64 + 1).read_to_end(&mut bytes)?;
    Ok(bytes)
}

#[cfg(test)]
mod tests {
    use super::*;

    #[test]
    fn long_inputs_are_cut_past_the_limit() {
        for limit in [0, 65_536] {
            let length = |n| front(&mut &vec![b'x'; n][..], limit).unwrap().len();
            assert_eq!(length(limit), limit);
            assert_eq!(length(limit + 1), limit + 1);
            assert_eq!(length(limit + 2), limit + 1);
        }
    }
}
