//! Document 02, order 5: "The site sends an order as one buffer".

use crate::line::same_letters;

/// "Pair count (one byte, at most 16)".
const MOST_PAIRS: usize = 16;

/// What a buffer holds.
#[derive(Clone, Debug, PartialEq, Eq)]
pub struct Order<'b> {
    pub title: &'b [u8],
    pub pairs: Vec<Pair<'b>>,
}

#[derive(Clone, Copy, Debug, PartialEq, Eq)]
pub struct Pair<'b> {
    pub key: &'b [u8],
    pub value: &'b [u8],
}

impl<'b> Order<'b> {
    /// The order in `buffer`; none when that is "cut short, long, or over 16 pairs".
    pub fn of(buffer: &'b [u8]) -> Option<Self> {
        let mut rest = Rest(buffer);
        let title = rest.text()?;
        let count = rest.byte()?;
        if count > MOST_PAIRS {
            return None;
        }
        let pairs = (0..count).map(|_| rest.pair()).collect::<Option<_>>()?;
        rest.0.is_empty().then_some(Order { title, pairs })
    }

    /// The value of the first pair with that key, case ignored.
    pub fn value(&self, key: &[u8]) -> Option<&'b [u8]> {
        let mut pairs = self.pairs.iter();
        let pair = pairs.find(|pair| same_letters(pair.key, key));
        pair.map(|pair| pair.value)
    }

    pub fn keys(&self) -> impl Iterator<Item = &'b [u8]> + '_ {
        self.pairs.iter().map(|pair| pair.key)
    }

    pub fn values(&self) -> impl Iterator<Item = &'b [u8]> + '_ {
        self.pairs.iter().map(|pair| pair.value)
    }
}

/// What is left of a buffer. Each part is taken from its front; none when it is cut short.
struct Rest<'b>(&'b [u8]);

impl<'b> Rest<'b> {
    fn bytes(&mut self, count: usize) -> Option<&'b [u8]> {
        let (taken, rest) = self.0.split_at_checked(count)?;
        self.0 = rest;
        Some(taken)
    }

    fn byte(&mut self) -> Option<usize> {
        let taken = self.bytes(1)?;
        Some(usize::from(taken[0]))
    }

    /// "Title length (two bytes, low first), title"; "value length (as the title's), value".
    fn text(&mut self) -> Option<&'b [u8]> {
        let low = self.byte()?;
        let high = self.byte()?;
        self.bytes(low + 256 * high)
    }

    /// "Per pair key length (one byte), key, value length [..], value".
    fn pair(&mut self) -> Option<Pair<'b>> {
        let key_length = self.byte()?;
        let key = self.bytes(key_length)?;
        let value = self.text()?;
        Some(Pair { key, value })
    }
}
