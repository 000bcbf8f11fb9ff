//! An order as the site sends it (document 02, order 5).

use plain_reader::Pair;

/// A title and pairs of keys and values, which need not be such as a sheet may have.
#[derive(Clone, Debug, Default, PartialEq, Eq)]
pub struct Order {
    pub title: Vec<u8>,
    pub pairs: Vec<(Vec<u8>, Vec<u8>)>,
}

/// A part of a buffer.
#[derive(Clone, Copy, Debug, PartialEq, Eq)]
pub enum Part {
    TitleLength,
    Title,
    PairCount,
    KeyLength,
    Key,
    ValueLength,
    Value,
}

impl Order {
    /// The buffer, part by part; none where a length or the pair count has no room in its bytes.
    pub fn parts(&self) -> Option<Vec<(Part, Vec<u8>)>> {
        let mut parts = vec![
            (Part::TitleLength, two_bytes(self.title.len())?),
            (Part::Title, self.title.clone()),
            (Part::PairCount, one_byte(self.pairs.len())?),
        ];
        for (key, value) in &self.pairs {
            parts.extend([
                (Part::KeyLength, one_byte(key.len())?),
                (Part::Key, key.clone()),
                (Part::ValueLength, two_bytes(value.len())?),
                (Part::Value, value.clone()),
            ]);
        }
        Some(parts)
    }

    pub fn buffer(&self) -> Option<Vec<u8>> {
        self.parts().map(|parts| joined(&parts))
    }

    /// How long its sheet is, or would be but for what a sheet may not have.
    pub fn sheet_length(&self) -> usize {
        let lines = b"* \n:PROPERTIES:\n:END:\n".len() + self.title.len();
        let pairs = self.pairs.iter().map(|(key, value)| match value.len() {
            0 => key.len() + 3,
            length => key.len() + 4 + length,
        });
        lines + pairs.sum::<usize>()
    }

    pub fn pairs(&self) -> impl Iterator<Item = Pair<'_>> {
        self.pairs.iter().map(|(key, value)| Pair { key, value })
    }
}

/// The buffer that the parts make.
pub fn joined(parts: &[(Part, Vec<u8>)]) -> Vec<u8> {
    let bytes: Vec<&[u8]> = parts.iter().map(|(_, bytes)| &bytes[..]).collect();
    bytes.concat()
}

fn one_byte(count: usize) -> Option<Vec<u8>> {
    let count = u8::try_from(count).ok()?;
    Some(vec![count])
}

/// "Two bytes, low first".
fn two_bytes(length: usize) -> Option<Vec<u8>> {
    let length = u16::try_from(length).ok()?;
    Some(length.to_le_bytes().to_vec())
}
