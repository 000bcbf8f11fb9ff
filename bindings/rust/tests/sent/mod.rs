//! An order's buffer as the site sends it, and its sheet, both made by hand.

pub type Pair<'b> = (&'b [u8], &'b [u8]);

/// The buffer of an order, byte by byte as the site sends it. A title or value has its length in
/// two bytes, a key in one.
pub fn buffer(title: &[u8], pairs: &[Pair]) -> Vec<u8> {
    let mut bytes = vec![(title.len() % 256) as u8, (title.len() / 256) as u8];
    bytes.extend(title);
    bytes.push(pairs.len() as u8);
    for (key, value) in pairs {
        bytes.push(key.len() as u8);
        bytes.extend(*key);
        bytes.extend([(value.len() % 256) as u8, (value.len() / 256) as u8]);
        bytes.extend(*value);
    }
    bytes
}

/// The sheet as the papers say.
pub fn lines(title: &[u8], pairs: &[Pair]) -> Vec<u8> {
    let mut lines = [b"* ", title, b"\n:PROPERTIES:\n"].concat();
    for &(key, value) in pairs {
        let space: &[u8] = if value.is_empty() { b"" } else { b" " };
        lines.extend([&b":"[..], key, b":", space, value, b"\n"].concat());
    }
    lines.extend(b":END:\n");
    lines
}
