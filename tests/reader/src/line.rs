//! Document 01, "Bytes and lines"; indentation as document 02, order 4, counts it.

/// A part of the text. "Ends are one past."
#[derive(Clone, Copy, Debug, PartialEq, Eq)]
pub struct Span {
    pub start: usize,
    pub end: usize,
}

/// A line of the text, its byte 10 included.
#[derive(Clone, Copy, Debug)]
pub struct Line<'t> {
    pub span: Span,
    /// Where the body stands in the text.
    pub body_span: Span,
    /// The bytes of the body.
    pub body: &'t [u8],
    /// The bytes of the line.
    bytes: &'t [u8],
    /// The stars of a heading line, else 0.
    pub stars: usize,
}

/// "Blank bytes are 32, 9 and 13." Byte 10 is "neither blank nor non-blank".
pub fn is_blank_byte(byte: u8) -> bool {
    matches!(byte, 32 | 9 | 13)
}

/// "Letters are the ASCII ones, and case counts for nothing."
pub fn same_letters(one: &[u8], other: &[u8]) -> bool {
    one.eq_ignore_ascii_case(other)
}

/// `bytes` starts with `prefix`, case ignored.
pub fn starts_with_letters(bytes: &[u8], prefix: &[u8]) -> bool {
    bytes.len() >= prefix.len() && same_letters(&bytes[..prefix.len()], prefix)
}

/// The leading bytes up to the first blank byte.
pub fn first_run(body: &[u8]) -> &[u8] {
    let length = body.iter().take_while(|byte| !is_blank_byte(**byte));
    &body[..length.count()]
}

/// "A line runs to and with its byte 10; the last may lack it. An empty text has no lines."
pub fn lines_of(text: &[u8]) -> Vec<Line<'_>> {
    let mut start = 0;
    let pieces = text.split_inclusive(|byte| *byte == 10);
    pieces
        .map(|bytes| {
            let line = line_from(bytes, start);
            start += bytes.len();
            line
        })
        .collect()
}

/// The number of stars when `bytes` begin a heading line, else 0.
///
/// "A heading line has stars from its first byte, then byte 32."
pub fn heading_stars(bytes: &[u8]) -> usize {
    let stars = bytes.iter().take_while(|byte| **byte == b'*').count();
    if bytes.get(stars) == Some(&32) {
        stars
    } else {
        0
    }
}

/// A heading line starts at byte `at`.
pub fn heading_line_starts(text: &[u8], at: usize) -> bool {
    let starts_a_line = at == 0 || text.get(at - 1) == Some(&10);
    let rest = text.get(at..).unwrap_or_default();
    starts_a_line && heading_stars(rest) > 0
}

fn line_from(bytes: &[u8], start: usize) -> Line<'_> {
    let body = body_of(bytes);
    Line {
        span: Span {
            start,
            end: start + bytes.len(),
        },
        body_span: Span {
            start: start + body.start,
            end: start + body.end,
        },
        body: &bytes[body.start..body.end],
        bytes,
        stars: heading_stars(bytes),
    }
}

/// "A line's body runs from after the indentation to its last non-blank byte."
fn body_of(bytes: &[u8]) -> Span {
    let start = leading_run(bytes);
    let last = bytes.iter().rposition(|byte| is_non_blank_byte(*byte));
    Span {
        start,
        end: last.map_or(start, |place| place + 1),
    }
}

/// "Indentation is the leading run of 32 and 9 only."
fn leading_run(bytes: &[u8]) -> usize {
    let leading = bytes.iter().take_while(|byte| matches!(**byte, 32 | 9));
    leading.count()
}

/// "Other bytes are ordinary non-blank bytes": all but the blank ones and byte 10.
fn is_non_blank_byte(byte: u8) -> bool {
    !is_blank_byte(byte) && byte != 10
}

impl Line<'_> {
    /// "A blank line has no others before its end."
    pub fn is_blank(&self) -> bool {
        self.body.is_empty()
    }

    /// Order 4: "Indentation counts 1 for a space, 8 for a tab."
    pub fn indentation(&self) -> usize {
        let indentation = self.bytes[..leading_run(self.bytes)].iter();
        indentation.map(|byte| if *byte == 9 { 8 } else { 1 }).sum()
    }

    /// Where its byte 10 stands, or the text ends.
    pub fn line_end(&self) -> usize {
        let bytes = self.bytes.strip_suffix(b"\n").unwrap_or(self.bytes);
        self.span.start + bytes.len()
    }

    /// The first byte that is not 32, 9 or 13; a body may start with byte 13.
    pub fn first_non_blank_byte(&self) -> Option<u8> {
        let mut bytes = self.body.iter().copied();
        bytes.find(|byte| !is_blank_byte(*byte))
    }

    /// Its bytes, byte 10 included.
    pub fn bytes(&self) -> &[u8] {
        self.bytes
    }

    /// Order 9, of a heading line: "the title being the line after the stars' space less byte 10 and
    /// blank bytes at its end". Blank bytes at its front count.
    pub fn title(&self) -> &[u8] {
        let after = &self.bytes[self.stars + 1..];
        let last = after.iter().rposition(|byte| is_non_blank_byte(*byte));
        &after[..last.map_or(0, |place| place + 1)]
    }

    /// "It is a heading wherever it stands, inside an open block too."
    pub fn is_heading(&self) -> bool {
        self.stars > 0
    }

    /// The value after a marker that takes the body's first `marker` bytes.
    ///
    /// "A value is what follows the marker, less blank bytes at both ends. An empty one stands
    /// just after the line's last non-blank byte."
    pub fn value_after(&self, marker: usize) -> Span {
        let rest = &self.body[marker..];
        let blank = rest.iter().take_while(|byte| is_blank_byte(**byte)).count();
        Span {
            start: self.body_span.start + marker + blank,
            end: self.body_span.end,
        }
    }
}
