use std::fmt::{self, Display, Formatter};

use crate::{Kind, Record};

/// What stands on an item's first line before its text. [`Record::item`] gives it.
#[derive(Clone, Copy, Debug, PartialEq, Eq, Hash)]
pub struct Item<'t> {
    /// The bullet: `-`, `+`, `*`, or a number or one letter with `.` or `)`.
    pub bullet: &'t [u8],
    /// What the counter set says, `5` of `[@5]`: a number or one letter.
    pub counter: Option<&'t [u8]>,
    /// The check box.
    pub check_box: Option<CheckBox>,
}

/// A check box. It is displayed as Org writes it.
#[derive(Clone, Copy, Debug, PartialEq, Eq, Hash)]
pub enum CheckBox {
    /// `[ ]`: nothing is done. The byte between the brackets may be any blank one.
    Blank,
    /// `[-]`: some of it is done.
    Partial,
    /// `[X]` or `[x]`: it is done.
    Done,
}

impl Display for CheckBox {
    fn fmt(&self, f: &mut Formatter<'_>) -> fmt::Result {
        f.write_str(match self {
            CheckBox::Blank => "[ ]",
            CheckBox::Partial => "[-]",
            CheckBox::Done => "[X]",
        })
    }
}

impl Record {
    /// The bullet, counter set and check box of an item, in the text that it was read
    /// from.
    ///
    /// After the bullet a counter set may stand, then a check box, with blank bytes
    /// between. Each counts only if a blank byte or the line's end follows it, else it
    /// is text.
    ///
    /// ```
    /// use comaltzex::{CheckBox, Item, Table};
    ///
    /// let text = b"3. [@3] [X] pump\n4. [ ] hose\n5. seal\n";
    /// let table = Table::read(text)?;
    /// let items: Vec<Item> = table.records().filter_map(|record| record.item(text)).collect();
    ///
    /// let Item { bullet, counter, check_box } = items[0];
    /// assert_eq!(bullet, b"3.");
    /// assert_eq!(counter, Some(&b"3"[..]));
    /// assert_eq!(check_box, Some(CheckBox::Done));
    ///
    /// let boxes: Vec<_> = items.iter().map(|item| item.check_box).collect();
    /// assert_eq!(boxes, [Some(CheckBox::Done), Some(CheckBox::Blank), None]);
    /// # Ok::<(), comaltzex::Refusal>(())
    /// ```
    ///
    /// `None` if the record is no item, or if what stands in this text between the
    /// starts of its `span` and its `inner` span is not the beginning of one.
    pub fn item<'t>(&self, text: &'t [u8]) -> Option<Item<'t>> {
        if self.kind != Kind::Item {
            return None;
        }
        let head = text.get(self.span.start..self.inner.start)?;
        let (item, rest) = Item::at(head)?;
        rest.is_empty().then_some(item)
    }
}

/// A part of a line and the bytes after it.
type Part<'t, T> = Option<(T, &'t [u8])>;

impl<'t> Item<'t> {
    /// The item whose line starts with the first of these bytes, and the bytes from its
    /// text on.
    fn at(line: &'t [u8]) -> Part<'t, Item<'t>> {
        let body = after(line, is_indentation);
        let indented = body.len() < line.len();
        let (bullet, rest) = bullet(body, indented)?;
        let (counter, rest) = optional(counter_set, after(rest, is_blank));
        let (check_box, rest) = optional(check_box, rest);
        let item = Item {
            bullet,
            counter,
            check_box,
        };
        Some((item, rest))
    }
}

fn bullet(body: &[u8], indented: bool) -> Part<'_, &[u8]> {
    let length = match body.first()? {
        b'-' | b'+' => 1,
        b'*' if indented => 1,
        _ => numbered_length(body)?,
    };
    ended(body.split_at(length))
}

/// How long a number or one letter with `.` or `)` is.
fn numbered_length(body: &[u8]) -> Option<usize> {
    let (counter, rest) = counter(body)?;
    matches!(rest.first()?, b'.' | b')').then_some(counter.len() + 1)
}

fn counter_set(bytes: &[u8]) -> Part<'_, &[u8]> {
    let (counter, rest) = counter(bytes.strip_prefix(b"[@")?)?;
    ended((counter, rest.strip_prefix(b"]")?))
}

fn check_box(bytes: &[u8]) -> Part<'_, CheckBox> {
    let [b'[', state, b']', rest @ ..] = bytes else {
        return None;
    };
    let check_box = match state {
        b'X' | b'x' => CheckBox::Done,
        b'-' => CheckBox::Partial,
        blank if is_blank(blank) => CheckBox::Blank,
        _ => return None,
    };
    ended((check_box, rest))
}

/// A number or one letter.
fn counter(bytes: &[u8]) -> Part<'_, &[u8]> {
    let rest = match bytes.first()? {
        letter if letter.is_ascii_alphabetic() => &bytes[1..],
        _ => after(bytes, u8::is_ascii_digit),
    };
    let length = bytes.len() - rest.len();
    (length > 0).then(|| bytes.split_at(length))
}

/// A part that may stand here and the blank bytes after it.
fn optional<'t, T>(part: fn(&'t [u8]) -> Part<'t, T>, bytes: &'t [u8]) -> (Option<T>, &'t [u8]) {
    match part(bytes) {
        Some((part, rest)) => (Some(part), after(rest, is_blank)),
        None => (None, bytes),
    }
}

/// A part, if a blank byte or the line's end follows it.
fn ended<'t, T>((part, rest): (T, &'t [u8])) -> Part<'t, T> {
    let ended = |byte| is_blank(byte) || *byte == b'\n';
    rest.first().is_none_or(ended).then_some((part, rest))
}

/// What is left after the leading bytes that this holds of.
fn after(bytes: &[u8], holds: fn(&u8) -> bool) -> &[u8] {
    let other = bytes.iter().position(|byte| !holds(byte));
    &bytes[other.unwrap_or(bytes.len())..]
}

fn is_indentation(byte: &u8) -> bool {
    matches!(byte, b' ' | b'\t')
}

fn is_blank(byte: &u8) -> bool {
    matches!(byte, b' ' | b'\t' | b'\r')
}

#[cfg(test)]
mod tests {
    use std::ops::Range;

    use super::*;

    /// Checks the bullet of a line, and that the rest is its text.
    #[track_caller]
    fn check_bullet(line: &str, bullet: &str, text: &str) {
        let item = Item {
            bullet: bullet.as_bytes(),
            counter: None,
            check_box: None,
        };
        assert_eq!(Item::at(line.as_bytes()), Some((item, text.as_bytes())));
    }

    /// Checks the counter set, the check box and the text of a line.
    #[track_caller]
    fn check_parts(line: &str, counter: Option<&str>, check_box: Option<CheckBox>, text: &str) {
        let (item, rest) = Item::at(line.as_bytes()).unwrap();
        assert_eq!(item.counter, counter.map(str::as_bytes), "{line:?}");
        assert_eq!(item.check_box, check_box, "{line:?}");
        assert_eq!(rest, text.as_bytes(), "{line:?}");
    }

    #[test]
    fn bullets() {
        check_bullet("- a\n", "-", "a\n");
        check_bullet(" \t+  a", "+", "a");
        check_bullet(" * a\n", "*", "a\n");
        check_bullet("1. a", "1.", "a");
        check_bullet("0123456789012345678901) a", "0123456789012345678901)", "a");
        check_bullet("a) b", "a)", "b");
        check_bullet("\tZ.\tb", "Z.", "b");
    }

    #[test]
    fn bullets_at_the_end_of_the_line() {
        check_bullet("-", "-", "");
        check_bullet("-\n", "-", "\n");
        check_bullet("-\r\n", "-", "\n");
        check_bullet(" *", "*", "");
        check_bullet("1.\n a", "1.", "\n a");
        check_bullet("a)", "a)", "");
    }

    #[test]
    fn other_lines_have_no_bullet() {
        let lines = [
            "", "\n", " ", "a", "-a", "--", "\r- a", "* a", "*", " ** a", "+1 a", "12 a", "12",
            "1.a", "1.) a", "ab. c", "a1. b", "1a. b", ". a", ") a", "(1) a", "a: b", "é. b",
        ];
        for line in lines {
            assert_eq!(Item::at(line.as_bytes()), None, "{line:?}");
        }
    }

    #[test]
    fn counter_sets() {
        check_parts("- [@5] a\n", Some("5"), None, "a\n");
        check_parts("1. [@0012]\ta", Some("0012"), None, "a");
        check_parts("a)  [@B]\r\n", Some("B"), None, "\n");
        check_parts("- [@5]", Some("5"), None, "");
        check_parts("- [@5]\n", Some("5"), None, "\n");
    }

    #[test]
    fn no_counter_sets() {
        for text in [
            "[@] a",
            "[@5",
            "[@5 ] a",
            "[@ 5] a",
            "[@ab] a",
            "[@5a] a",
            "[@-] a",
            "[5] a",
            "@5 a",
            "[@5]a",
            "[@5]. a",
            "[@5][ ] a",
            "x [@5]",
        ] {
            check_parts(&format!("- {text}"), None, None, text);
        }
    }

    #[test]
    fn check_boxes() {
        use CheckBox::{Blank, Done, Partial};
        check_parts("- [ ] a\n", None, Some(Blank), "a\n");
        check_parts("- [\t] a", None, Some(Blank), "a");
        check_parts("- [\r] a", None, Some(Blank), "a");
        check_parts("1) [X] a", None, Some(Done), "a");
        check_parts("+\t[x]\ra", None, Some(Done), "a");
        check_parts("- [-]  a", None, Some(Partial), "a");
        check_parts("- [ ]", None, Some(Blank), "");
        check_parts("- [X]\n", None, Some(Done), "\n");
    }

    #[test]
    fn no_check_boxes() {
        for text in [
            "[] a", "[  ] a", "[y] a", "[XX] a", "[X a", "X] a", "[\n] a", "[X]a", "[ ]: a",
            "[-][ ] a", "a [X]",
        ] {
            check_parts(&format!("- {text}"), None, None, text);
        }
    }

    #[test]
    fn the_counter_set_comes_first() {
        use CheckBox::{Blank, Done};
        check_parts("- [@3] [X]  a", Some("3"), Some(Done), "a");
        check_parts("- [@b]\t[ ]\n", Some("b"), Some(Blank), "\n");
        check_parts("- [X] [@3] a", None, Some(Done), "[@3] a");
        check_parts("- [@3] [@4] [X] a", Some("3"), None, "[@4] [X] a");
        check_parts("- [ ] [X] a", None, Some(Blank), "[X] a");
        check_parts("- [@3]\n[X]", Some("3"), None, "\n[X]");
    }

    #[test]
    fn check_boxes_are_displayed_as_org_writes_them() {
        use CheckBox::{Blank, Done, Partial};
        let displayed = [Blank, Partial, Done].map(|check_box| check_box.to_string());
        assert_eq!(displayed, ["[ ]", "[-]", "[X]"]);
    }

    /// An item record whose text starts at this byte.
    fn record(span: Range<usize>, text: usize) -> Record {
        Record {
            kind: Kind::Item,
            inner: text..span.end,
            span,
            parent: 0,
            detail: 0,
            line: 0,
        }
    }

    #[test]
    fn an_item_of_a_record() {
        let text = b"- a\n - [X] b\n";
        let item = Item {
            bullet: b"-",
            counter: None,
            check_box: Some(CheckBox::Done),
        };
        assert_eq!(record(4..13, 11).item(text), Some(item));
        let paragraph = Record {
            kind: Kind::Paragraph,
            ..record(4..13, 11)
        };
        assert_eq!(paragraph.item(text), None);
    }

    /// Records of other texts: the answer means nothing, but there is one.
    #[test]
    fn records_of_other_texts() {
        let other = record(4..13, 11);
        for text in [
            &b""[..],
            b"- a\n - [X]",
            b"no item in it",
            b"- a\n - x [ ] b",
        ] {
            assert_eq!(other.item(text), None);
        }
        assert_eq!(record(9..12, 5).item(b"no item in it"), None);
        assert_eq!(record(0..usize::MAX, usize::MAX).item(b"- a"), None);
    }
}
