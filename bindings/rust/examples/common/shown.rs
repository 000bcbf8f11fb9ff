//! A title for a terminal.

use super::printable::printable;

/// The title without blanks at either end.
pub fn shown(title: &[u8]) -> String {
    match title.trim_ascii() {
        b"" => "(no title)".into(),
        title => printable(title),
    }
}
