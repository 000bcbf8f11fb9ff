//! Titles of headings.

use super::shown::shown;

/// The title of the heading whose line starts at this byte, for a terminal: its line after the
/// stars, without blanks at either end.
pub fn title(book: &[u8], heading: usize) -> String {
    let line = book[heading..].split(|&byte| byte == b'\n').next();
    let line = line.unwrap_or_default();
    let stars = line.iter().take_while(|&&byte| byte == b'*').count();
    shown(&line[stars..])
}

#[cfg(test)]
mod tests {
    use super::*;

    #[test]
    fn titles_of_headings() {
        let book = b"* One \r\ntext\n** \n*** *Two*\ttag\xff";
        assert_eq!(title(book, 0), "One");
        assert_eq!(title(book, 13), "(no title)");
        assert_eq!(title(book, 17), "*Two*\ttag\\xff");
    }
}
