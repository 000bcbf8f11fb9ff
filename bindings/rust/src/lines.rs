/// The line, counted from 0, that holds this byte of the text: how many bytes 10
/// stand before it. For a byte past the text it is the text's last line.
pub(crate) fn line_of(text: &[u8], at: usize) -> usize {
    let last = text.len().saturating_sub(1);
    let before = &text[..at.min(last)];
    before.iter().filter(|&&byte| byte == b'\n').count()
}

/// The byte after the line that holds this byte; past the text, the text's end.
pub(crate) fn line_end(text: &[u8], at: usize) -> usize {
    let rest = text.get(at..).unwrap_or_default();
    let newline = rest.iter().position(|&byte| byte == b'\n');
    newline.map_or(text.len(), |distance| at + distance + 1)
}

#[cfg(test)]
mod tests {
    use super::*;

    #[test]
    fn lines_of_bytes() {
        let text = b"a\n\nb";
        let lines = [0, 1, 2, 3, 4, usize::MAX].map(|at| line_of(text, at));
        assert_eq!(lines, [0, 0, 1, 2, 2, 2]);
        assert_eq!(line_of(b"a\n", 2), 0);
        assert_eq!(line_of(b"", 0), 0);
    }

    #[test]
    fn ends_of_lines() {
        let text = b"a\n\nb";
        let ends = [0, 1, 2, 3, 4, 5, usize::MAX].map(|at| line_end(text, at));
        assert_eq!(ends, [2, 2, 3, 4, 4, 4, 4]);
        assert_eq!(line_end(b"", 0), 0);
    }
}
