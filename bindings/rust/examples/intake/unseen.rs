//! Headings whose request is not seen, since their drawer is none.

use comaltzex::{lookup, LookupRefusal, Whose};

use super::title::title;
use super::words::words;

/// A warning for each heading of a book whose drawer a lookup refuses for what a clerk can mend:
/// blank lines above it, a line in it that is no property, or no end. Each is a line that an editor
/// can jump by, with this name.
pub fn warnings(name: &[u8], book: &[u8]) -> Vec<u8> {
    let mut warnings = Vec::new();
    for start in line_starts(book) {
        let Err(refusal) = lookup(book, start, b"REQUEST") else {
            continue;
        };
        if is_of_a_drawer(refusal) {
            let line = refusal.line_to_mend(book, start) + 1; // an editor counts from 1
            let (title, why) = (title(book, start), words(book, Whose::Order, refusal));
            let text = format!(":{line}: warning: {title}  {why}; its REQUEST is not seen\n");
            warnings.extend([name, text.as_bytes()].concat());
        }
    }
    warnings
}

fn is_of_a_drawer(refusal: LookupRefusal) -> bool {
    matches!(
        refusal,
        LookupRefusal::BlankFirst | LookupRefusal::NotProperty { .. } | LookupRefusal::NotClosed
    )
}

fn line_starts(book: &[u8]) -> impl Iterator<Item = usize> + '_ {
    let after_newlines = (1..book.len()).filter(|&at| book[at - 1] == b'\n');
    [0].into_iter().chain(after_newlines)
}

#[cfg(test)]
mod tests {
    use super::*;

    #[track_caller]
    fn check(book: &str, wanted: &str) {
        let warnings = warnings(b"b.org", book.as_bytes());
        assert_eq!(String::from_utf8(warnings).unwrap(), wanted);
    }

    #[test]
    fn drawers_that_are_none() {
        let book = "#+TITLE: B\n\
            * One\n\n:PROPERTIES:\n:REQUEST: r1\n:END:\n\
            ** Two\x1b\n:PROPERTIES:\n:REQUEST: r2\n\
            * \n:PROPERTIES:\nREQUEST: r3\n:END:";
        check(
            book,
            "b.org:3: warning: One  a blank line stands above the property drawer; \
             its REQUEST is not seen\n\
             b.org:8: warning: Two\\u{1b}  the property drawer is never closed; \
             its REQUEST is not seen\n\
             b.org:12: warning: (no title)  line 12 is no property: REQUEST: r3; \
             its REQUEST is not seen\n",
        );
    }

    #[test]
    fn other_headings_are_passed_over() {
        check("", "");
        check("text\n\n:PROPERTIES:\n", "");
        let drawer = ":PROPERTIES:\n:REQUEST: r1\n:END:\n";
        check(&format!("* A\n{drawer}* B\n:PROPERTIES:\n:END:\n* C\n"), "");
        check(&format!("* A\ntext\n{drawer}"), "");
    }

    #[test]
    fn a_book_that_is_nested_too_deep() {
        let openers: String = (0..33).map(|i| format!("#+begin_{i}\n")).collect();
        let closers: String = (0..33).rev().map(|i| format!("#+end_{i}\n")).collect();
        let wanted = "b.org:68: warning: A  the property drawer is never closed; \
            its REQUEST is not seen\n";
        check(&format!("{openers}{closers}* A\n:PROPERTIES:\n"), wanted);
    }
}
