use std::ops::Range;

use crate::ffi;

/// What a search for a closer came to.
#[derive(Clone, Debug, PartialEq, Eq, Hash)]
pub struct CloserSearch {
    /// The closer's line, its line end included; `None` if it was not found.
    pub closer: Option<Range<usize>>,
    /// How many lines were compared further: those after the opener whose first
    /// byte that is not blank is the closer's first (`#` or `:`), up to and with
    /// the closer, else to the container's end. Without an opener it is 0.
    pub compared: usize,
}

/// Finds the closer of the block or drawer whose opener's line starts at byte
/// `at`, in a container that ends at byte `end`: a section, block or drawer, and for an
/// opener in a list the one around all its lists. The text may be of any length.
///
/// `#+begin_NAME`, with or without parameters, is closed by `#+end_NAME`, and the
/// drawer opener `:NAME:` (`:PROPERTIES:` too) by `:END:`; ASCII letters match in
/// either case. The first closer counts. A line that goes on past `end` is cut
/// there.
///
/// ```
/// let text = b"#+begin_src c\n# x\ny\n#+end_src\n";
///
/// let search = comaltzex::find_closer(text, 0, text.len());
/// assert_eq!(search.closer, Some(20..30));
/// assert_eq!(search.compared, 2); // `# x` and the closer
///
/// let search = comaltzex::find_closer(text, 0, 20);
/// assert_eq!((search.closer, search.compared), (None, 1));
/// ```
///
/// There is no closer, and nothing is compared, if no opener's line starts at
/// `at` before `end`, or if `end` is past the text.
pub fn find_closer(text: &[u8], at: usize, end: usize) -> CloserSearch {
    let answer = ffi::find_closer(text, at, end);
    CloserSearch {
        closer: (answer.found != 0).then_some(answer.start..answer.end),
        compared: answer.compared,
    }
}
