//! Texts of lists in one another.

/// So many lists in one another, or by turns a list and a block in its item.
pub fn nested_lists(depth: usize, with_blocks: bool) -> Vec<u8> {
    let is_block = |level: &usize| with_blocks && level % 2 == 1;
    let openers = (0..depth).map(|level| match is_block(&level) {
        true => format!("{}#+begin_{level}\n", " ".repeat(level)),
        false => format!("{}- a\n", " ".repeat(level)),
    });
    let closers = (0..depth).rev().filter(is_block);
    let closers = closers.map(|level| format!("#+end_{level}\n"));
    openers.chain(closers).collect::<String>().into_bytes()
}
