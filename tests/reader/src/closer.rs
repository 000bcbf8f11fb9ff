//! Document 02, order 3: "the search for a block's or drawer's closer".

use crate::line::{lines_of, Line};
use crate::rules::{block_name, is_block_closer, is_drawer_opener, is_end_line};

/// Is the closer found (1, else 0), its line's two ends (0 where it is not), and how many lines were
/// compared further.
type Answer = (u32, usize, usize, usize);

const NO_OPENER: Answer = (0, 0, 0, 0);

/// Searches the closer of the opener whose line starts at byte `at`, in a container that ends at
/// byte `end`. What is past that end is not seen.
pub fn closer_search(text: &[u8], at: usize, end: usize) -> Answer {
    let lines = lines_of(text.get(..end).unwrap_or_default());
    let opener = lines.iter().position(|line| line.span.start == at);
    opener.map_or(NO_OPENER, |opener| {
        search(&lines[opener], &lines[opener + 1..])
    })
}

/// Searches the lines after an opener. "With its finding it gives how many lines it compared
/// further: exactly those so beginning after the opener, up to and with the closer, else to the
/// end."
fn search(opener: &Line, later: &[Line]) -> Answer {
    let Some(closer) = Closer::of(opener) else {
        return NO_OPENER;
    };
    match later.iter().position(|line| closer.is(line)) {
        Some(found) => {
            let line = later[found].span;
            (1, line.start, line.end, closer.compared(&later[..=found]))
        }
        None => (0, 0, 0, closer.compared(later)),
    }
}

/// What an opener is closed by.
pub enum Closer<'t> {
    OfBlock { name: &'t [u8] },
    OfDrawer,
}

impl<'t> Closer<'t> {
    pub fn of(opener: &Line<'t>) -> Option<Self> {
        match block_name(opener) {
            Some(name) => Some(Closer::OfBlock { name }),
            None => is_drawer_opener(opener).then_some(Closer::OfDrawer),
        }
    }

    pub fn is(&self, line: &Line) -> bool {
        match self {
            Closer::OfBlock { name } => is_block_closer(line, name),
            Closer::OfDrawer => is_end_line(line),
        }
    }

    /// How many of the lines are compared: "to compare a line further only when its first non-blank
    /// byte is the closer's, `#` or `:`".
    fn compared(&self, lines: &[Line]) -> usize {
        let mark = match self {
            Closer::OfBlock { .. } => b'#',
            Closer::OfDrawer => b':',
        };
        let begins = |line: &&Line| line.first_non_blank_byte() == Some(mark);
        lines.iter().filter(begins).count()
    }
}
