use crate::lines::{line_end, line_of};
use crate::{planning, LookupRefusal, Planning};

impl LookupRefusal {
    /// The line that an editor should go to so that a person can mend it, counted
    /// from 0 as in [`Record::line`](crate::Record::line). The text and the heading
    /// are those of the lookup.
    ///
    /// - [`BlankFirst`](LookupRefusal::BlankFirst): the first of the blank lines.
    /// - [`NotClosed`](LookupRefusal::NotClosed): the `:PROPERTIES:` line.
    /// - [`NotProperty`](LookupRefusal::NotProperty): the line that is none.
    /// - Any other: the heading's own line; for a byte past the text, the text's
    ///   last.
    ///
    /// ```
    /// let text = b"* A\nSCHEDULED: <2026-11-16>\n\n:PROPERTIES:\n:VIN: 7\n:END:\n";
    /// let refusal = comaltzex::property(text, 0, b"VIN").unwrap_err();
    /// let line = refusal.line_to_mend(text, 0) + 1; // an editor counts from 1
    /// assert_eq!(
    ///     format!("orders.org:{line}: {refusal}"),
    ///     "orders.org:3: a blank line stands above the property drawer"
    /// );
    /// ```
    pub fn line_to_mend(self, text: &[u8], heading: usize) -> usize {
        match self {
            LookupRefusal::BlankFirst | LookupRefusal::NotClosed => {
                line_of(text, drawer_place(text, heading))
            }
            LookupRefusal::NotProperty { line, .. } => line,
            LookupRefusal::TooLong
            | LookupRefusal::NoHeading
            | LookupRefusal::NoDrawer
            | LookupRefusal::NoKey
            | LookupRefusal::BadKey => line_of(text, heading),
        }
    }
}

/// Where a heading's property drawer would start: after its line, or after its
/// planning line.
fn drawer_place(text: &[u8], heading: usize) -> usize {
    let below = line_end(text, heading);
    if has_planning_line(text, heading) {
        line_end(text, below)
    } else {
        below
    }
}

fn has_planning_line(text: &[u8], heading: usize) -> bool {
    planning(text, heading).is_ok_and(|plan| plan != Planning::default())
}
