use std::error::Error;
use std::fmt::{self, Display, Formatter};
use std::ops::Range;

use crate::ffi::{self, whose, Part};
use crate::lookup::answer;
use crate::LookupRefusal;

/// Whose an answer is.
#[derive(Clone, Copy, Debug, PartialEq, Eq, Hash)]
pub enum Whose {
    /// The order text's.
    Order,
    /// The defaults text's.
    Defaults,
}

impl Whose {
    /// The number of this in the C interface.
    pub fn number(self) -> u32 {
        match self {
            Whose::Order => whose::ORDER,
            Whose::Defaults => whose::DEFAULTS,
        }
    }

    /// The one of the two texts whose answer it is.
    pub fn text<'t>(self, order: &'t [u8], defaults: &'t [u8]) -> &'t [u8] {
        match self {
            Whose::Order => order,
            Whose::Defaults => defaults,
        }
    }

    fn from_ffi(number: u32) -> Whose {
        match number {
            whose::ORDER => Whose::Order,
            whose::DEFAULTS => Whose::Defaults,
            other => unreachable!("an answer is the order's, 1, or the defaults', 2, not {other}"),
        }
    }
}

/// An answer, and whose it is. Its places are in that text.
#[derive(Clone, Copy, Debug, PartialEq, Eq, Hash)]
pub struct Sourced<T> {
    /// Whose answer it is.
    pub whose: Whose,
    /// The answer: what was found, or why nothing was.
    pub answer: T,
}

impl Display for Sourced<LookupRefusal> {
    fn fmt(&self, f: &mut Formatter<'_>) -> fmt::Result {
        match (self.whose, self.answer) {
            (Whose::Order, refusal) => write!(f, "{refusal}"),
            // nobody has asked for a byte of the defaults
            (Whose::Defaults, LookupRefusal::NoHeading) => {
                f.write_str("in the defaults: there is no heading")
            }
            (Whose::Defaults, refusal) => write!(f, "in the defaults: {refusal}"),
        }
    }
}

impl Error for Sourced<LookupRefusal> {}

/// Finds where the value of a property of an order stands, or the house's default for
/// it. The order is looked up first, as by [`lookup`](crate::lookup()), at the heading
/// whose line starts at byte `at`. Only if its property drawer has no line with the
/// key are the defaults looked up, at the first heading of their text. An empty value
/// is a value, too.
///
/// `VIN` and `REQUEST`, in any case, are never taken from the defaults.
///
/// ```
/// use comaltzex::{lookup_with_defaults, LookupRefusal, Sourced, Whose};
///
/// let order = b"* A\n:PROPERTIES:\n:VIN: 7\n:FUEL: E85\n:END:\n";
/// let defaults = b"* House\n:PROPERTIES:\n:FUEL: 98\n:BOOST: 2\n:END:\n";
///
/// let fuel = lookup_with_defaults(order, 0, defaults, b"FUEL")?;
/// assert_eq!(fuel, Sourced { whose: Whose::Order, answer: 32..35 });
/// assert_eq!(&order[fuel.answer], b"E85");
///
/// let boost = lookup_with_defaults(order, 0, defaults, b"BOOST")?;
/// assert_eq!(boost, Sourced { whose: Whose::Defaults, answer: 39..40 });
/// assert_eq!(&defaults[boost.answer], b"2");
///
/// let request = lookup_with_defaults(order, 0, defaults, b"REQUEST").unwrap_err();
/// assert_eq!(request, Sourced { whose: Whose::Order, answer: LookupRefusal::NoKey });
/// # Ok::<(), Sourced<LookupRefusal>>(())
/// ```
///
/// # Errors
///
/// The order's refusal, in the turn of [`lookup`](crate::lookup()); but instead of its
/// [`NoKey`](LookupRefusal::NoKey) the defaults', if these have no value either and the
/// key is not one of those two. Of the defaults' the first that holds:
/// [`TooLong`](LookupRefusal::TooLong); [`NoHeading`](LookupRefusal::NoHeading) if no
/// line of their text is a heading line; then as for the order. They never refuse with
/// [`BadKey`](LookupRefusal::BadKey). The start and line of the defaults'
/// [`NotProperty`](LookupRefusal::NotProperty) are those in their text.
pub fn lookup_with_defaults(
    order: &[u8],
    at: usize,
    defaults: &[u8],
    key: &[u8],
) -> Result<Sourced<Range<usize>>, Sourced<LookupRefusal>> {
    let sourced = ffi::lookup_with_defaults(order, at, defaults, key);
    let whose = Whose::from_ffi(sourced.whose);
    let part = Part {
        number: sourced.number,
        start: sourced.start,
        end: sourced.end,
        further: sourced.further,
    };
    match answer(whose.text(order, defaults), part) {
        Ok(answer) => Ok(Sourced { whose, answer }),
        Err(answer) => Err(Sourced { whose, answer }),
    }
}

/// The value that [`lookup_with_defaults`] finds, itself.
///
/// ```
/// use comaltzex::{property_or_default, Whose};
///
/// let order = b"* A\n:PROPERTIES:\n:VIN: 7\n:END:\n";
/// let defaults = b"* House\n:PROPERTIES:\n:FUEL: 98\n:END:\n";
///
/// let fuel = property_or_default(order, 0, defaults, b"FUEL")?;
/// assert_eq!((fuel.whose, fuel.answer), (Whose::Defaults, &b"98"[..]));
///
/// let refusal = property_or_default(order, 0, defaults, b"BOOST").unwrap_err();
/// assert_eq!(
///     refusal.to_string(),
///     "in the defaults: this heading's property drawer has no line with this key"
/// );
/// # Ok::<(), comaltzex::Sourced<comaltzex::LookupRefusal>>(())
/// ```
///
/// # Errors
///
/// As for [`lookup_with_defaults`], in the same turn.
pub fn property_or_default<'t>(
    order: &'t [u8],
    at: usize,
    defaults: &'t [u8],
    key: &[u8],
) -> Result<Sourced<&'t [u8]>, Sourced<LookupRefusal>> {
    let Sourced { whose, answer } = lookup_with_defaults(order, at, defaults, key)?;
    Ok(Sourced {
        whose,
        answer: &whose.text(order, defaults)[answer],
    })
}
