use crate::ffi::{self, number};
use crate::{IntakeRefusal, LogRefusal, Order, TEXT_LIMIT};

/// A book that orders are taken into, in a buffer of its own or a lent one: the text
/// stands at the buffer's front, and so many bytes of it are in use.
///
/// An order is written as its sheet after the text, on a line of its own. Each request is
/// taken in once: where a heading of the book has the order's `REQUEST` already, the order
/// is refused as [`Seen`](IntakeRefusal::Seen). After any run of calls on one book, with no
/// other writer between, a lookup of `REQUEST` finds each value that was taken in at one
/// heading only, a lookup of `VIN` there gives that order's, and every heading that the
/// book had before looks up every key as before.
///
/// What is not looked up is not seen. Where a lookup of `REQUEST` is refused, as in a
/// drawer below a blank line, a request that stands there does not stop a second order
/// with it.
///
/// ```
/// use comaltzex::{property, Book, IntakeRefusal, Order};
///
/// let mut order = Order::new(b"stage 1 map")?;
/// order.add(b"REQUEST", b"4711-a")?.add(b"VIN", b"YV1242449G1380060")?;
///
/// let mut book = Book::from_text(b"#+TITLE: Orders".to_vec());
/// book.intake(&order)?;
/// let wanted = "#+TITLE: Orders\n\
///     * stage 1 map\n:PROPERTIES:\n:REQUEST: 4711-a\n:VIN: YV1242449G1380060\n:END:\n";
/// assert_eq!(book.text(), wanted.as_bytes());
/// assert_eq!(property(book.text(), 16, b"REQUEST"), Ok(&b"4711-a"[..]));
///
/// // a double click
/// assert_eq!(book.intake(&order), Err(IntakeRefusal::Seen));
/// assert_eq!(book.text(), wanted.as_bytes());
/// # Ok::<(), Box<dyn std::error::Error>>(())
/// ```
#[derive(Clone, Debug)]
pub struct Book<B> {
    buffer: B,
    used: usize,
}

impl Book<Vec<u8>> {
    /// The book that has this text, with room for the longest that there can be: no order is
    /// refused with [`ShortBuffer`](IntakeRefusal::ShortBuffer).
    pub fn from_text(mut text: Vec<u8>) -> Book<Vec<u8>> {
        let used = text.len();
        text.resize(used.max(TEXT_LIMIT), 0);
        Book::new(text, used)
    }
}

impl<B: AsRef<[u8]> + AsMut<[u8]>> Book<B> {
    /// The book whose text is the first `used` bytes of the buffer. If these are more than
    /// there are, or than [`TEXT_LIMIT`], every good order is refused with
    /// [`BadUsed`](IntakeRefusal::BadUsed).
    ///
    /// ```
    /// use comaltzex::{Book, IntakeRefusal, Order};
    ///
    /// let mut order = Order::new(b"A")?;
    /// order.add(b"REQUEST", b"r1")?.add(b"VIN", b"7")?;
    ///
    /// let mut lent = *b"x\n................................................";
    /// let mut book = Book::new(&mut lent[..], 2);
    /// assert_eq!(book.intake(&order), Ok(46));
    /// assert_eq!(&lent, b"x\n* A\n:PROPERTIES:\n:REQUEST: r1\n:VIN: 7\n:END:\n....");
    ///
    /// let mut book = Book::new(&mut lent[..45], 2);
    /// assert_eq!(book.intake(&order), Err(IntakeRefusal::ShortBuffer));
    /// # Ok::<(), comaltzex::OrderError>(())
    /// ```
    pub fn new(buffer: B, used: usize) -> Book<B> {
        Book { buffer, used }
    }

    /// The text: the bytes in use, or the whole buffer if it has fewer.
    pub fn text(&self) -> &[u8] {
        let buffer = self.buffer.as_ref();
        buffer.get(..self.used).unwrap_or(buffer)
    }

    /// How many bytes are in use.
    pub fn used(&self) -> usize {
        self.used
    }

    /// The buffer, with the text at its front.
    pub fn into_buffer(self) -> B {
        self.buffer
    }

    /// Takes an order in, and gives the bytes in use after it. Its sheet stands last in
    /// them.
    ///
    /// # Errors
    ///
    /// The first that holds of [`MissingKey`](IntakeRefusal::MissingKey),
    /// [`BadUsed`](IntakeRefusal::BadUsed), [`Seen`](IntakeRefusal::Seen),
    /// [`TooLong`](IntakeRefusal::TooLong) and
    /// [`ShortBuffer`](IntakeRefusal::ShortBuffer). The book is then as it was.
    pub fn intake(&mut self, order: &Order) -> Result<usize, IntakeRefusal> {
        self.intake_bytes(order.to_bytes())
    }

    /// Takes in an order that is a buffer as the site sends it, the one that
    /// [`write_sheet`](crate::write_sheet()) takes.
    ///
    /// # Errors
    ///
    /// The first that holds of [`BadOrder`](IntakeRefusal::BadOrder),
    /// [`BadText`](IntakeRefusal::BadText), [`BadName`](IntakeRefusal::BadName),
    /// [`RepeatedKey`](IntakeRefusal::RepeatedKey), and those of [`intake`](Book::intake).
    /// The book is then as it was.
    pub fn intake_bytes(&mut self, order: &[u8]) -> Result<usize, IntakeRefusal> {
        let taken = ffi::intake(self.buffer.as_mut(), self.used, order);
        match taken.number {
            number::OK => {
                self.used = taken.count;
                Ok(taken.count)
            }
            number::BAD_ORDER => Err(IntakeRefusal::BadOrder),
            number::BAD_TEXT => Err(IntakeRefusal::BadText),
            number::BAD_NAME => Err(IntakeRefusal::BadName),
            number::REPEATED_KEY => Err(IntakeRefusal::RepeatedKey),
            number::MISSING_KEY => Err(IntakeRefusal::MissingKey),
            number::BAD_USED => Err(IntakeRefusal::BadUsed),
            number::SEEN => Err(IntakeRefusal::Seen),
            number::TOO_LONG => Err(IntakeRefusal::TooLong),
            number::SHORT_OUTPUT => Err(IntakeRefusal::ShortBuffer),
            other => unreachable!("an intake answers 0, 1 or 12 to 19, not {other}"),
        }
    }

    /// Takes in the orders of a log, from first to last, and gives the bytes in use after
    /// them. A log has entries as [`log_entry`] makes them, one after another. Orders that
    /// are refused, with whatever reason, are passed over; so a log that is played again
    /// changes nothing.
    ///
    /// ```
    /// use comaltzex::{Book, LogRefusal, Order};
    ///
    /// let mut order = Order::new(b"A")?;
    /// order.add(b"REQUEST", b"r1")?.add(b"VIN", b"7")?;
    /// let log = order.log_entry();
    ///
    /// let mut book = Book::from_text(Vec::new());
    /// assert_eq!(book.replay(&log), Ok(44));
    /// assert_eq!(book.replay(&log), Ok(44));
    /// assert_eq!(book.text(), order.sheet());
    ///
    /// assert_eq!(book.replay(&log[1..]), Err(LogRefusal::CutShort));
    /// # Ok::<(), comaltzex::OrderError>(())
    /// ```
    ///
    /// # Errors
    ///
    /// [`CutShort`](LogRefusal::CutShort). No order is then taken in, not even one that is
    /// whole.
    pub fn replay(&mut self, log: &[u8]) -> Result<usize, LogRefusal> {
        let taken = ffi::intake_log(self.buffer.as_mut(), self.used, log);
        match taken.number {
            number::OK => {
                self.used = taken.count;
                Ok(taken.count)
            }
            number::CUT_LOG => Err(LogRefusal::CutShort),
            other => unreachable!("a log answers 0 or 27, not {other}"),
        }
    }
}

/// An order's entry in a log that [`Book::replay`] takes: its length in four bytes, low byte
/// first, and the order. `None` if the length does not fit them.
///
/// ```
/// assert_eq!(comaltzex::log_entry(b"\x00\x00\x00").unwrap(), b"\x03\x00\x00\x00\x00\x00\x00");
/// ```
pub fn log_entry(order: &[u8]) -> Option<Vec<u8>> {
    let length = u32::try_from(order.len()).ok()?;
    Some([&length.to_le_bytes(), order].concat())
}
