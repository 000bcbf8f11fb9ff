use std::error::Error;
use std::fmt::{self, Display, Formatter};

use crate::book::log_entry;
use crate::refusal::NAME_RULE;
use crate::sheet::{bytes_needed, sheet, write_sheet};
use crate::SheetRefusal;

/// An order to be written as a sheet: a title, and pairs of a key and a value. Each is
/// judged as it is taken in, so every order has a sheet.
///
/// ```
/// use comaltzex::{property, Order};
///
/// let mut order = Order::new(b"stage 1 map for Volvo 240")?;
/// order.add(b"VIN", b"YV1242449G1380060")?.add(b"FUEL", b"")?;
///
/// let sheet = order.sheet();
/// let wanted = "* stage 1 map for Volvo 240\n\
///     :PROPERTIES:\n:VIN: YV1242449G1380060\n:FUEL:\n:END:\n";
/// assert_eq!(sheet, wanted.as_bytes());
/// assert_eq!(property(&sheet, 0, b"vin"), Ok(&b"YV1242449G1380060"[..]));
///
/// let error = order.add(b"Boost", b"1.2 bar\n").unwrap_err();
/// assert_eq!(
///     error.to_string(),
///     "the value of \"Boost\" has a line end in it, or a blank at either end"
/// );
/// assert_eq!(order.sheet(), wanted.as_bytes());
/// # Ok::<(), comaltzex::OrderError>(())
/// ```
#[derive(Clone, Debug, PartialEq, Eq, Hash)]
pub struct Order {
    /// The buffer that [`write_sheet`] takes.
    bytes: Vec<u8>,
    /// Where in it the number of pairs stands.
    count_at: usize,
}

impl Order {
    /// An order with this title, which may be empty, and no pairs.
    ///
    /// # Errors
    ///
    /// [`BadTitle`](OrderError::BadTitle) or [`LongTitle`](OrderError::LongTitle).
    pub fn new(title: &[u8]) -> Result<Order, OrderError> {
        let mut bytes = counted(title).ok_or(OrderError::LongTitle)?;
        let count_at = bytes.len();
        bytes.push(0);
        match bytes_needed(&bytes) {
            Ok(_) => Ok(Order { bytes, count_at }),
            Err(SheetRefusal::BadText) => Err(OrderError::BadTitle),
            Err(SheetRefusal::TooLong) => Err(OrderError::LongTitle),
            Err(refusal) => unreachable!("a title is refused with 13 or 1, not {refusal:?}"),
        }
    }

    /// Takes in a pair after those that it has. The value may be empty.
    ///
    /// # Errors
    ///
    /// [`TooManyPairs`](OrderError::TooManyPairs), [`BadValue`](OrderError::BadValue),
    /// [`BadKey`](OrderError::BadKey), [`RepeatedKey`](OrderError::RepeatedKey) or
    /// [`LongValue`](OrderError::LongValue). The order is then as it was.
    pub fn add(&mut self, key: &[u8], value: &[u8]) -> Result<&mut Order, OrderError> {
        let named = || key.to_vec();
        let key_length = u8::try_from(key.len());
        let key_length = key_length.map_err(|_| OrderError::BadKey { key: named() })?;
        let value = counted(value).ok_or_else(|| OrderError::LongValue { key: named() })?;
        let mut bytes = [&self.bytes, &[key_length][..], key, &value].concat();
        bytes[self.count_at] += 1;
        match bytes_needed(&bytes) {
            Ok(_) => {
                self.bytes = bytes;
                Ok(self)
            }
            Err(refusal) => Err(OrderError::of_pair(named(), refusal)),
        }
    }

    /// The order as the buffer that [`write_sheet`](crate::write_sheet()) takes.
    ///
    /// ```
    /// let mut order = comaltzex::Order::new(b"A")?;
    /// order.add(b"VIN", b"7")?;
    /// assert_eq!(order.to_bytes(), b"\x01\x00A\x01\x03VIN\x01\x007");
    /// # Ok::<(), comaltzex::OrderError>(())
    /// ```
    pub fn to_bytes(&self) -> &[u8] {
        &self.bytes
    }

    /// The order's entry in a log, as [`log_entry`](crate::log_entry()) makes it.
    pub fn log_entry(&self) -> Vec<u8> {
        log_entry(&self.bytes).expect("an order that has a sheet is short")
    }

    /// Writes the sheet into a lent output, as [`write_sheet`](crate::write_sheet())
    /// does, and gives its length.
    ///
    /// # Errors
    ///
    /// [`ShortOutput`](SheetRefusal::ShortOutput) only.
    pub fn write_sheet(&self, out: &mut [u8]) -> Result<usize, SheetRefusal> {
        write_sheet(&self.bytes, out)
    }

    /// The sheet in a vector of its own.
    pub fn sheet(&self) -> Vec<u8> {
        sheet(&self.bytes).expect("every part was judged as it was taken in")
    }
}

/// A title or value after its length in two bytes, low byte first; `None` if the length
/// does not fit them.
fn counted(text: &[u8]) -> Option<Vec<u8>> {
    let length = u16::try_from(text.len()).ok()?;
    Some([&length.to_le_bytes(), text].concat())
}

/// Why an order did not take in its title or a pair.
#[derive(Clone, Debug, PartialEq, Eq, Hash)]
#[non_exhaustive]
pub enum OrderError {
    /// The title has a line end (byte 10 or 13) in it, or a blank at either end.
    BadTitle,
    /// With this title the sheet would be longer than
    /// [`TEXT_LIMIT`](crate::TEXT_LIMIT).
    LongTitle,
    /// The value has a line end (byte 10 or 13) in it, or a blank at either end.
    BadValue {
        /// The value's key.
        key: Vec<u8>,
    },
    /// The key is empty, longer than [`KEY_LIMIT`](crate::KEY_LIMIT), holds a blank or a
    /// line end, ends in `+`, or is `END` in any case.
    BadKey {
        /// That key.
        key: Vec<u8>,
    },
    /// The order has the key already, in whatever case.
    RepeatedKey {
        /// That key, as it was given this time.
        key: Vec<u8>,
    },
    /// With this pair the sheet would be longer than [`TEXT_LIMIT`](crate::TEXT_LIMIT).
    LongValue {
        /// The pair's key.
        key: Vec<u8>,
    },
    /// The order has [`PAIR_LIMIT`](crate::PAIR_LIMIT) pairs already.
    TooManyPairs {
        /// The key of the pair that is one too many.
        key: Vec<u8>,
    },
}

impl OrderError {
    /// What a refusal says of a good order's last pair, which is the only new one.
    fn of_pair(key: Vec<u8>, refusal: SheetRefusal) -> OrderError {
        match refusal {
            SheetRefusal::BadOrder => OrderError::TooManyPairs { key },
            SheetRefusal::BadText => OrderError::BadValue { key },
            SheetRefusal::BadName => OrderError::BadKey { key },
            SheetRefusal::RepeatedKey => OrderError::RepeatedKey { key },
            SheetRefusal::TooLong => OrderError::LongValue { key },
            SheetRefusal::ShortOutput { .. } => unreachable!("the length alone was asked for"),
        }
    }
}

impl Display for OrderError {
    fn fmt(&self, f: &mut Formatter<'_>) -> fmt::Result {
        const BAD: &str = "has a line end in it, or a blank at either end";
        const LONG: &str = "makes the sheet longer than 65,536 bytes";
        match self {
            OrderError::BadTitle => write!(f, "the title {BAD}"),
            OrderError::LongTitle => write!(f, "the title {LONG}"),
            OrderError::BadValue { key } => write!(f, "the value of {} {BAD}", quoted(key)),
            OrderError::BadKey { key } => write!(f, "{} is no key: {NAME_RULE}", quoted(key)),
            OrderError::RepeatedKey { key } => write!(
                f,
                "there is a key {} already; capital and small letters count as one",
                quoted(key)
            ),
            OrderError::LongValue { key } => write!(f, "the value of {} {LONG}", quoted(key)),
            OrderError::TooManyPairs { key } => write!(
                f,
                "{} is one key too many: an order has at most 16",
                quoted(key)
            ),
        }
    }
}

impl Error for OrderError {}

/// A key in quotes, with its control characters escaped.
fn quoted(key: &[u8]) -> String {
    format!("{:?}", String::from_utf8_lossy(key))
}
