use crate::ffi::{self, number};
use crate::{Record, Records, Refusal, RECORD_SIZE};

/// Reads a text into a lent table, with room for a record in every
/// [`RECORD_SIZE`] numbers. The records are written from the table's front; what
/// is past them, and the whole table on a refusal, stays as it was.
///
/// ```
/// use comaltzex::Refusal;
///
/// let mut table = [0; 3 * comaltzex::RECORD_SIZE];
/// assert_eq!(comaltzex::read(b"hi\n", &mut table)?.len(), 3);
///
/// let refusal = comaltzex::read(b"hi\n-----\n", &mut table).unwrap_err();
/// assert_eq!(refusal, Refusal::NoRoom { needed: 4 });
/// # Ok::<(), Refusal>(())
/// ```
///
/// # Errors
///
/// The first that holds of [`Refusal::TooLong`], [`Refusal::TooDeep`] and
/// [`Refusal::NoRoom`].
pub fn read<'t>(text: &[u8], table: &'t mut [u32]) -> Result<Records<'t>, Refusal> {
    let answer = ffi::read(text, table);
    match answer.number {
        number::OK => {
            let (rows, _) = table.as_chunks();
            Ok(Records::new(&rows[..answer.count]))
        }
        number::TOO_LONG => Err(Refusal::TooLong),
        number::TOO_DEEP => Err(Refusal::TooDeep),
        number::NO_ROOM => Err(Refusal::NoRoom {
            needed: answer.count,
        }),
        other => unreachable!("a reading answers 0 to 3, not {other}"),
    }
}

/// A reading in a table of its own.
#[derive(Clone, Debug, PartialEq, Eq)]
pub struct Table {
    rows: Vec<[u32; RECORD_SIZE]>,
}

impl Table {
    /// Reads a text into a table that just fits.
    ///
    /// # Errors
    ///
    /// The first that holds of [`Refusal::TooLong`] and [`Refusal::TooDeep`].
    pub fn read(text: &[u8]) -> Result<Table, Refusal> {
        let mut rows = vec![[0; RECORD_SIZE]; records_needed(text)?];
        read(text, rows.as_flattened_mut())?;
        Ok(Table { rows })
    }

    /// How many records there are: never 0, since every text has the document.
    #[allow(clippy::len_without_is_empty)]
    pub fn len(&self) -> usize {
        self.rows.len()
    }

    /// The record at an index, such as another record's `parent`; `None` from
    /// [`len`](Table::len) on.
    ///
    /// ```
    /// use comaltzex::{Kind, Table};
    ///
    /// let table = Table::read(b"hi\n")?;
    /// assert_eq!(table.len(), 3);
    ///
    /// let paragraph = table.get(2).unwrap();
    /// let parent = table.get(paragraph.parent).unwrap();
    /// assert_eq!((paragraph.kind, parent.kind), (Kind::Paragraph, Kind::Section));
    /// assert_eq!(table.get(3), None);
    /// # Ok::<(), comaltzex::Refusal>(())
    /// ```
    pub fn get(&self, index: usize) -> Option<Record> {
        self.rows.get(index).map(Record::from_row)
    }

    /// The records; the one at index 0 is the document.
    pub fn records(&self) -> Records<'_> {
        Records::new(&self.rows)
    }

    /// The table's numbers, [`RECORD_SIZE`] for each record.
    pub fn numbers(&self) -> &[u32] {
        self.rows.as_flattened()
    }
}

/// How many records a text has, asked with a table that has no room.
fn records_needed(text: &[u8]) -> Result<usize, Refusal> {
    match read(text, &mut []) {
        Ok(records) => Ok(records.len()),
        Err(Refusal::NoRoom { needed }) => Ok(needed),
        Err(refusal) => Err(refusal),
    }
}
