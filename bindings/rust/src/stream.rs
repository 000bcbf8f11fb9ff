use std::iter::FusedIterator;
use std::ops::Range;
use std::slice;

use crate::ffi::{self, number};
use crate::{StreamRefusal, HEADING_SIZE};

/// The headings of a book that comes in pieces, while it comes.
///
/// The book may be split anywhere, in mid-line and between the stars too. Each piece gives
/// the headings whose lines it finishes, and the end gives that of a last line without a
/// line end. All together they are those of the whole book, however it is split. Nothing is
/// kept of the pieces: what a stream needs of a book does not grow with it, but for room for
/// the headings of the piece that has the most.
///
/// ```
/// use comaltzex::{HeadingStream, StreamRefusal, StreamedHeading};
///
/// let mut stream = HeadingStream::new();
/// assert_eq!(stream.push(b"#+TITLE: Orders\n*")?.len(), 0);
/// assert_eq!(stream.push(b"* stage 1")?.len(), 0);
///
/// let headings: Vec<StreamedHeading> = stream.push(b" map \n* fuel rail\n* in")?.collect();
/// let first = StreamedHeading { start: 16, stars: 2, title_len: 11 };
/// let second = StreamedHeading { start: 32, stars: 1, title_len: 9 };
/// assert_eq!(headings, [first, second]);
///
/// // what does not fit is refused, and the stream is as it was
/// assert_eq!(stream.push(&[b'x'; 65_536]).unwrap_err(), StreamRefusal::TooLong);
/// let last = StreamedHeading { start: 44, stars: 1, title_len: 2 };
/// assert_eq!(stream.finish(), Some(last));
/// # Ok::<(), StreamRefusal>(())
/// ```
#[derive(Clone, Debug, Default)]
pub struct HeadingStream {
    /// It is open.
    state: StreamState,
    /// Room for the headings of a call; what stands in it is of no use after that.
    list: Vec<[u32; HEADING_SIZE]>,
}

impl HeadingStream {
    /// The stream of a book of which nothing has come yet.
    pub fn new() -> HeadingStream {
        HeadingStream::default()
    }

    /// Takes the next piece, which may be empty, and gives the headings whose lines it
    /// finishes, in the order of the book.
    ///
    /// # Errors
    ///
    /// [`TooLong`](StreamRefusal::TooLong) if the bytes taken would be more than
    /// [`TEXT_LIMIT`](crate::TEXT_LIMIT) with this piece. None of it is then taken.
    pub fn push(&mut self, piece: &[u8]) -> Result<StreamedHeadings<'_>, StreamRefusal> {
        let mut answer = self.state.take(piece, self.list.as_flattened_mut());
        if let Err(StreamRefusal::NoRoom { needed }) = answer {
            self.list.resize(needed, [0; HEADING_SIZE]);
            answer = self.state.take(piece, self.list.as_flattened_mut());
        }
        let (state, count) = answer?;
        self.state = state;
        Ok(StreamedHeadings::new(&self.list[..count]))
    }

    /// Ends the book, and gives the heading that is its last line, if that is one and has no
    /// line end.
    pub fn finish(self) -> Option<StreamedHeading> {
        let mut list = [0; HEADING_SIZE];
        let (_, mut headings) = self
            .state
            .end(&mut list)
            .expect("the stream is open, and an end finishes one heading at most");
        headings.next()
    }

    /// The state that the pieces so far have left.
    pub fn state(&self) -> StreamState {
        self.state
    }
}

/// A book of which some pieces have come, for a caller who lends the list: nothing is
/// allocated.
///
/// It is a value of five numbers, the same size however long the book is. Its numbers may be
/// stored, and a copy goes on from where it was taken.
///
/// ```
/// use comaltzex::{StreamRefusal, StreamState, HEADING_SIZE};
///
/// let mut list = [0; HEADING_SIZE];
/// let state = StreamState::new();
/// let (state, headings) = state.piece(b"* A\n** B", &mut list)?;
/// assert_eq!(headings.len(), 1);
/// assert_eq!(list, [0, 1, 1]);
/// assert_eq!((state.total, state.line, state.stars, state.title), (8, 4, 2, 1));
///
/// let refusal = state.piece(b"\n* C\n", &mut list).unwrap_err();
/// assert_eq!(refusal, StreamRefusal::NoRoom { needed: 2 });
///
/// let (state, headings) = state.end(&mut list)?;
/// assert_eq!(headings.len(), 1);
/// assert_eq!(list, [4, 2, 1]);
/// assert_eq!(state.piece(b"", &mut list).unwrap_err(), StreamRefusal::NotOpen);
/// # Ok::<(), StreamRefusal>(())
/// ```
#[derive(Clone, Copy, Debug, PartialEq, Eq, Hash)]
pub struct StreamState {
    /// How many bytes were taken so far.
    pub total: u32,
    /// How many bytes the unfinished line has so far: 0 after a line end (byte 10).
    pub line: u32,
    /// How many stars it has, while it is a heading line, or stars alone, which may become
    /// one; else 0.
    pub stars: u32,
    /// How long its title is so far, while it is a heading line; else 0.
    pub title: u32,
    /// Whether the end was declared.
    pub ended: bool,
}

impl StreamState {
    /// The state of a book of which nothing has come yet: its numbers are 0.
    pub fn new() -> StreamState {
        StreamState::from_ffi(ffi::stream_new())
    }

    /// Takes the next piece, which may be empty, and gives the state after it and the headings
    /// whose lines it finishes. They are written from the list's front, [`HEADING_SIZE`]
    /// numbers each; what is past them, and the whole list on a refusal, stays as it was.
    ///
    /// # Errors
    ///
    /// The first that holds of [`NotOpen`](StreamRefusal::NotOpen),
    /// [`TooLong`](StreamRefusal::TooLong) and [`NoRoom`](StreamRefusal::NoRoom). The piece may
    /// be handed in again, with more room.
    pub fn piece<'l>(
        self,
        piece: &[u8],
        list: &'l mut [u32],
    ) -> Result<(StreamState, StreamedHeadings<'l>), StreamRefusal> {
        let (state, count) = self.take(piece, list)?;
        Ok((state, StreamedHeadings::at_front(list, count)))
    }

    /// Takes the end of the book as declared, and gives the state after it and the heading
    /// that is the last line, if that is one and has no line end. It is written to the list as
    /// those of a piece are.
    ///
    /// # Errors
    ///
    /// The first that holds of [`NotOpen`](StreamRefusal::NotOpen) and
    /// [`NoRoom`](StreamRefusal::NoRoom). The end is then not declared.
    pub fn end(
        self,
        list: &mut [u32],
    ) -> Result<(StreamState, StreamedHeadings<'_>), StreamRefusal> {
        let (state, count) = StreamState::answered(ffi::stream_end(self.to_ffi(), list))?;
        Ok((state, StreamedHeadings::at_front(list, count)))
    }

    /// Takes a piece, and gives the state after it and the count of headings.
    fn take(self, piece: &[u8], list: &mut [u32]) -> Result<(StreamState, usize), StreamRefusal> {
        StreamState::answered(ffi::stream_piece(self.to_ffi(), piece, list))
    }

    fn answered(answer: ffi::Streamed) -> Result<(StreamState, usize), StreamRefusal> {
        match answer.number {
            number::OK => Ok((StreamState::from_ffi(answer.state), answer.count)),
            number::NOT_OPEN => Err(StreamRefusal::NotOpen),
            number::TOO_LONG => Err(StreamRefusal::TooLong),
            number::NO_ROOM => Err(StreamRefusal::NoRoom {
                needed: answer.count,
            }),
            other => unreachable!("a piece or an end answers 0, 1, 3 or 21, not {other}"),
        }
    }

    fn from_ffi(state: ffi::Stream) -> StreamState {
        StreamState {
            total: state.total,
            line: state.line,
            stars: state.stars,
            title: state.title,
            ended: state.ended != 0,
        }
    }

    fn to_ffi(self) -> ffi::Stream {
        ffi::Stream {
            total: self.total,
            line: self.line,
            stars: self.stars,
            title: self.title,
            ended: u32::from(self.ended),
        }
    }
}

impl Default for StreamState {
    fn default() -> StreamState {
        StreamState::new()
    }
}

/// A heading of a book that comes in pieces.
#[derive(Clone, Copy, Debug, PartialEq, Eq, Hash)]
pub struct StreamedHeading {
    /// The first byte of its line, counted from the book's first.
    pub start: usize,
    /// How many stars it has.
    pub stars: usize,
    /// How long its title is, in bytes: its line after the stars and the space, without blanks
    /// and line end at its end. Blanks at its front count.
    pub title_len: usize,
}

impl StreamedHeading {
    /// Where its title stands in the book.
    ///
    /// ```
    /// let book = b"* A\n**  fuel rail \n";
    /// let mut stream = comaltzex::HeadingStream::new();
    /// let titles: Vec<&[u8]> = stream.push(book)?.map(|heading| &book[heading.title()]).collect();
    /// assert_eq!(titles, [&b"A"[..], b" fuel rail"]);
    /// # Ok::<(), comaltzex::StreamRefusal>(())
    /// ```
    pub fn title(self) -> Range<usize> {
        let start = self.start + self.stars + 1;
        start..start + self.title_len
    }

    fn from_row(row: &[u32; HEADING_SIZE]) -> StreamedHeading {
        let [start, stars, title_len] = row.map(|number| number as usize);
        StreamedHeading {
            start,
            stars,
            title_len,
        }
    }
}

/// The headings that a piece of a book or its end finishes, in the order of the book.
#[derive(Clone, Debug)]
pub struct StreamedHeadings<'l> {
    rows: slice::Iter<'l, [u32; HEADING_SIZE]>,
}

impl<'l> StreamedHeadings<'l> {
    fn new(rows: &'l [[u32; HEADING_SIZE]]) -> StreamedHeadings<'l> {
        StreamedHeadings { rows: rows.iter() }
    }

    /// So many headings at a list's front.
    fn at_front(list: &'l [u32], count: usize) -> StreamedHeadings<'l> {
        let (rows, _) = list.as_chunks();
        StreamedHeadings::new(&rows[..count])
    }
}

impl Iterator for StreamedHeadings<'_> {
    type Item = StreamedHeading;

    fn next(&mut self) -> Option<StreamedHeading> {
        self.rows.next().map(StreamedHeading::from_row)
    }

    fn nth(&mut self, n: usize) -> Option<StreamedHeading> {
        self.rows.nth(n).map(StreamedHeading::from_row)
    }

    fn size_hint(&self) -> (usize, Option<usize>) {
        self.rows.size_hint()
    }
}

impl ExactSizeIterator for StreamedHeadings<'_> {}

impl FusedIterator for StreamedHeadings<'_> {}
