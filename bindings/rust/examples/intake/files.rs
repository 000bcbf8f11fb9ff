//! A book's file, and its log and lock beside it.

use std::error::Error;
use std::ffi::OsStr;
use std::fs::{self, File, Metadata, OpenOptions};
use std::io::{self, ErrorKind};
use std::os::unix::ffi::OsStrExt;
use std::os::unix::fs::MetadataExt;
use std::path::{Path, PathBuf};

use comaltzex::LogRefusal;

use super::ending::told;
use super::replace::replace;
use super::source::Source;

/// A log is read whole, however long it is: what is not read would be gone when it is emptied.
const NO_LIMIT: usize = usize::MAX / 2;

/// What went wrong, after the name of the file that it went wrong with.
pub type Fault = Vec<u8>;

pub struct Files {
    book: PathBuf,
    log: PathBuf,
    lock: PathBuf,
}

impl Files {
    /// Those of a book. If that is a symbolic link, they are beside the file that it leads to.
    pub fn new(book: &OsStr) -> Result<Files, Fault> {
        let book = resolved(Path::new(book)).map_err(|error| told(book.as_bytes(), &error))?;
        Ok(Files {
            log: with_suffix(&book, ".log"),
            lock: with_suffix(&book, ".lock"),
            book,
        })
    }

    /// Waits until no other process has the lock. It is held as long as the file is open, and no
    /// longer than this process lives.
    pub fn lock(&self) -> Result<File, Fault> {
        let lock = open_or_make(&self.lock).and_then(|file| file.lock().map(|()| file));
        lock.map_err(|error| of(&self.lock, &error))
    }

    /// The book, and what the system knows of its file; `None` if there is no file yet. A book that
    /// may not be written is not read: a new file would take its place all the same.
    pub fn read_book(&self, limit: usize) -> Result<Option<(Vec<u8>, Metadata)>, Fault> {
        let book = read_own(&self.book, limit);
        book.map_err(|error| of(&self.book, &error))
    }

    /// The log; without a file it is empty.
    pub fn read_log(&self) -> Result<Vec<u8>, Fault> {
        match read(&self.log, NO_LIMIT) {
            Ok(Some((log, _))) => Ok(log),
            Ok(None) => Ok(Vec::new()),
            Err(error) => Err(of(&self.log, &error)),
        }
    }

    /// Writes the book anew, unless another program, an editor perhaps, has written it since it was
    /// read. Its file was this one then.
    pub fn write_book(&self, text: &[u8], read: Option<&Metadata>) -> Result<(), Fault> {
        let may_be_still = || check_unchanged(&self.book, read);
        let written = replace(&self.book, text, read, may_be_still);
        written.map_err(|error| of(&self.book, &error))
    }

    /// Writes the log anew, with the permissions of the book.
    pub fn write_log(&self, log: &[u8], book: Option<&Metadata>) -> Result<(), Fault> {
        let written = replace(&self.log, log, book, || Ok(()));
        written.map_err(|error| of(&self.log, &error))
    }

    /// What is wrong with a log that this program has not written so.
    pub fn of_cut_log(&self, cut: LogRefusal) -> Fault {
        let words = b": no order is taken in; look into it, then set it aside";
        [&of(&self.log, &cut)[..], words].concat()
    }
}

/// The path without symbolic links. Its file need not be there, but its folder must.
fn resolved(path: &Path) -> io::Result<PathBuf> {
    match fs::canonicalize(path) {
        Err(error) if error.kind() == ErrorKind::NotFound => not_there_yet(path),
        resolved => resolved,
    }
}

fn not_there_yet(path: &Path) -> io::Result<PathBuf> {
    if fs::symlink_metadata(path).is_ok() {
        return Err(io::Error::other("the symbolic link leads to no file"));
    }
    let name = path.file_name().ok_or(ErrorKind::NotFound)?;
    let folder = match path.parent() {
        Some(folder) if folder != Path::new("") => folder,
        _ => Path::new("."),
    };
    Ok(fs::canonicalize(folder)?.join(name))
}

fn with_suffix(path: &Path, suffix: &str) -> PathBuf {
    let mut path = path.as_os_str().to_owned();
    path.push(suffix);
    path.into()
}

/// Who may only read the lock can wait for it, too.
fn open_or_make(path: &Path) -> io::Result<File> {
    match File::open(path) {
        Err(error) if error.kind() == ErrorKind::NotFound => {
            OpenOptions::new().append(true).create(true).open(path)
        }
        opened => opened,
    }
}

/// As `read`; it fails for a file that may not be written.
fn read_own(path: &Path, limit: usize) -> io::Result<Option<(Vec<u8>, Metadata)>> {
    let contents = read(path, limit)?;
    if contents.is_some() {
        OpenOptions::new().append(true).open(path)?;
    }
    Ok(contents)
}

/// A regular file's bytes; where they are more than the limit, as many as show that.
fn read(path: &Path, limit: usize) -> io::Result<Option<(Vec<u8>, Metadata)>> {
    let metadata = match fs::metadata(path) {
        Err(error) if error.kind() == ErrorKind::NotFound => return Ok(None),
        metadata => metadata?,
    };
    if !metadata.is_file() {
        return Err(io::Error::other("not a regular file"));
    }
    let contents = Source::File(path.into()).contents(limit)?;
    Ok(Some((contents, metadata)))
}

/// Fails if the file is no longer the one that it was, or as it was.
fn check_unchanged(path: &Path, before: Option<&Metadata>) -> io::Result<()> {
    let state = |file: &Metadata| (file.ino(), file.len(), file.mtime(), file.mtime_nsec());
    let now = fs::metadata(path).ok();
    if now.as_ref().map(state) == before.map(state) {
        Ok(())
    } else {
        Err(io::Error::other("another program has written it meanwhile"))
    }
}

fn of(path: &Path, error: &dyn Error) -> Fault {
    told(path.as_os_str().as_bytes(), error)
}
