//! Files that are written anew.

use std::ffi::OsString;
use std::fs::{self, File, Metadata, OpenOptions};
use std::io::{self, ErrorKind, Write};
use std::os::unix::fs::{fchown, MetadataExt, OpenOptionsExt};
use std::path::{Path, PathBuf};

/// Gives a file these contents, so that a crash at any moment leaves either the old ones or the
/// new ones: they go to a new file beside it, on to the disk, and then by its name, if that may be
/// still. The permissions are those of another file, if there is one.
pub fn replace(
    path: &Path,
    contents: &[u8],
    like: Option<&Metadata>,
    may_be_still: impl FnOnce() -> io::Result<()>,
) -> io::Result<()> {
    let new = beside(path);
    let written = write(&new, contents, like)
        .and_then(|()| may_be_still())
        .and_then(|()| fs::rename(&new, path));
    if written.is_err() {
        let _ = fs::remove_file(&new); // the error that is told is the first
    }
    written?;
    // the name, too, is to be on the disk
    File::open(folder(path))?.sync_all()
}

/// Writes a new file, on to the disk. It has the other one's permissions once it is whole.
fn write(path: &Path, contents: &[u8], like: Option<&Metadata>) -> io::Result<()> {
    remove_left(path)?;
    let mode = if like.is_some() { 0o600 } else { 0o666 };
    let mut options = OpenOptions::new();
    let mut file = options.write(true).create_new(true).mode(mode).open(path)?;
    file.write_all(contents)?;
    if let Some(like) = like {
        keep_owner(&file, like);
        file.set_permissions(like.permissions())?;
    }
    file.sync_all()
}

/// Removes what a run that was interrupted has left.
fn remove_left(path: &Path) -> io::Result<()> {
    match fs::remove_file(path) {
        Err(error) if error.kind() == ErrorKind::NotFound => Ok(()),
        removed => removed,
    }
}

/// Gives the file the other's owner and group, or only its group, where the system allows that.
fn keep_owner(file: &File, like: &Metadata) {
    let _ = fchown(file, Some(like.uid()), Some(like.gid()))
        .or_else(|_| fchown(file, None, Some(like.gid())));
}

/// The new file's name: hidden, and nobody else's.
fn beside(path: &Path) -> PathBuf {
    let mut name = OsString::from(".");
    name.push(path.file_name().unwrap_or_default());
    name.push(".intake");
    path.with_file_name(name)
}

/// Where the file is; the path is a resolved one.
fn folder(path: &Path) -> &Path {
    path.parent().unwrap_or(path)
}
