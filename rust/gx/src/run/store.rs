//! Files that are written: each whole or not at all, and none of those that are read.

use std::ffi::OsString;
use std::fs::{self, OpenOptions};
use std::io::{self, Write};
use std::os::unix::fs::MetadataExt;
use std::path::{Path, PathBuf};
use std::sync::atomic::{AtomicUsize, Ordering};

use crate::input::{unreadable, why};
use crate::trouble::Trouble;

/// A file by the number of its device and its own number there: two names of one file have the same.
pub(super) type Identity = (u64, u64);

/// The identity of a file that is there.
pub(super) fn identity(path: &Path) -> Option<Identity> {
    let path = match path.as_os_str() == "-" {
        true => Path::new("/dev/stdin"),
        false => path,
    };
    let file = fs::metadata(path).ok().filter(fs::Metadata::is_file)?;
    Some((file.dev(), file.ino()))
}

/// The file of this name with an ending more.
pub(super) fn with_ending(file: &Path, ending: &str) -> PathBuf {
    let mut name = file.as_os_str().to_os_string();
    name.push(ending);
    name.into()
}

/// Where a file stands, also one that is not there: its folder, as the system names it, and its name in it.
pub(super) fn place(path: &Path) -> Option<(PathBuf, OsString)> {
    let folder = path
        .parent()
        .filter(|folder| !folder.as_os_str().is_empty());
    let folder = fs::canonicalize(folder.unwrap_or(Path::new("."))).ok()?;
    Some((folder, path.file_name()?.into()))
}

/// Writes a file.
pub(super) fn store(path: &Path, bytes: &[u8]) -> Result<(), Trouble> {
    write(path, bytes).map_err(|error| match unreadable(path, &error) {
        Trouble::File { file, .. } => Trouble::Unwritten {
            file,
            why: why(&error),
        },
        other => other,
    })
}

/// Writes a file, and before it the folders that it stands in.
pub(super) fn store_in(path: &Path, bytes: &[u8]) -> Result<(), Trouble> {
    if let Some(folder) = path.parent() {
        // A folder that cannot be made shows when the file is written.
        let _ = fs::create_dir_all(folder);
    }
    store(path, bytes)
}

fn write(path: &Path, bytes: &[u8]) -> io::Result<()> {
    // What a link leads to is written, and the link stays.
    let target = fs::canonicalize(path).unwrap_or_else(|_| path.into());
    let old = fs::metadata(&target).ok();
    if old.as_ref().is_some_and(|old| !old.is_file()) {
        // A device or a pipe takes the bytes as they come.
        return fs::write(&target, bytes);
    }
    let beside = beside(&target);
    let written = write_beside(&beside, old.as_ref(), bytes);
    let written = written.and_then(|()| fs::rename(&beside, &target));
    if written.is_err() {
        let _ = fs::remove_file(&beside);
    }
    written
}

/// A name for a file in the same folder.
fn beside(target: &Path) -> PathBuf {
    static COUNT: AtomicUsize = AtomicUsize::new(0);
    let count = COUNT.fetch_add(1, Ordering::Relaxed);
    target.with_file_name(format!(".gx-{}-{count}", std::process::id()))
}

fn write_beside(beside: &Path, old: Option<&fs::Metadata>, bytes: &[u8]) -> io::Result<()> {
    let mut file = OpenOptions::new()
        .write(true)
        .create_new(true)
        .open(beside)?;
    file.write_all(bytes)?;
    if let Some(old) = old {
        file.set_permissions(old.permissions())?;
        // A disk may tell only now that it is full; the old file is still there.
        file.sync_all()?;
    }
    Ok(())
}
