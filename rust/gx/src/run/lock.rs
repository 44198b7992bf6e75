//! A lock beside a file. The system frees it with the process that has it, however that ends, so a file that is left behind holds up
//! nobody.

use std::fs::{self, File, Metadata, OpenOptions, TryLockError};
use std::io;
use std::os::unix::fs::MetadataExt;
use std::path::{Path, PathBuf};
use std::sync::{Mutex, PoisonError};

use super::store::with_ending;
use crate::input::{named, unreadable};
use crate::trouble::Trouble;

/// How the file ends that is there while somebody works.
pub(super) const ENDING: &str = ".lock";

/// The lock that this process has, and its file: what ends the work at once takes it away too.
static HELD: Mutex<Option<(PathBuf, File)>> = Mutex::new(None);

/// Nobody else works at a file while this lives.
pub(super) struct Lock;

impl Drop for Lock {
    fn drop(&mut self) {
        release();
    }
}

/// Takes away the lock, if there is one. Its file goes first: whoever opened it before that finds that it is not there any more.
pub(super) fn release() {
    let held = HELD.lock().unwrap_or_else(PoisonError::into_inner).take();
    if let Some((path, _file)) = held {
        let _ = fs::remove_file(path);
    }
}

/// Keeps others away from this file.
///
/// # Errors
///
/// Somebody works at it, or the system gives no lock.
pub(super) fn lock(file: &Path) -> Result<Lock, Trouble> {
    let path = with_ending(file, ENDING);
    loop {
        match taken(&path) {
            Ok(Some(held)) => {
                *HELD.lock().unwrap_or_else(PoisonError::into_inner) = Some((path, held));
                return Ok(Lock);
            }
            // Whoever had it took the file away meanwhile.
            Ok(None) => (),
            Err(TryLockError::WouldBlock) => {
                return Err(Trouble::File {
                    file: named(file),
                    why: format!("somebody works at this desk, and has {}", named(&path)),
                })
            }
            Err(TryLockError::Error(error)) => return Err(unreadable(&path, &error)),
        }
    }
}

/// The file with its lock, where it still is the one of this name.
fn taken(path: &Path) -> Result<Option<File>, TryLockError> {
    let open = OpenOptions::new()
        .write(true)
        .create(true)
        .truncate(false)
        .open(path);
    let file = open.map_err(TryLockError::Error)?;
    file.try_lock()?;
    let identity = |of: Metadata| (of.dev(), of.ino());
    let held = file.metadata().map(identity).map_err(TryLockError::Error)?;
    match fs::metadata(path).map(identity) {
        Ok(there) if there == held => Ok(Some(file)),
        Err(error) if error.kind() != io::ErrorKind::NotFound => Err(TryLockError::Error(error)),
        _ => Ok(None),
    }
}
