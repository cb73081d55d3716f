//! The turn that a command waits for between its last look at a file and its rename: a lock of its own beside that file.

use crate::files::folder_of;
use std::ffi::{OsStr, OsString};
use std::fs::{self, File, Metadata, OpenOptions, Permissions, TryLockError};
use std::io;
use std::os::unix::ffi::OsStrExt;
use std::os::unix::fs::{fchown, MetadataExt, OpenOptionsExt, PermissionsExt};
use std::path::{Path, PathBuf};
use std::thread;
use std::time::{Duration, Instant};

/// What the name of a lock begins with; the file's own name follows, as far as a name goes.
const LOCK: &str = ".lamporchid-lock-";
const LONGEST_NAME: usize = 255;
/// How long a turn is waited for, and how long a lock that may not be opened, as while another user makes it.
const WAIT: Duration = Duration::from_secs(5);
const CLOSED_WAIT: Duration = Duration::from_millis(100);
const PAUSE: Duration = Duration::from_millis(10);

/// A turn, until this is dropped, which takes the lock away.
pub struct Turn {
    file: File,
    path: PathBuf,
}

impl Turn {
    /// Waits for the turn among the commands that make a file's bytes, but not for ever. Locks on the file itself or on its folder
    /// are others' business. Where no lock is to be had there is none, and the last look is all there is. A lock ends with its
    /// program, and the file of one that a killed program has left behind is taken over.
    pub fn at(path: &Path) -> io::Result<Option<Turn>> {
        let lock = beside(path);
        let begun = Instant::now();
        while begun.elapsed() < WAIT {
            let (file, made) = match open(&lock) {
                Ok(found) => found,
                // Whoever had it took it away in between; or the folder went.
                Err(error) if error.kind() == io::ErrorKind::NotFound && folder_of(&lock).exists() => continue,
                Err(error) if error.kind() == io::ErrorKind::PermissionDenied && begun.elapsed() < CLOSED_WAIT => {
                    thread::sleep(PAUSE);
                    continue;
                }
                Err(_) => return Ok(None),
            };
            match file.try_lock() {
                Err(TryLockError::WouldBlock) => thread::sleep(PAUSE),
                Err(TryLockError::Error(_)) => {
                    if made {
                        let _ = fs::remove_file(&lock);
                    }
                    return Ok(None);
                }
                Ok(()) => {
                    let path = lock.clone();
                    let turn = Turn { file, path };
                    if turn.holds() {
                        return Ok(Some(turn));
                    }
                }
            }
        }
        Err(io::Error::other("another command has been at it for five seconds"))
    }

    /// Whether the lock is still the file that was locked: whoever had it before took it away.
    fn holds(&self) -> bool {
        let mark = |seen: Metadata| (seen.dev(), seen.ino());
        let here = self.file.metadata().map(mark).ok();
        here.is_some() && here == fs::metadata(&self.path).map(mark).ok()
    }
}

impl Drop for Turn {
    /// A file of that name that holds anything is somebody's own, and stays.
    fn drop(&mut self) {
        if self.holds() && self.file.metadata().is_ok_and(|seen| seen.len() == 0) {
            let _ = fs::remove_file(&self.path);
        }
    }
}

fn beside(path: &Path) -> PathBuf {
    let name = path.file_name().unwrap_or_default().as_bytes();
    let mut lock = OsString::from(LOCK);
    lock.push(OsStr::from_bytes(&name[..name.len().min(LONGEST_NAME - LOCK.len())]));
    folder_of(path).join(lock)
}

/// A new lock, or the ordinary file that is there; and whether it is new. Who may put files into the folder may open it.
fn open(lock: &Path) -> io::Result<(File, bool)> {
    let mut options = OpenOptions::new();
    options.read(true).write(true);
    let made = options.clone().create_new(true).mode(0o600).open(lock);
    match made {
        Err(error) if error.kind() == io::ErrorKind::AlreadyExists => match fs::symlink_metadata(lock)?.is_file() {
            true => Ok((options.open(lock)?, false)),
            false => Err(error),
        },
        Err(error) => Err(error),
        Ok(file) => {
            if let Ok(folder) = fs::metadata(folder_of(lock)) {
                let _ = share(&file, &folder);
            }
            Ok((file, true))
        }
    }
}

/// The lock becomes the folder's owner's and group's, as far as this user may give it away, and who may write the folder may open it.
fn share(lock: &File, folder: &Metadata) -> io::Result<()> {
    let _ = fchown(lock, None, Some(folder.gid()));
    let _ = fchown(lock, Some(folder.uid()), None);
    let others = [(0o020, 0o060), (0o002, 0o006)];
    let may = others.iter().filter(|(may, _)| folder.mode() & may != 0);
    let mode = may.fold(0o600, |all, (_, mode)| all | mode);
    lock.set_permissions(Permissions::from_mode(mode))
}
