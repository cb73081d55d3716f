//! Files: read whole up to a limit, and replaced whole: a temporary file beside it, synced and renamed.

use crate::failure::Failure;
use crate::names;
use crate::progress::Progress;
use crate::turn::Turn;
use std::fs::{self, File, Metadata, OpenOptions};
use std::io::{self, Read, Write};
use std::os::unix::fs::{fchown, MetadataExt, OpenOptionsExt};
use std::path::{Path, PathBuf};

const CHUNK: usize = 1 << 18;

/// An error of the system in words for a person.
pub fn why(error: &io::Error) -> String {
    let known = match error.raw_os_error() {
        Some(2) => "there is no such file or folder",
        Some(1 | 13) => "you have no permission for that",
        Some(17) => "it is there already",
        Some(20) => "a part of its path is not a folder",
        Some(21) => "it is a folder",
        Some(27) => "a file may not become so large here",
        Some(28) => "the disk is full",
        Some(30) => "the disk is read-only",
        Some(32) => "whoever read it has closed it",
        Some(36) => "the file's name is too long",
        Some(122) => "your share of the disk is used up",
        _ => return error.to_string(),
    };
    known.into()
}

/// Reads at most so many bytes; `total` is what is expected, 0 if that is not known.
pub fn read_up_to(
    source: &mut dyn Read,
    most: usize,
    total: u64,
    progress: &Progress,
    what: &str,
) -> io::Result<Vec<u8>> {
    progress.stage(format!("reading {what}"), total.min(most as u64));
    let mut bytes = Vec::with_capacity(total.min(most as u64) as usize);
    let mut chunk = vec![0; CHUNK];
    loop {
        let wanted = CHUNK.min(most - bytes.len());
        match source.read(&mut chunk[..wanted]) {
            Ok(0) => return Ok(bytes),
            Ok(count) => {
                bytes.extend_from_slice(&chunk[..count]);
                progress.advance(count);
            }
            Err(error) if error.kind() == io::ErrorKind::Interrupted => (),
            Err(error) => return Err(error),
        }
    }
}

/// The file behind a path's links, or a path in a folder that is there.
pub fn behind_links(path: &Path) -> io::Result<PathBuf> {
    match (fs::canonicalize(path), path.file_name()) {
        (Err(error), Some(name)) if error.kind() == io::ErrorKind::NotFound && fs::symlink_metadata(path).is_err() => {
            Ok(fs::canonicalize(folder_of(path))?.join(name))
        }
        (found, _) => found,
    }
}

pub fn folder_of(path: &Path) -> &Path {
    match path.parent() {
        Some(folder) if !folder.as_os_str().is_empty() => folder,
        _ => Path::new("."),
    }
}

/// Makes a file's bytes these, all at once: until the rename the old file stands as it was, and stays if anything fails.
/// `last_look` is asked right before the rename, and nobody else who makes that file's bytes by this function is
/// between the two. `shown` is the path as it was given.
pub fn put_whole(
    path: &Path,
    shown: &Path,
    bytes: &[u8],
    old: Option<&Metadata>,
    progress: &Progress,
    last_look: &dyn Fn() -> Result<(), Failure>,
) -> Result<(), Failure> {
    let unwritten = |error| not_written(shown, &error);
    let (temporary, file) = beside(path, old.is_some()).map_err(unwritten)?;
    let renamed = fill(&file, bytes, old, progress, &names::path(shown))
        .and_then(|()| Turn::at(path))
        .map_err(unwritten)
        .and_then(|turn| {
            last_look()?;
            fs::rename(&temporary, path).map_err(unwritten)?;
            drop(turn);
            Ok(())
        });
    if renamed.is_err() {
        let _ = fs::remove_file(&temporary);
    }
    renamed?;
    drop(file);
    sync_folder(path, shown)
}

/// A new file in the same folder. One that a killed program has left behind is passed over.
fn beside(path: &Path, private: bool) -> io::Result<(PathBuf, File)> {
    let mut options = OpenOptions::new();
    options
        .write(true)
        .create_new(true)
        .mode(if private { 0o600 } else { 0o666 });
    let mut number = std::process::id();
    loop {
        let temporary = folder_of(path).join(format!(".lamporchid-{number}"));
        match options.open(&temporary) {
            Err(error) if error.kind() == io::ErrorKind::AlreadyExists => number += 1,
            opened => return opened.map(|file| (temporary, file)),
        }
    }
}

fn fill(mut file: &File, bytes: &[u8], old: Option<&Metadata>, progress: &Progress, what: &str) -> io::Result<()> {
    progress.stage(format!("writing {what}"), bytes.len() as u64);
    for chunk in bytes.chunks(CHUNK) {
        file.write_all(chunk)?;
        progress.advance(chunk.len());
    }
    if let Some(old) = old {
        // Only root may give a file away; for anyone else the new file is their own.
        let _ = fchown(file, Some(old.uid()), Some(old.gid()));
        file.set_permissions(old.permissions())?;
    }
    progress.stage(format!("waiting until the disk has {what}"), 0);
    file.sync_all()
}

/// The rename itself outlives a power cut once the folder is synced. Some systems know no such thing (22, 95).
fn sync_folder(path: &Path, shown: &Path) -> Result<(), Failure> {
    match File::open(folder_of(path)).and_then(|folder| folder.sync_all()) {
        Err(error) if !matches!(error.raw_os_error(), Some(13 | 22 | 95)) => Err(Failure::file(
            format!(
                "{} was written, but its folder was not synced: {}",
                names::path(shown),
                why(&error)
            ),
            "look at it with 'lamporchid check' before you take the disk out",
        )),
        _ => Ok(()),
    }
}

/// What is said where a file was not written.
pub fn not_written(path: &Path, error: &io::Error) -> Failure {
    let next = match error.raw_os_error() {
        Some(28 | 122) => {
            "nothing was changed; make room on the disk: a new file needs its whole size beside the old one"
        }
        Some(1 | 13) => "nothing was changed; the file and its folder must be yours to write",
        Some(30) => "nothing was changed; copy the file to a disk that can be written",
        _ => "nothing was changed",
    };
    Failure::file(format!("cannot write {}: {}", names::path(path), why(error)), next)
}

/// What is said where a file was not read.
pub fn not_read(path: &Path, error: &io::Error) -> Failure {
    let next = match error.raw_os_error() {
        Some(2 | 20) => "nothing was changed; look at how the path is spelt",
        Some(1 | 13) => "nothing was changed; ask its owner for leave to read it",
        _ => "nothing was changed",
    };
    Failure::file(format!("cannot read {}: {}", names::path(path), why(error)), next)
}
