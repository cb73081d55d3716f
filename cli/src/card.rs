//! A card's file: read whole, and written back whole when every call was accepted.

use crate::failure::Failure;
use crate::files;
use crate::names;
use crate::progress::Progress;
use second::shape::{HEADER, MOST_BLOCKS, MOST_S};
use std::fs::{self, File, Metadata, OpenOptions};
use std::os::unix::fs::MetadataExt;
use std::path::{Path, PathBuf};

/// The bytes of the largest card's blocks: no list is longer.
pub const MOST_DATA: usize = (MOST_BLOCKS as usize) << MOST_S;

/// A card as it was read.
pub struct Card {
    path: PathBuf,
    file: PathBuf,
    seen: Metadata,
    /// Of a card that is to change: kept open, so that no other file gets its number, by which `still_as_read` knows it.
    _open: Option<File>,
    pub image: Vec<u8>,
}

impl Card {
    /// Reads a card to look at. Of a file longer than any card one byte more than the longest is read: that breaks the
    /// same rule, 2 or 3, which ask about nothing but the header and the length.
    pub fn read(path: &Path, progress: &Progress) -> Result<Card, Failure> {
        Card::read_open(path, progress).map(|(card, _)| card)
    }

    fn read_open(path: &Path, progress: &Progress) -> Result<(Card, File), Failure> {
        let wrong = |error| files::not_read(path, &error);
        let file = fs::canonicalize(path).map_err(wrong)?;
        ordinary(path, &fs::metadata(&file).map_err(wrong)?)?;
        let mut open = File::open(&file).map_err(wrong)?;
        let seen = open.metadata().map_err(wrong)?;
        let what = names::path(path);
        let image = files::read_up_to(&mut open, HEADER + MOST_DATA + 1, seen.len(), progress, &what).map_err(wrong)?;
        progress.stage(format!("at work on {what}"), 0);
        let card = Card {
            path: path.into(),
            file,
            seen,
            _open: None,
            image,
        };
        Ok((card, open))
    }

    /// Reads a card to change it, if its file may be written.
    pub fn read_to_change(path: &Path, progress: &Progress) -> Result<Card, Failure> {
        let (mut card, kept) = Card::read_open(path, progress)?;
        if card.seen.permissions().readonly() {
            let words = format!("cannot write {}: its file is marked read-only", names::path(path));
            return Err(Failure::file(
                words,
                "nothing was changed; 'chmod u+w' takes the mark away",
            ));
        }
        let open = OpenOptions::new().write(true).open(&card.file);
        open.map_err(|error| files::not_written(path, &error))?;
        card._open = Some(kept);
        Ok(card)
    }

    /// The path that was given, as text.
    pub fn name(&self) -> String {
        names::path(&self.path)
    }

    /// Whether another path leads to this card's file.
    pub fn is_at(&self, path: &Path) -> bool {
        fs::canonicalize(path).is_ok_and(|file| file == self.file)
    }

    /// Puts a new image in the place of the one that was read.
    pub fn write_back(&self, image: &[u8], progress: &Progress) -> Result<(), Failure> {
        files::put_whole(&self.file, &self.path, image, Some(&self.seen), progress, &|| {
            self.still_as_read()
        })
    }

    fn still_as_read(&self) -> Result<(), Failure> {
        let mark = |seen: &Metadata| (seen.dev(), seen.ino(), seen.len(), seen.mtime(), seen.mtime_nsec());
        match fs::metadata(&self.file) {
            Ok(now) if mark(&now) == mark(&self.seen) => Ok(()),
            Ok(_) => Err(Failure::file(
                format!("another program has changed {} meanwhile", self.name()),
                "this one has changed nothing; try again",
            )),
            Err(error) => Err(files::not_read(&self.path, &error)),
        }
    }
}

/// Makes a card's file; one that is there is replaced only by force.
pub fn make(path: &Path, image: &[u8], force: bool, progress: &Progress) -> Result<(), Failure> {
    let file = files::behind_links(path).map_err(|error| files::not_written(path, &error))?;
    let old = match fs::metadata(&file) {
        Ok(old) => {
            ordinary(path, &old)?;
            Some(old)
        }
        Err(_) => None,
    };
    let free = || match force || fs::symlink_metadata(&file).is_err() {
        true => Ok(()),
        false => Err(Failure::file(
            format!("{} is there already", names::path(path)),
            "nothing was changed; give another name, or --force, which loses all that the file holds",
        )),
    };
    free()?;
    files::put_whole(&file, path, image, old.as_ref(), progress, &free)
}

fn ordinary(path: &Path, seen: &Metadata) -> Result<(), Failure> {
    let what = match (seen.is_dir(), seen.is_file()) {
        (true, _) => "a folder",
        (_, true) => return Ok(()),
        _ => "a device or a pipe",
    };
    let words = format!("{} is {what}, and a card is an ordinary file", names::path(path));
    Err(Failure::file(
        words,
        "nothing was changed; give the path of the card's file",
    ))
}
