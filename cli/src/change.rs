//! The commands that change a card: format, put, append, rm, truncate and cp. Each makes its calls on a copy in memory,
//! and the file is written only when all of them were accepted.

use crate::answer::Answer;
use crate::arguments::Order;
use crate::card::{self, Card, MOST_DATA};
use crate::failure::{Failure, Kind};
use crate::files;
use crate::help::Flag;
use crate::json::{self, Json};
use crate::look::{contents, Figures};
use crate::names::{self, counted, quoted};
use crate::progress::Progress;
use crate::words::{refused, Ask};
use lamporchid::Refusal;
use second::shape::{HEADER, MOST_BLOCKS, MOST_S};
use std::fs::File;
use std::io::{self, IsTerminal};
use std::path::Path;

pub fn format(order: &Order, progress: &Progress) -> Result<Answer, Failure> {
    let (blocks, size) = (order.number(Flag::Blocks), order.number(Flag::Size));
    // What no card has is cut to what no card has either, so that the store refuses it and no memory is wasted.
    let s = if size.is_power_of_two() {
        size.trailing_zeros() as usize
    } else {
        0
    };
    let (most_blocks, most_size) = (MOST_BLOCKS as usize + 1, 2usize << MOST_S);
    let at_most = |n: u64, most| usize::try_from(n).map_or(most, |n| n.min(most));
    let mut image = vec![0; HEADER + at_most(blocks, most_blocks) * at_most(size, most_size)];
    lamporchid::format(&mut image, s).map_err(|refusal| shapeless(refusal, blocks, size))?;
    card::make(order.path(0), &image, order.has(Flag::Force), progress)?;
    let at = names::path(order.path(0));
    let words = format!(
        "{at} is a new card: {} of {size} bytes, {} in all",
        counted(blocks, "block"),
        counted(image.len() as u64, "byte")
    );
    let json = vec![
        ("blocks", Json::Number(blocks)),
        ("block_size", Json::Number(size)),
        ("bytes", Json::Number(image.len() as u64)),
    ];
    Ok(Answer::line(words, json).after_writing(&at))
}

fn shapeless(refusal: Refusal, blocks: u64, size: u64) -> Failure {
    let words = format!("no card has {} of {}", counted(blocks, "block"), counted(size, "byte"));
    let next = "nothing was changed; give 1 to 4096 blocks of 64, 128, 256, 512, 1024, 2048 or 4096 bytes";
    Failure::new(Kind::Refused(refusal), words, next)
}

/// The bytes of the file that the command line names, or of standard input: no more of them than tell that no card has room.
fn input(file: Option<&Path>, progress: &Progress) -> Result<Vec<u8>, Failure> {
    let most = MOST_DATA + 1;
    let Some(path) = file else {
        if io::stdin().is_terminal() {
            eprintln!("type the list; Ctrl-D on a line of its own ends it, Ctrl-C changes nothing");
        }
        return files::read_up_to(&mut io::stdin().lock(), most, 0, progress, "standard input").map_err(|error| {
            Failure::file(
                format!("cannot read standard input: {}", files::why(&error)),
                "nothing was changed",
            )
        });
    };
    let read = File::open(path).and_then(|mut file| {
        let total = file.metadata()?.len();
        files::read_up_to(&mut file, most, total, progress, &names::path(path))
    });
    read.map_err(|error| files::not_read(path, &error))
}

/// Writes the changed card back, and tells what it holds now of a list.
fn keep(card: &Card, image: &[u8], name: &[u8], progress: &Progress) -> Result<Answer, Failure> {
    card.write_back(image, progress)?;
    let figures = Figures::of(card, image)?;
    let at = card.name();
    let mut json = json::name(name);
    let what = match lamporchid::size(image, name) {
        Ok(size) => {
            json.push(("size", Json::Number(size as u64)));
            format!("{} is on {at}: {}", quoted(name), counted(size as u64, "byte"))
        }
        Err(_) => format!("{} is no longer on {at}", quoted(name)),
    };
    json.extend(figures.json());
    Ok(Answer::line(format!("{what}; {}", figures.words()), json).after_writing(&at))
}

/// A list becomes these bytes, whether it was there or not.
fn replace(image: &mut [u8], name: &[u8], bytes: &[u8]) -> Result<(), Refusal> {
    match lamporchid::size(image, name) {
        Ok(_) => lamporchid::truncate(image, name, 0)?,
        Err(Refusal::NotKnown) => lamporchid::create(image, name)?,
        Err(refusal) => return Err(refusal),
    }
    lamporchid::write(image, name, 0, bytes).map(|_| ())
}

fn put_on(card: &Card, name: &[u8], bytes: &[u8], progress: &Progress) -> Result<Answer, Failure> {
    let mut image = card.image.clone();
    let no = |refusal| refused(refusal, card, Ask::Put(name, bytes.len() as u64));
    replace(&mut image, name, bytes).map_err(no)?;
    keep(card, &image, name, progress)
}

pub fn put(order: &Order, progress: &Progress) -> Result<Answer, Failure> {
    let name = order.name(1)?;
    let card = Card::read_to_change(order.path(0), progress)?;
    put_on(&card, &name, &input(order.file(2), progress)?, progress)
}

pub fn append(order: &Order, progress: &Progress) -> Result<Answer, Failure> {
    let name = order.name(1)?;
    let card = Card::read_to_change(order.path(0), progress)?;
    let bytes = input(order.file(2), progress)?;
    let mut image = card.image.clone();
    let no = |refusal| refused(refusal, &card, Ask::Append(&name, bytes.len() as u64));
    let end = lamporchid::size(&image, &name).map_err(no)?;
    lamporchid::write(&mut image, &name, end, &bytes).map_err(no)?;
    keep(&card, &image, &name, progress)
}

pub fn rm(order: &Order, progress: &Progress) -> Result<Answer, Failure> {
    let name = order.name(1)?;
    let card = Card::read_to_change(order.path(0), progress)?;
    let mut image = card.image.clone();
    lamporchid::delete(&mut image, &name).map_err(|no| refused(no, &card, Ask::Remove(&name)))?;
    keep(&card, &image, &name, progress)
}

pub fn truncate(order: &Order, progress: &Progress) -> Result<Answer, Failure> {
    let (name, n) = (order.name(1)?, order.bytes(2)?);
    let card = Card::read_to_change(order.path(0), progress)?;
    let mut image = card.image.clone();
    let kept = usize::try_from(n).unwrap_or(usize::MAX);
    lamporchid::truncate(&mut image, &name, kept).map_err(|no| refused(no, &card, Ask::Keep(&name, n)))?;
    keep(&card, &image, &name, progress)
}

pub fn cp(order: &Order, progress: &Progress) -> Result<Answer, Failure> {
    let name = order.name(1)?;
    let new_name = if order.words.len() > 3 {
        order.name(3)?
    } else {
        name.clone()
    };
    let from = Card::read(order.path(0), progress)?;
    let bytes = contents(&from, &name)?;
    let to = Card::read_to_change(order.path(2), progress)?;
    put_on(&to, &new_name, &bytes, progress)
}
