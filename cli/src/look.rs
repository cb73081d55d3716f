//! The commands that change no card: check, room, ls, get and map.

use crate::answer::Answer;
use crate::arguments::Order;
use crate::card::{self, Card};
use crate::failure::Failure;
use crate::files;
use crate::help::Flag;
use crate::json::{self, Json};
use crate::map::Map;
use crate::names::{self, counted, quoted};
use crate::progress::Progress;
use crate::svg;
use crate::words::{refused, Ask};
use lamporchid::Refusal;
use second::shape::{Shape, LIST_TRAY, S_AT};
use std::fs::{self, OpenOptions};
use std::io::Write;
use std::os::unix::ffi::OsStrExt;
use std::path::Path;

/// A card's figures, after the proved check has passed it.
pub struct Figures {
    pub shape: Shape,
    pub free: u64,
}

impl Figures {
    pub fn of(card: &Card, image: &[u8]) -> Result<Figures, Failure> {
        let no = |refusal| refused(refusal, card, Ask::Look);
        let free = lamporchid::room(image).map_err(no)? as u64;
        let shape = Shape::of(image[S_AT].into(), image.len()).ok_or_else(|| no(Refusal::Damaged(3)))?;
        Ok(Figures { shape, free })
    }

    pub fn words(&self) -> String {
        let are = if self.free == 1 { "is" } else { "are" };
        format!("{} of {} {are} free", self.free, counted(self.shape.count(), "block"))
    }

    pub fn json(&self) -> Vec<(&'static str, Json)> {
        vec![
            ("blocks", Json::Number(self.shape.count())),
            ("block_size", Json::Number(self.shape.block_size())),
            ("free", Json::Number(self.free)),
        ]
    }

    /// The most bytes that a list without bytes can take.
    fn fits(&self) -> u64 {
        let sizes = (0..=self.free).rev().map(|d| d * self.shape.block_size());
        sizes
            .into_iter()
            .find(|size| self.shape.blocks_needed(*size) <= self.free)
            .unwrap_or(0)
    }
}

/// A list as it is shown: name and size.
type Listed = (Vec<u8>, u64);

fn lists(card: &Card) -> Result<Vec<Listed>, Failure> {
    let mut out = Vec::new();
    let mut tray = [0; LIST_TRAY];
    loop {
        match lamporchid::list(&card.image, out.len(), &mut tray) {
            Ok(entry) => out.push((tray[..entry.length].to_vec(), entry.size as u64)),
            Err(Refusal::PastTheEnd) => return Ok(out),
            Err(refusal) => return Err(refused(refusal, card, Ask::Look)),
        }
    }
}

pub fn check(order: &Order, progress: &Progress) -> Result<Answer, Failure> {
    let card = Card::read(order.path(0), progress)?;
    lamporchid::check(&card.image).map_err(|no| refused(no, &card, Ask::Look))?;
    let figures = Figures::of(&card, &card.image)?;
    let lists = lists(&card)?.len() as u64;
    let size = figures.shape.block_size();
    let words = format!(
        "{} is sound: {}; {}, of {size} bytes each",
        card.name(),
        counted(lists, "list"),
        figures.words()
    );
    let mut json = vec![("lists", Json::Number(lists))];
    json.extend(figures.json());
    Ok(Answer::line(words, json))
}

pub fn room(order: &Order, progress: &Progress) -> Result<Answer, Failure> {
    let card = Card::read(order.path(0), progress)?;
    let figures = Figures::of(&card, &card.image)?;
    let fits = figures.fits();
    let mut json = figures.json();
    json.push(("fits", Json::Number(fits)));
    let words = format!("{}; an empty list can take {}", figures.words(), counted(fits, "byte"));
    Ok(Answer::line(words, json))
}

pub fn ls(order: &Order, progress: &Progress) -> Result<Answer, Failure> {
    let card = Card::read(order.path(0), progress)?;
    let figures = Figures::of(&card, &card.image)?;
    let lists = lists(&card)?;
    let mut text = String::new();
    for (name, size) in &lists {
        let name = if order.has(Flag::HexName) {
            names::hex(name)
        } else {
            names::shown(name)
        };
        text.push_str(&format!("{size:>10}  {name}\n"));
    }
    let sum: u64 = lists.iter().map(|(_, size)| size).sum();
    let count = counted(lists.len() as u64, "list");
    text.push_str(&format!("{count}, {}; {}\n", counted(sum, "byte"), figures.words()));
    let object = |(name, size): &Listed| {
        let mut fields = json::name(name);
        fields.push(("size", Json::Number(*size)));
        Json::Object(fields)
    };
    let mut json = vec![("lists", Json::List(lists.iter().map(object).collect()))];
    json.extend(figures.json());
    Ok(Answer::new(text, json))
}

/// All bytes of a list.
pub fn contents(card: &Card, name: &[u8]) -> Result<Vec<u8>, Failure> {
    let no = |refusal| refused(refusal, card, Ask::Find(name));
    let mut bytes = vec![0; lamporchid::size(&card.image, name).map_err(no)?];
    lamporchid::read(&card.image, name, 0, &mut bytes).map_err(no)?;
    Ok(bytes)
}

pub fn get(order: &Order, progress: &Progress) -> Result<Answer, Failure> {
    let name = order.name(1)?;
    let card = Card::read(order.path(0), progress)?;
    let bytes = contents(&card, &name)?;
    let mut json = json::name(&name);
    json.push(("size", Json::Number(bytes.len() as u64)));
    let Some(path) = order.file(2) else {
        if order.has(Flag::Json) {
            json.push(("contents", Json::Text(names::hex(&bytes))));
        }
        return Ok(Answer::new(bytes, json));
    };
    if card.is_at(path) {
        let words = format!("{} is the card itself", names::path(path));
        return Err(Failure::usage(words, "nothing was changed; give another file"));
    }
    hand_out(path, &bytes, order.has(Flag::Force), progress)?;
    let to = names::path(path);
    json.push(("file", Json::Text(names::shown(path.as_os_str().as_bytes()))));
    let words = format!("{} is in {to}: {}", quoted(&name), counted(bytes.len() as u64, "byte"));
    Ok(Answer::line(words, json).after_writing(&to))
}

/// A file is made whole; into a device or a pipe the bytes are written as they come.
fn hand_out(path: &Path, bytes: &[u8], force: bool, progress: &Progress) -> Result<(), Failure> {
    match fs::metadata(path) {
        Ok(seen) if !seen.is_file() && !seen.is_dir() => {
            let open = OpenOptions::new().write(true).open(path);
            open.and_then(|mut file| file.write_all(bytes))
                .map_err(|error| files::not_written(path, &error))
        }
        _ => card::make(path, bytes, force, progress),
    }
}

pub fn map(order: &Order, progress: &Progress) -> Result<Answer, Failure> {
    let card = Card::read(order.path(0), progress)?;
    lamporchid::check(&card.image).map_err(|no| refused(no, &card, Ask::Look))?;
    let map = Map::of(&card.image).ok_or_else(|| {
        let words = format!(
            "the second program cannot read {}, which the check has passed",
            card.name()
        );
        Failure::file(words, "this is a fault of the program")
    })?;
    let text = if order.has(Flag::Svg) {
        svg::picture(&map, &card.name())
    } else {
        map.text(&card.name())
    };
    Ok(Answer::new(text, map.json()))
}
