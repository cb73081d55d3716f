//! A card's blocks as a picture: a square each, in its owner's colour, and the owners below.

use crate::map::{Block, Map, Owner};
use crate::names::counted;

const SIDE: usize = 16;
const ROW: usize = 64;
const LINE: usize = 20;
const EDGE: usize = 16;

pub fn picture(map: &Map, card: &str) -> String {
    let owners: Vec<Owner> = [Owner::Table, Owner::Root, Owner::Free]
        .into_iter()
        .chain((0..map.lists.len()).map(Owner::List))
        .collect();
    let rows = map.blocks.len().div_ceil(ROW);
    let legend = EDGE + LINE + rows * SIDE + LINE;
    let width = 2 * EDGE + (ROW.min(map.blocks.len()) * SIDE).max(640);
    let height = legend + owners.len() * LINE + EDGE;
    let mut out = format!(
        "<svg xmlns=\"http://www.w3.org/2000/svg\" width=\"{width}\" height=\"{height}\" font-family=\"sans-serif\" font-size=\"13\">\n\
         <rect width=\"100%\" height=\"100%\" fill=\"white\"/>\n"
    );
    let shape = map.shape;
    let title = format!(
        "{card}: {} of {} bytes",
        counted(shape.count(), "block"),
        shape.block_size()
    );
    out.push_str(&text(EDGE, EDGE + 4, &title));
    for (number, block) in map.blocks.iter().enumerate() {
        let (x, y) = (EDGE + number % ROW * SIDE, EDGE + LINE + number / ROW * SIDE);
        let who = format!("block {number}: {}", name(map, *block));
        out.push_str(&square(x, y, *block, &who));
    }
    for (i, owner) in owners.into_iter().enumerate() {
        let y = legend + i * LINE;
        let redirector = false;
        out.push_str(&square(EDGE, y, Block { owner, redirector }, ""));
        out.push_str(&text(EDGE + SIDE + 8, y + 12, &map.legend(owner, " (with a dot)")));
    }
    out + "</svg>\n"
}

fn name(map: &Map, block: Block) -> String {
    let who = match block.owner {
        Owner::Free => "free".into(),
        Owner::Table => "the table of lists".into(),
        Owner::Root => "the names".into(),
        Owner::List(i) => crate::names::shown(&map.lists[i].0),
    };
    match block.redirector {
        true => format!("{who}, to find its blocks by"),
        false => who,
    }
}

fn square(x: usize, y: usize, block: Block, who: &str) -> String {
    let side = SIDE - 2;
    let title = if who.is_empty() {
        String::new()
    } else {
        format!("<title>{}</title>", safe(who))
    };
    let mut out = format!(
        "<rect x=\"{x}\" y=\"{y}\" width=\"{side}\" height=\"{side}\" fill=\"{}\" stroke=\"#555\" stroke-width=\"0.5\">{title}</rect>\n",
        colour(block.owner)
    );
    if block.redirector {
        let (x, y) = (x + side / 2, y + side / 2);
        out.push_str(&format!(
            "<circle cx=\"{x}\" cy=\"{y}\" r=\"3\" fill=\"white\" stroke=\"black\"/>\n"
        ));
    }
    out
}

fn text(x: usize, y: usize, words: &str) -> String {
    format!("<text x=\"{x}\" y=\"{y}\">{}</text>\n", safe(words))
}

/// Neighbours in the directory get colours far apart: each turns the wheel by 137 degrees more.
fn colour(owner: Owner) -> String {
    match owner {
        Owner::Free => "white".into(),
        Owner::Table => "#333".into(),
        Owner::Root => "#999".into(),
        Owner::List(i) => format!("hsl({}, {}%, 62%)", i * 137 % 360, 85 - i / 12 * 2 % 40),
    }
}

fn safe(words: &str) -> String {
    words
        .replace('&', "&amp;")
        .replace('<', "&lt;")
        .replace('>', "&gt;")
        .replace('"', "&quot;")
}
