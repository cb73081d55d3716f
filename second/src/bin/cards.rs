//! Writes the cards that the base left, and what each holds, into a folder: `cards FOLDER`.

use second::cards::{base, described};
use std::path::Path;

fn main() -> std::io::Result<()> {
    let folder = std::env::args().nth(1).expect("one word: FOLDER");
    for (name, card) in base() {
        let file = |end: &str| Path::new(&folder).join(format!("{name}.{end}"));
        std::fs::write(file("card"), &card)?;
        std::fs::write(file("txt"), described(&card))?;
    }
    Ok(())
}
