//! Writes what `crates/cases` must write: a line for each card of docs/CASES.md.

use std::io::Write;

fn main() -> std::io::Result<()> {
    std::io::stdout().write_all(second::cases::printed().as_bytes())
}
