//! Writes what `crates/runs` must write: a line for each call of docs/CASES.md.

use std::io::Write;

fn main() -> std::io::Result<()> {
    std::io::stdout().write_all(second::runs::printed().as_bytes())
}
