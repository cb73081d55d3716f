//! Writes a card to standard output: `card S BLOCKS STREAMS LENGTH` has blocks of 2^S bytes and so many streams, with names
//! of LENGTH bytes and 100 bytes in each.

use std::io::Write;

fn main() {
    let numbers: Vec<u64> = std::env::args()
        .skip(1)
        .map(|word| word.parse().expect("four numbers: S BLOCKS STREAMS LENGTH"))
        .collect();
    let &[s, blocks, streams, length] = numbers.as_slice() else {
        panic!("four numbers: S BLOCKS STREAMS LENGTH");
    };
    let card = second::generator::filled(s, blocks as usize, streams as usize, length as usize);
    std::io::stdout()
        .write_all(&card)
        .expect("standard output takes the card");
}
