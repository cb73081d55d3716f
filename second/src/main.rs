//! A walk over one card: made, filled, listed, checked, damaged and refused, each step in words.

use second::{
    check, create, delete, format, list, read, room, size, truncate, write, Outcome, Refusal,
};

/// One line: what was asked, and what came of it.
fn say(asked: &str, outcome: &Outcome) {
    let answer = match outcome.number {
        0 => "done".to_string(),
        1 => std::format!("refused, DAMAGED (1): rule {} is broken", outcome.rule),
        n => std::format!("refused, {} ({n})", words(n)),
    };
    println!("{asked:<44} {answer}");
}

/// A refusal's words, by its number.
fn words(number: u8) -> &'static str {
    use Refusal::*;
    let all = [
        BadName,
        NotKnown,
        AlreadyKnown,
        PastTheEnd,
        StreamsFull,
        NoRoom,
        ShortTray,
        BadShape,
    ];
    let found = all.into_iter().find(|refusal| refusal.number() == number);
    found.map_or("an unlisted number", Refusal::words)
}

/// The card as its reader sees it: free blocks, names and sizes.
fn show(card: &[u8]) {
    print!("    {} free;", room(card).count);
    let mut tray = [0; 64];
    for k in 0.. {
        let entry = list(card, k, &mut tray);
        if entry.number != 0 {
            break;
        }
        let name = String::from_utf8_lossy(&tray[..entry.length as usize]);
        print!(" {name} ({} bytes)", entry.size);
    }
    println!();
}

fn main() {
    let mut card = vec![7; 343];
    say("a card of 343 bytes in blocks of 64", &format(&mut card, 6));
    show(&card);
    say("create boats", &create(&mut card, b"boats"));
    say(
        "write 65 bytes to boats",
        &write(&mut card, b"boats", 0, &[5; 65]),
    );
    say(
        "write 64 bytes to boats",
        &write(&mut card, b"boats", 0, &[5; 64]),
    );
    show(&card);
    say("create clinics", &create(&mut card, b"clinics"));
    say(
        "write one byte at 65",
        &write(&mut card, b"boats", 65, &[9]),
    );
    let mut tray = [0; 8];
    let got = read(&card, b"boats", 60, &mut tray);
    say("read 8 bytes of boats at 60", &got);
    println!("    {} bytes: {:?}", got.count, &tray[..got.count as usize]);
    say("truncate boats to 10", &truncate(&mut card, b"boats", 10));
    say("the size of boats", &size(&card, b"boats"));
    show(&card);
    say("check", &check(&card));
    let mut torn = card.clone();
    torn[27] = 1;
    say("check, with the root's block on the chain", &check(&torn));
    say("write to that card", &write(&mut torn, b"boats", 0, b"x"));
    say("delete boats", &delete(&mut card, b"boats"));
    show(&card);
}
