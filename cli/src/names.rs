//! Names and paths as a person reads them: what is not printable is escaped, so that a line stays a line.

use std::ffi::OsStr;
use std::os::unix::ffi::OsStrExt;
use std::path::Path;

/// The bytes as text: printable characters as they are, a backslash doubled, every other byte as `\xNN`.
pub fn shown(bytes: &[u8]) -> String {
    let mut out = String::new();
    let mut rest = bytes;
    while !rest.is_empty() {
        let good = match std::str::from_utf8(rest) {
            Ok(text) => text.len(),
            Err(error) => error.valid_up_to(),
        };
        let text = std::str::from_utf8(&rest[..good]).unwrap_or_default();
        text.chars().for_each(|c| show_char(&mut out, c));
        rest = &rest[good..];
        if let Some((&byte, after)) = rest.split_first() {
            out.push_str(&format!("\\x{byte:02x}"));
            rest = after;
        }
    }
    out
}

fn show_char(out: &mut String, c: char) {
    match c {
        '\\' => out.push_str("\\\\"),
        _ if is_printable(c) => out.push(c),
        _ => {
            let mut bytes = [0; 4];
            for byte in c.encode_utf8(&mut bytes).bytes() {
                out.push_str(&format!("\\x{byte:02x}"));
            }
        }
    }
}

/// Whether a terminal shows the character as itself; what turns the direction of writing is none of them.
fn is_printable(c: char) -> bool {
    matches!(c, '\'' | '"') || c.escape_debug().eq([c])
}

/// The bytes as text, if every character of them is printable.
pub fn text(bytes: &[u8]) -> Option<&str> {
    let text = std::str::from_utf8(bytes).ok()?;
    text.chars().all(|c| c == '\\' || is_printable(c)).then_some(text)
}

/// The bytes as pairs of hex digits.
pub fn hex(bytes: &[u8]) -> String {
    const DIGITS: &[u8; 16] = b"0123456789abcdef";
    let digit = |n: u8| char::from(DIGITS[usize::from(n)]);
    bytes.iter().flat_map(|b| [digit(b >> 4), digit(b & 15)]).collect()
}

/// The bytes that pairs of hex digits stand for, if that is what they are.
pub fn from_hex(digits: &[u8]) -> Option<Vec<u8>> {
    let value = |digit: u8| char::from(digit).to_digit(16);
    let byte = |pair: &[u8]| Some((value(pair[0])? << 4 | value(pair[1])?) as u8);
    let pairs = digits.chunks_exact(2);
    pairs.remainder().is_empty().then(|| pairs.map(byte).collect())?
}

/// A name between quotes.
pub fn quoted(name: &[u8]) -> String {
    format!("'{}'", shown(name))
}

/// A path as text; between double quotes where it could not be typed without them.
pub fn path(path: &Path) -> String {
    let text = shown(path.as_os_str().as_bytes());
    match text.is_empty() || text.contains([' ', '\'', ';', '&', '(']) {
        true => format!("\"{text}\""),
        false => text,
    }
}

/// A word of the command line between quotes.
pub fn word(word: &OsStr) -> String {
    quoted(word.as_bytes())
}

/// How many of something, in words: "1 block", "2 blocks".
pub fn counted(n: u64, one: &str) -> String {
    match n {
        1 => format!("1 {one}"),
        _ => format!("{n} {one}s"),
    }
}

#[cfg(test)]
mod tests {
    use super::*;

    #[test]
    fn what_is_not_printable_is_escaped() {
        assert_eq!(shown(b"plan b's"), "plan b's");
        assert_eq!(shown("läkare".as_bytes()), "läkare");
        assert_eq!(shown(b"a\0b\n\x1b[2J\\"), "a\\x00b\\x0a\\x1b[2J\\\\");
        assert_eq!(shown(b"\xff\xc3(\xe2\x80"), "\\xff\\xc3(\\xe2\\x80");
        assert_eq!(shown("a\u{202e}b".as_bytes()), "a\\xe2\\x80\\xaeb");
        assert_eq!((text(b"a\\b"), text(b"a\n"), text(b"\xff")), (Some("a\\b"), None, None));
    }

    #[test]
    fn hex_out_and_in_again() {
        let all: Vec<u8> = (0..=255).collect();
        assert_eq!(from_hex(hex(&all).as_bytes()), Some(all));
        assert_eq!(from_hex(b""), Some(vec![]));
        assert_eq!((from_hex(b"6"), from_hex(b"6g"), from_hex(b"+6")), (None, None, None));
    }
}
