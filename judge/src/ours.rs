//! The proved store: a call made by its C export, its answer the word.

use second::generator::call::Call;

mod archive {
    // A slice is a pointer and a length (include/lamporchid.h).
    extern "C" {
        pub fn lamporchid_format(card: *mut u8, len: usize, s: u64) -> u64;
        pub fn lamporchid_check(card: *const u8, len: usize) -> u64;
        pub fn lamporchid_room(card: *const u8, len: usize) -> u64;
        pub fn lamporchid_create(card: *mut u8, len: usize, name: *const u8, n: usize) -> u64;
        pub fn lamporchid_size(card: *const u8, len: usize, name: *const u8, n: usize) -> u64;
        pub fn lamporchid_write(
            card: *mut u8,
            len: usize,
            name: *const u8,
            n: usize,
            place: u64,
            data: *const u8,
            m: usize,
        ) -> u64;
        pub fn lamporchid_read(
            card: *const u8,
            len: usize,
            name: *const u8,
            n: usize,
            place: u64,
            tray: *mut u8,
            m: usize,
        ) -> u64;
        pub fn lamporchid_truncate(
            card: *mut u8,
            len: usize,
            name: *const u8,
            n: usize,
            to: u64,
        ) -> u64;
        pub fn lamporchid_delete(card: *mut u8, len: usize, name: *const u8, n: usize) -> u64;
        pub fn lamporchid_list(card: *const u8, len: usize, k: u64, tray: *mut u8, m: usize)
            -> u64;
    }
}

/// Makes the call on the card, with the tray lent to it.
pub fn run(call: &Call, card: &mut [u8], tray: &mut [u8]) -> u64 {
    use archive::*;
    let (c, len) = (card.as_mut_ptr(), card.len());
    let (t, m) = (tray.as_mut_ptr(), tray.len());
    // Card, name, data and tray are slices of their own, so that none overlaps another.
    unsafe {
        match call {
            Call::Format { s } => lamporchid_format(c, len, *s),
            Call::Check => lamporchid_check(c, len),
            Call::Room => lamporchid_room(c, len),
            Call::Create { name } => lamporchid_create(c, len, name.as_ptr(), name.len()),
            Call::Write { name, place, data } => {
                let (name, n) = (name.as_ptr(), name.len());
                lamporchid_write(c, len, name, n, *place, data.as_ptr(), data.len())
            }
            Call::Read { name, place, .. } => {
                lamporchid_read(c, len, name.as_ptr(), name.len(), *place, t, m)
            }
            Call::Truncate { name, n } => {
                lamporchid_truncate(c, len, name.as_ptr(), name.len(), *n)
            }
            Call::Delete { name } => lamporchid_delete(c, len, name.as_ptr(), name.len()),
            Call::Size { name } => lamporchid_size(c, len, name.as_ptr(), name.len()),
            Call::List { k, .. } => lamporchid_list(c, len, *k, t, m),
        }
    }
}
