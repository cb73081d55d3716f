//! The exports of `crates/lamporchid`. A slice is a pointer and a length; a Rust slice's pointer is
//! never null, and borrows see to it that no two of them overlap where one is written.

#[cfg(not(target_arch = "x86_64"))]
compile_error!("the archive of the proved code is for x86-64");

mod exports {
    // Nothing checks these lines but the tests.
    #[link(name = "lamporchid", kind = "static")]
    extern "C" {
        pub fn lamporchid_format(card: *mut u8, len: usize, s: usize) -> usize;
        pub fn lamporchid_check(card: *const u8, len: usize) -> usize;
        pub fn lamporchid_room(card: *const u8, len: usize) -> usize;
        pub fn lamporchid_create(
            card: *mut u8,
            len: usize,
            name: *const u8,
            name_len: usize,
        ) -> usize;
        pub fn lamporchid_size(
            card: *const u8,
            len: usize,
            name: *const u8,
            name_len: usize,
        ) -> usize;
        pub fn lamporchid_write(
            card: *mut u8,
            len: usize,
            name: *const u8,
            name_len: usize,
            place: usize,
            data: *const u8,
            data_len: usize,
        ) -> usize;
        pub fn lamporchid_read(
            card: *const u8,
            len: usize,
            name: *const u8,
            name_len: usize,
            place: usize,
            tray: *mut u8,
            tray_len: usize,
        ) -> usize;
        pub fn lamporchid_truncate(
            card: *mut u8,
            len: usize,
            name: *const u8,
            name_len: usize,
            n: usize,
        ) -> usize;
        pub fn lamporchid_delete(
            card: *mut u8,
            len: usize,
            name: *const u8,
            name_len: usize,
        ) -> usize;
        pub fn lamporchid_list(
            card: *const u8,
            len: usize,
            k: usize,
            tray: *mut u8,
            tray_len: usize,
        ) -> usize;
    }
}

pub fn format(card: &mut [u8], s: usize) -> usize {
    unsafe { exports::lamporchid_format(card.as_mut_ptr(), card.len(), s) }
}

pub fn check(card: &[u8]) -> usize {
    unsafe { exports::lamporchid_check(card.as_ptr(), card.len()) }
}

pub fn room(card: &[u8]) -> usize {
    unsafe { exports::lamporchid_room(card.as_ptr(), card.len()) }
}

pub fn create(card: &mut [u8], name: &[u8]) -> usize {
    let (bytes, len) = (card.as_mut_ptr(), card.len());
    unsafe { exports::lamporchid_create(bytes, len, name.as_ptr(), name.len()) }
}

pub fn size(card: &[u8], name: &[u8]) -> usize {
    unsafe { exports::lamporchid_size(card.as_ptr(), card.len(), name.as_ptr(), name.len()) }
}

pub fn write(card: &mut [u8], name: &[u8], place: usize, data: &[u8]) -> usize {
    unsafe {
        exports::lamporchid_write(
            card.as_mut_ptr(),
            card.len(),
            name.as_ptr(),
            name.len(),
            place,
            data.as_ptr(),
            data.len(),
        )
    }
}

pub fn read(card: &[u8], name: &[u8], place: usize, tray: &mut [u8]) -> usize {
    unsafe {
        exports::lamporchid_read(
            card.as_ptr(),
            card.len(),
            name.as_ptr(),
            name.len(),
            place,
            tray.as_mut_ptr(),
            tray.len(),
        )
    }
}

pub fn truncate(card: &mut [u8], name: &[u8], n: usize) -> usize {
    let (bytes, len) = (card.as_mut_ptr(), card.len());
    unsafe { exports::lamporchid_truncate(bytes, len, name.as_ptr(), name.len(), n) }
}

pub fn delete(card: &mut [u8], name: &[u8]) -> usize {
    let (bytes, len) = (card.as_mut_ptr(), card.len());
    unsafe { exports::lamporchid_delete(bytes, len, name.as_ptr(), name.len()) }
}

pub fn list(card: &[u8], k: usize, tray: &mut [u8]) -> usize {
    let (bytes, len) = (tray.as_mut_ptr(), tray.len());
    unsafe { exports::lamporchid_list(card.as_ptr(), card.len(), k, bytes, len) }
}
