//! The proved code: the exports of `crates/bench`, each behind a function that meets its `requires`.

use crate::Cut;

mod archive {
    // A slice is a pointer and a length. Nothing checks these lines but the comparison of what both sides made.
    extern "C" {
        pub fn bench_clear(card: *mut u8, len: usize, at: usize, n: usize);
        pub fn bench_check(card: *const u8, len: usize) -> usize;
        pub fn bench_copy(
            dst: *mut u8,
            len: usize,
            at: usize,
            src: *const u8,
            src_len: usize,
            from: usize,
            n: usize,
        );
        pub fn bench_matches(
            card: *const u8,
            len: usize,
            at: usize,
            run: *const u8,
            run_len: usize,
        ) -> bool;
        pub fn bench_reader(
            card: *const u8,
            len: usize,
            base: usize,
            size: usize,
            b: usize,
            h: usize,
            j: usize,
        ) -> usize;
        pub fn bench_node(
            card: *const u8,
            len: usize,
            base: usize,
            size: usize,
            count: usize,
            first: usize,
            top: usize,
            e: usize,
            j: usize,
        ) -> usize;
        pub fn bench_enough(
            card: *const u8,
            len: usize,
            base: usize,
            size: usize,
            count: usize,
            first: usize,
            n: usize,
        ) -> bool;
        pub fn bench_take_block(
            card: *mut u8,
            len: usize,
            base: usize,
            size: usize,
            count: usize,
            first: usize,
        ) -> usize;
        pub fn bench_grow(
            card: *mut u8,
            len: usize,
            base: usize,
            size: usize,
            count: usize,
            first: usize,
            top: usize,
            d: usize,
            m: usize,
        ) -> usize;
        pub fn bench_gather(
            card: *const u8,
            len: usize,
            base: usize,
            size: usize,
            count: usize,
            first: usize,
            top: usize,
            bytes: usize,
            reserved: usize,
            p: usize,
            tray: *mut u8,
            tray_len: usize,
            n: usize,
        );
        pub fn bench_lay(
            card: *mut u8,
            len: usize,
            base: usize,
            size: usize,
            count: usize,
            first: usize,
            top: usize,
            h: usize,
            p: usize,
            given: *const u8,
            given_len: usize,
            n: usize,
        );
        pub fn bench_release(
            card: *mut u8,
            len: usize,
            base: usize,
            size: usize,
            count: usize,
            first: usize,
            top: usize,
            d: usize,
            d2: usize,
            marks: *mut u8,
            marks_len: usize,
        );
    }
}

// `Cut::new` has tested the shape's numbers; the card's length is what is left to test.
fn whole(card: &[u8]) {
    assert!(card.len() <= 1 << 32);
}

pub fn clear(card: &mut [u8], at: usize, n: usize) {
    unsafe { archive::bench_clear(card.as_mut_ptr(), card.len(), at, n) }
}

pub fn copy(dst: &mut [u8], at: usize, src: &[u8], from: usize, n: usize) {
    unsafe {
        archive::bench_copy(
            dst.as_mut_ptr(),
            dst.len(),
            at,
            src.as_ptr(),
            src.len(),
            from,
            n,
        )
    }
}

pub fn matches(card: &[u8], at: usize, run: &[u8]) -> bool {
    assert!(at < 1 << 32 && run.len() < 1 << 32);
    unsafe { archive::bench_matches(card.as_ptr(), card.len(), at, run.as_ptr(), run.len()) }
}

pub fn reader(card: &[u8], cut: Cut, b: usize, h: usize, j: usize) -> usize {
    whole(card);
    unsafe { archive::bench_reader(card.as_ptr(), card.len(), cut.base, cut.size, b, h, j) }
}

pub fn node(card: &[u8], cut: Cut, top: usize, e: usize, j: usize) -> usize {
    whole(card);
    let Cut {
        base,
        size,
        count,
        first,
    } = cut;
    unsafe {
        archive::bench_node(
            card.as_ptr(),
            card.len(),
            base,
            size,
            count,
            first,
            top,
            e,
            j,
        )
    }
}

pub fn enough(card: &[u8], cut: Cut, n: usize) -> bool {
    whole(card);
    let Cut {
        base,
        size,
        count,
        first,
    } = cut;
    unsafe { archive::bench_enough(card.as_ptr(), card.len(), base, size, count, first, n) }
}

pub fn take_block(card: &mut [u8], cut: Cut) -> usize {
    whole(card);
    let Cut {
        base,
        size,
        count,
        first,
    } = cut;
    unsafe { archive::bench_take_block(card.as_mut_ptr(), card.len(), base, size, count, first) }
}

pub fn grow(card: &mut [u8], cut: Cut, top: usize, d: usize, m: usize) -> usize {
    whole(card);
    assert!(d < 1 << 61 && m < 1 << 61);
    let Cut {
        base,
        size,
        count,
        first,
    } = cut;
    unsafe {
        archive::bench_grow(
            card.as_mut_ptr(),
            card.len(),
            base,
            size,
            count,
            first,
            top,
            d,
            m,
        )
    }
}

pub fn release(card: &mut [u8], cut: Cut, top: usize, d: usize, d2: usize, marks: &mut [u8]) {
    whole(card);
    assert!(d < 1 << 62 && d2 < 1 << 62 && cut.count <= marks.len());
    let Cut {
        base,
        size,
        count,
        first,
    } = cut;
    let (lent, len) = (marks.as_mut_ptr(), marks.len());
    unsafe {
        archive::bench_release(
            card.as_mut_ptr(),
            card.len(),
            base,
            size,
            count,
            first,
            top,
            d,
            d2,
            lent,
            len,
        )
    }
}

/// Bytes `p` on of a stream of `d` data blocks, all full, into the tray.
pub fn gather(card: &[u8], cut: Cut, top: usize, d: usize, p: usize, tray: &mut [u8]) {
    whole(card);
    let bytes = d * cut.size;
    unsafe {
        archive::bench_gather(
            card.as_ptr(),
            card.len(),
            cut.base,
            cut.size,
            cut.count,
            cut.first,
            top,
            bytes,
            bytes,
            p,
            tray.as_mut_ptr(),
            tray.len(),
            tray.len(),
        )
    }
}

/// The bytes go into a stream of height `h` from place `p` on.
pub fn lay(card: &mut [u8], cut: Cut, top: usize, h: usize, p: usize, given: &[u8]) {
    whole(card);
    assert!(p < 1 << 62 && given.len() < 1 << 62);
    unsafe {
        archive::bench_lay(
            card.as_mut_ptr(),
            card.len(),
            cut.base,
            cut.size,
            cut.count,
            cut.first,
            top,
            h,
            p,
            given.as_ptr(),
            given.len(),
            given.len(),
        )
    }
}

/// The lowest broken rule, 0 where there is none. It asks nothing of the bytes.
pub fn check(card: &[u8]) -> usize {
    unsafe { archive::bench_check(card.as_ptr(), card.len()) }
}
