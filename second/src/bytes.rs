//! Little-endian numbers inside a slice of bytes.

/// "All FF" where a number has 4 bytes: the link of the last free block.
pub const NONE_4: u32 = u32::MAX;

/// "All FF" where a number has 8 bytes: no first free block, no free descriptor, a free top.
pub const NONE_8: u64 = u64::MAX;

fn array<const N: usize>(bytes: &[u8], at: usize) -> [u8; N] {
    let mut out = [0; N];
    out.copy_from_slice(&bytes[at..at + N]);
    out
}

/// The 2-byte number at `at`.
pub fn get_u16(bytes: &[u8], at: usize) -> u16 {
    u16::from_le_bytes(array(bytes, at))
}

/// The 4-byte number at `at`.
pub fn get_u32(bytes: &[u8], at: usize) -> u32 {
    u32::from_le_bytes(array(bytes, at))
}

/// The 8-byte number at `at`.
pub fn get_u64(bytes: &[u8], at: usize) -> u64 {
    u64::from_le_bytes(array(bytes, at))
}

/// Writes a 4-byte number at `at`.
pub fn put_u32(bytes: &mut [u8], at: usize, value: u32) {
    bytes[at..at + 4].copy_from_slice(&value.to_le_bytes());
}

/// Writes an 8-byte number at `at`.
pub fn put_u64(bytes: &mut [u8], at: usize, value: u64) {
    bytes[at..at + 8].copy_from_slice(&value.to_le_bytes());
}

#[cfg(test)]
mod tests {
    use super::*;

    #[test]
    fn numbers_are_little_endian() {
        let bytes = [9, 1, 2, 3, 4, 5, 6, 7, 8];
        assert_eq!(get_u16(&bytes, 1), 0x0201);
        assert_eq!(get_u32(&bytes, 1), 0x0403_0201);
        assert_eq!(get_u64(&bytes, 1), 0x0807_0605_0403_0201);
    }

    #[test]
    fn what_is_put_touches_its_own_bytes_only() {
        let mut bytes = [0xAA; 10];
        put_u64(&mut bytes, 1, 0x0102_0304_0506_0708);
        assert_eq!(bytes, [0xAA, 8, 7, 6, 5, 4, 3, 2, 1, 0xAA]);
        put_u32(&mut bytes, 2, NONE_4);
        assert_eq!(bytes, [0xAA, 8, 255, 255, 255, 255, 3, 2, 1, 0xAA]);
    }
}
