//! The sum of slices: two sums by two primes, with the lengths in them.

/// The primes and the factors.
const PRIMES: [u64; 2] = [2_147_483_647, 2_147_483_629];
const FACTORS: [u64; 2] = [1_220_703_125, 630_360_016];

/// The two sums, the first in the higher 32 bits.
pub fn of(slices: &[&[u8]]) -> u64 {
    let mut sums = [1, 1];
    for bytes in slices {
        step(&mut sums, bytes.len() as u64);
        for word in bytes.chunks(4) {
            let mut four = [0; 4];
            four[..word.len()].copy_from_slice(word);
            step(&mut sums, u32::from_le_bytes(four).into());
        }
    }
    sums[0] << 32 | sums[1]
}

fn step(sums: &mut [u64; 2], word: u64) {
    for i in 0..2 {
        sums[i] = (sums[i] * FACTORS[i] + word) % PRIMES[i];
    }
}

#[cfg(test)]
mod tests {
    use super::*;

    #[test]
    fn no_slip_of_one_byte_keeps_it() {
        let bytes: Vec<u8> = (0..=255).collect();
        let right = of(&[&bytes, &[]]);
        for at in 0..bytes.len() {
            for more in 1..=255 {
                let mut other = bytes.clone();
                other[at] = other[at].wrapping_add(more);
                assert_ne!(of(&[&other, &[]]), right);
            }
        }
    }

    #[test]
    fn order_place_and_length_are_in_it() {
        let all = [
            of(&[&[0], &[]]),
            of(&[&[], &[0]]),
            of(&[&[0, 0], &[]]),
            of(&[&[0; 4], &[]]),
            of(&[&[0; 5], &[]]),
            of(&[&[1, 0, 0, 0, 2], &[]]),
            of(&[&[2, 0, 0, 0, 1], &[]]),
            of(&[&[1, 0, 0, 0], &[2]]),
        ];
        for (i, sum) in all.iter().enumerate() {
            assert!(!all[..i].contains(sum));
        }
    }
}
