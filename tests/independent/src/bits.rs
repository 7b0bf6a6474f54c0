//! Sets of people as 64-bit numbers: all of them, and a table of sets with rows and columns exchanged.

/// The set of 0 to n - 1.
pub fn everyone(n: usize) -> u64 {
    if n == 0 {
        0
    } else {
        u64::MAX >> (64 - n)
    }
}

/// The table of bits with rows and columns exchanged: halves of 32, then of 16, and so on, change places.
pub fn transposed(mut rows: [u64; 64]) -> [u64; 64] {
    let mut width = 32;
    let mut mask = u64::MAX >> 32;
    while width > 0 {
        let mut k = 0;
        while k < 64 {
            let swapped = (rows[k] >> width ^ rows[k | width]) & mask;
            rows[k] ^= swapped << width;
            rows[k | width] ^= swapped;
            k = ((k | width) + 1) & !width;
        }
        width /= 2;
        mask ^= mask << width;
    }
    rows
}
