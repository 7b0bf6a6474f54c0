//! Numbers drawn from a fixed seed, and permutations by number.

/// The sequence of Park and Miller: each number is 48271 times the one before, modulo 2147483647.
pub struct Draw(u64);

impl Draw {
    /// The sequence after this number.
    pub fn after(seed: u64) -> Draw {
        Draw(seed)
    }

    /// The next number, below 2147483647.
    pub fn next(&mut self) -> usize {
        self.0 = self.0 * 48271 % 2147483647;
        self.0 as usize
    }

    /// The next number modulo n.
    pub fn below(&mut self, n: usize) -> usize {
        self.next() % n
    }
}

/// How many permutations n numbers have.
pub fn factorial(n: usize) -> usize {
    (1..=n).product()
}

/// Permutation number k of 0 to n − 1: each entry from the last to the second is exchanged with one up to itself.
pub fn permutation(n: usize, k: usize) -> Vec<u8> {
    let mut entries: Vec<u8> = (0..n as u8).collect();
    let mut rest = k;
    for last in (1..n).rev() {
        entries.swap(last, rest % (last + 1));
        rest /= last + 1;
    }
    entries
}

#[cfg(test)]
mod tests {
    use super::*;

    /// Number 10,000 after 1 as the C++ standard states it for `minstd_rand`, which is this sequence.
    #[test]
    fn the_sequence_is_that_of_minstd_rand() {
        let mut draw = Draw::after(1);
        let drawn: Vec<usize> = (0..10_000).map(|_| draw.next()).collect();
        assert_eq!((drawn[0], drawn[9_999]), (48271, 399268537));
    }

    /// Every permutation has a number.
    #[test]
    fn all_permutations_are_numbered() {
        for n in 0..6 {
            let mut all: Vec<Vec<u8>> = (0..factorial(n)).map(|k| permutation(n, k)).collect();
            all.sort();
            all.dedup();
            assert_eq!(all.len(), factorial(n));
        }
    }
}
