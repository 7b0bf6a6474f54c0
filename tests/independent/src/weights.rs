//! Weights of men, one byte a man, and the total weight of a set of men. A set is a 64-bit number.

use crate::reply::{rule, Checked};

/// For each bit of a weight, up to the highest that some weight has, the set of the men whose weight has it.
pub struct Weights(Vec<u64>);

impl Weights {
    /// The weights of n men. Rule 17.
    pub fn read(n: usize, bytes: &[u8]) -> Checked<Weights> {
        rule(bytes.len() != n, 17, 0)?;
        let bits = 8 - bytes.iter().fold(0, |all, weight| all | weight).leading_zeros();
        let having = |bit| {
            let men = bytes.iter().enumerate().map(|(man, weight)| ((weight >> bit & 1) as u64) << man);
            men.fold(0, |set, man| set | man)
        };
        Ok(Weights((0..bits).map(having).collect()))
    }

    /// The total weight of these men.
    pub fn total(&self, men: u64) -> usize {
        self.0.iter().enumerate().map(|(bit, having)| ((men & having).count_ones() as usize) << bit).sum()
    }
}

/// A weight of 1 for each man of a book. Of a book that is refused nobody asks how many.
pub fn ones(book: &[u8]) -> &'static [u8] {
    let n = book.get(1).map_or(0, |&n| n as usize);
    &[1; 256][..n]
}
