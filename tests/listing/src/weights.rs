//! Weights for moves (document 02, W-201): "Each student gets a weight from 0 to 255." The plain answers are those
//! where every man weighs 1: "With every weight 1 it equals the plain sheet."

use crate::matching::Matching;
use crate::people::Man;
use crate::reply::{refused, Refusal};

/// The weight of each man, a byte each.
#[derive(Clone, Copy)]
pub struct Weights<'a>(&'a [u8]);

impl Weights<'_> {
    /// The weights of n men that the bytes are, or rule 17: "weights, not n bytes".
    pub fn read(n: usize, bytes: &[u8]) -> Result<Weights<'_>, Refusal> {
        if bytes.len() != n {
            return refused(17, 0);
        }
        Ok(Weights(bytes))
    }

    /// The weight of a man.
    pub fn of(self, man: Man) -> usize {
        usize::from(self.0[man.index()])
    }

    /// "the total weight of moved students": those "whose mentors in it differ from those in the given one".
    pub fn of_moved(self, matching: &Matching, given: &Matching) -> usize {
        matching.moved(given).map(|man| self.of(man)).sum()
    }
}
