//! The rotation poset: precedence, closed subsets, and the matchings of closed subsets.

use crate::gale_shapley;
use crate::groups::Groups;
use crate::instance::Instance;
use crate::matching::{Matching, Partners};
use crate::numbering;
use crate::search::{self, Pair};

/// The man-optimal matching, the rotations in an order in which they can be eliminated, and for each the rotations
/// right before it, which stand earlier in that order.
pub struct Poset {
    pub optimal: Partners,
    rotations: Groups<Pair>,
    before: Groups<u16>,
}

impl Poset {
    /// The poset with the rotations in the order in which the search meets them: enough for repairs.
    pub fn of(instance: &Instance) -> Poset {
        let optimal = gale_shapley::man_optimal(instance);
        let found = search::all(instance, &optimal);
        Poset { optimal: optimal.woman, rotations: found.rotations, before: found.before }
    }

    /// The poset with the rotations in the order of document 01's numbers.
    pub fn numbered(instance: &Instance) -> Poset {
        let poset = Poset::of(instance);
        let order = numbering::order(&poset.rotations, &poset.before);
        let (rotations, before) = numbering::renumbered(&poset.rotations, &poset.before, &order);
        Poset { optimal: poset.optimal, rotations, before }
    }

    /// How many rotations there are.
    pub fn count(&self) -> usize {
        self.rotations.count()
    }

    /// The pairs of a rotation, from its lowest man.
    #[inline(always)]
    pub fn rotation(&self, r: usize) -> &[Pair] {
        self.rotations.group(r)
    }

    /// The rotations right before a rotation, all earlier in the order.
    #[inline(always)]
    pub fn before(&self, r: usize) -> &[u16] {
        self.before.group(r)
    }

    /// The bytes of the list of rotations: one a rotation and two a pair.
    pub fn list_size(&self) -> usize {
        self.count() + 2 * self.rotations.items().len()
    }

    /// Writes the list of rotations to a buffer of its size.
    pub fn write_list(&self, out: &mut [u8]) {
        let mut at = 0;
        for r in 0..self.count() {
            let pairs = self.rotation(r);
            out[at] = pairs.len() as u8;
            at += 1;
            for pair in pairs {
                out[at] = pair.man;
                out[at + 1] = pair.woman;
                at += 2;
            }
        }
    }

    /// Whether one rotation precedes another: whether edges lead from it to the other.
    pub fn precedes(&self, first: usize, second: usize) -> bool {
        let mut after = vec![false; self.count()];
        for r in first + 1..=second {
            after[r] = self.before(r).iter().any(|&b| b as usize == first || after[b as usize]);
        }
        after[second]
    }

    /// Whether a set, one byte 0 or 1 a rotation, holds whatever precedes its members.
    pub fn is_closed(&self, set: &[u8]) -> bool {
        (0..self.count()).all(|r| set[r] == 0 || self.before(r).iter().all(|&b| set[b as usize] == 1))
    }

    /// The matching of a closed subset: its rotations eliminated in order.
    pub fn matching(&self, set: &[u8]) -> Partners {
        let mut woman = self.optimal;
        for r in (0..self.count()).filter(|&r| set[r] == 1) {
            eliminate(self.rotation(r), &mut woman);
        }
        woman
    }

    /// Whether a rotation is in the closed subset of a stable matching: whether its first man has gone past its pair.
    #[inline(always)]
    pub fn is_eliminated(&self, instance: &Instance, matching: &Matching, r: usize) -> bool {
        let pair = self.rotation(r)[0];
        instance.men.rank(pair.man, matching.woman[pair.man as usize & 63]) > pair.rank
    }
}

/// Gives each man of a rotation his next woman.
pub fn eliminate(pairs: &[Pair], woman: &mut Partners) {
    for pair in pairs {
        woman[pair.man as usize & 63] = pair.next;
    }
}

/// Gives each man of a rotation the woman of his own pair: the elimination undone.
pub fn restore(pairs: &[Pair], woman: &mut Partners) {
    for pair in pairs {
        woman[pair.man as usize & 63] = pair.woman;
    }
}
