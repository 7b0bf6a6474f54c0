//! What the archive reports of a repair, recounted from its gains (W-202).

use crate::both::Both;
use crate::calls::Call;
use crate::pairs::{is_of_two, sides};
use archive::Reply;

impl Both {
    /// W-202: a repair of a pair or of two reports the total weight of the students whose gains are not 0. A request is
    /// the last of the inputs.
    pub fn recount(&mut self, call: Call, inputs: &[&[u8]], weights: &[u8], given: Reply, gains: &[i8]) {
        if sides(given.letter).is_empty() {
            return;
        }
        let gains = &gains[..gains.len().min(weights.len())];
        let total = |moved: bool| {
            let those = gains.iter().zip(weights).filter(|(&gain, _)| (gain != 0) == moved);
            those.map(|(_, &weight)| weight as usize).sum()
        };
        let (moved, left) = (total(true), total(false));
        match inputs.last() {
            Some(request) if is_of_two(request) => self.tally.pairs.count_mixed(call, moved, left),
            _ => self.tally.count_mixed(call, moved, left),
        }
        if given.value != moved {
            let report = format!("\n  archive {given:?} {gains:?}\n  due     value {moved}, by these gains");
            self.tally.differ(format!("{call:?} {inputs:?}, recount{report}"));
        }
    }
}

#[cfg(test)]
mod tests {
    use super::*;

    /// Recounts a weighted repair: the differences, and whether students are moved and others left, by a repair of one
    /// pair and of two.
    fn recounted_of(request: &[u8], letter: usize, value: usize, weights: &[u8], gains: &[i8]) -> (usize, [usize; 2]) {
        let (mut both, call) = (Both::default(), Call::WeightedRepair);
        let given = Reply { letter, ..Reply::value(value) };
        both.recount(call, &[request], weights, given, gains);
        (both.tally.differences, [both.tally.mixed(call), both.tally.pairs.mixed(call)])
    }

    /// The same of one pair.
    fn recounted(letter: char, value: usize, weights: &[u8], gains: &[i8]) -> (usize, usize) {
        let (differences, [mixed, of_two]) = recounted_of(&[0; 2], letter as usize, value, weights, gains);
        assert_eq!(of_two, 0);
        (differences, mixed)
    }

    /// Gains above 0 and below it count, and those past the last student do not. A fixed pair is not recounted.
    #[test]
    fn a_recount_of_another_number_differs() {
        let (weights, gains) = ([3, 0, 250, 7], [1, -2, 0, -1, 5]);
        assert_eq!(recounted('D', 10, &weights, &gains), (0, 1));
        for value in [0, 3, 7, 250, 260] {
            assert_eq!(recounted('D', value, &weights, &gains), (1, 1), "{value}");
            assert_eq!(recounted('F', value, &weights, &gains), (0, 0), "{value}");
        }
        assert_eq!(recounted('U', 2, &[1, 1, 0], &[4, 1, 0]), (0, 0));
        assert_eq!(recounted('U', 3, &[1, 1, 1], &[4, 1, 0]), (1, 1));
    }

    /// The same of two pairs, or of the same twice, whose letters are of the sides alone.
    #[test]
    fn a_recount_of_two_pairs() {
        let (weights, gains) = ([3, 0, 250, 7], [1, -2, 0, -1, 5]);
        let of = |letters: &[u8; 2], value| {
            let letter = usize::from(letters[0]) + 256 * usize::from(letters[1]);
            recounted_of(&[0; 4], letter, value, &weights, &gains)
        };
        for letters in [b"UU", b"UD", b"DU", b"DD", b"U\0", b"D\0"] {
            assert_eq!(of(letters, 10), (0, [0, 1]));
            assert_eq!(of(letters, 3), (1, [0, 1]));
        }
        for letters in [b"FU", b"UF", b"F\0", b"\0U"] {
            assert_eq!(of(letters, 3), (0, [0, 0]));
        }
    }
}
