//! Two pairs at one go (W-207) in the words of document 02, over the list of all stable matchings. Each man has a
//! weight, which is 1 in the plain calls.

use super::{weight_moved, Market, Matching};
use independent::reply::Reply;

/// The sorts in the order in which ties go: for each of the two men U where he ends better off, D where worse off.
pub const SORTS: [[u8; 2]; 4] = [*b"UU", *b"UD", *b"DU", *b"DD"];

/// The letter of a reply: of one pair, or of the first and of the second.
pub fn letter(letters: &[u8]) -> usize {
    letters.iter().rev().fold(0, |above, &letter| 256 * above + letter as usize)
}

impl Market {
    /// The letter of a man in a matching beside the given one; none where he has the same woman.
    fn side(&self, given: &Matching, other: &Matching, man: usize) -> Option<u8> {
        let (old, new) = (self.place(man, given[man]), self.place(man, other[man]));
        (old != new).then_some(if new < old { b'U' } else { b'D' })
    }

    /// Whether each man's woman stands on his list between those of the given and of the other matching, ends counted.
    fn between(&self, given: &Matching, new: &Matching, other: &Matching) -> bool {
        (0..self.n).all(|i| {
            let [old, new, far] = [given, new, other].map(|m| self.place(i, m[i]));
            old.min(far) <= new && new <= old.max(far)
        })
    }

    /// The stable matchings of a sort.
    fn sort(&self, stable: &[Matching], given: &Matching, men: [usize; 2], letters: [u8; 2]) -> Vec<Matching> {
        let sides = |m: &Matching| men.map(|man| self.side(given, m, man));
        stable.iter().filter(|m| sides(m) == letters.map(Some)).cloned().collect()
    }

    /// The candidate of a sort: the one whose women lie, for every man, between the given ones and those of any other
    /// of the sort. That there is exactly one where the sort is not empty is tested on the way.
    fn candidate(&self, stable: &[Matching], given: &Matching, men: [usize; 2], letters: [u8; 2]) -> Option<Matching> {
        let some = self.sort(stable, given, men, letters);
        let mut candidates = some.iter().filter(|new| some.iter().all(|other| self.between(given, new, other)));
        let candidate = candidates.next().cloned();
        assert_eq!(candidate.is_some(), !some.is_empty(), "a candidate exactly where the sort is not empty");
        assert!(candidates.next().is_none(), "one candidate");
        candidate
    }

    /// The answer for the pairs of two men: letters and matching of the candidate that moves the smallest total weight,
    /// or nothing where the pairs are fixed. The same pair twice is that pair alone. That no stable matching without
    /// both pairs moves less, and that there is none where they are fixed, is tested on the way.
    pub fn answer_two(
        &self,
        stable: &[Matching],
        given: &Matching,
        weights: &[u8],
        men: [usize; 2],
    ) -> Option<(Vec<u8>, Matching)> {
        if men[0] == men[1] {
            return self.answer(stable, given, weights, men[0]).map(|(letter, m)| (vec![letter], m));
        }
        let moved = |m: &Matching| weight_moved(m, given, weights);
        let candidate = |letters: [u8; 2]| Some((letters.to_vec(), self.candidate(stable, given, men, letters)?));
        let mut answer: Option<(Vec<u8>, Matching)> = None;
        for (letters, new) in SORTS.into_iter().filter_map(candidate) {
            if answer.as_ref().map_or(true, |(_, before)| moved(&new) < moved(before)) {
                answer = Some((letters, new));
            }
        }
        self.test_order(SORTS.map(|letters| candidate(letters).map(|(_, new)| moved(&new))));
        let without_both = stable.iter().filter(|m| men.iter().all(|&man| m[man] != given[man]));
        assert_eq!(answer.as_ref().map(|(_, m)| moved(m)), without_both.map(moved).min());
        answer
    }

    /// Where both UD and DU exist, so do UU and DD, which together weigh no more. So where UD and DU weigh the same and
    /// nothing weighs less, UU weighs the same too, and no answer turns on the order of UD and DU.
    fn test_order(&self, totals: [Option<usize>; 4]) {
        if let [up, Some(up_and_down), Some(down_and_up), down] = totals {
            assert!(up.unwrap() + down.unwrap() <= up_and_down + down_and_up, "{totals:?}");
        }
    }

    /// The reply, the matching and the gains that are due for the pairs of two men; buffers hold 99 before.
    pub fn due_two(
        &self,
        stable: &[Matching],
        given: &Matching,
        weights: &[u8],
        men: [usize; 2],
    ) -> (Reply, Vec<u8>, Vec<i8>) {
        let Some((letters, new)) = self.answer_two(stable, given, weights, men) else {
            return (Reply { letter: letter(b"F"), ..Reply::default() }, vec![99; self.n], vec![99; self.n]);
        };
        let reply = Reply { letter: letter(&letters), ..Reply::value(weight_moved(&new, given, weights)) };
        let gain = |i: usize| self.place(i, given[i]) as i8 - self.place(i, new[i]) as i8;
        (reply, super::bytes(&new), (0..self.n).map(gain).collect())
    }
}

/// The first of 13, 11 and 12 that a request breaks for a given matching of n men, in the words of W-207.
pub fn broken(n: usize, given: &[u8], request: &[u8]) -> Option<usize> {
    let numbers = |man: u8, woman: u8| (man as usize) < n && (woman as usize) < n;
    let pair = |man: u8, woman: u8| match numbers(man, woman) {
        false => Some(11),
        true => (given[man as usize] != woman).then_some(12),
    };
    match *request {
        [man, woman] => pair(man, woman),
        [man, woman, second_man, second_woman] => pair(man, woman).or_else(|| pair(second_man, second_woman)),
        _ => Some(13),
    }
}
