//! Two pairs at one go (document 02, W-207): "There are four sorts, as each of the two students ends better or worse
//! off."

use crate::between::Side;
use crate::matching::Matching;
use crate::people::Man;
use crate::repair::Answer;
use crate::stable::Listing;
use crate::weights::Weights;

/// A sort: whether the man of the first pair ends better or worse off, and the man of the second.
pub type Sort = [Side; 2];

/// The sorts, "in that order": UU, UD, DU, DD.
pub const SORTS: [Sort; 4] =
    [[Side::Up, Side::Up], [Side::Up, Side::Down], [Side::Down, Side::Up], [Side::Down, Side::Down]];

/// The answer for two pairs: the candidate that is taken, its sort, and the total weight of those whom it moves; or
/// fixed.
#[derive(Clone, Copy, Debug, PartialEq, Eq)]
pub enum PairsAnswer<'a> {
    Repaired(Sort, &'a Matching, usize),
    Fixed,
}

impl Side {
    /// "letter (U up, D down, F fixed)".
    pub fn letter(self) -> char {
        match self {
            Side::Up => 'U',
            Side::Down => 'D',
        }
    }
}

impl PairsAnswer<'_> {
    /// The letters of a sort, or F alone.
    pub fn letters(&self) -> (char, Option<char>) {
        match *self {
            PairsAnswer::Repaired([first, second], ..) => (first.letter(), Some(second.letter())),
            PairsAnswer::Fixed => (Answer::Fixed.letter(), None),
        }
    }

    /// The total, "0 for F".
    pub fn total(&self) -> usize {
        match *self {
            PairsAnswer::Repaired(_, _, total) => total,
            PairsAnswer::Fixed => 0,
        }
    }
}

impl Listing {
    /// The stable matchings of a sort: "each of the two students ends better or worse off" in them.
    pub fn of_sort(&self, sort: Sort, given: &Matching, [first, second]: [Man; 2]) -> Vec<&Matching> {
        let [first_side, second_side] = sort;
        let mut those = self.parting_on(first_side, given, first);
        those.retain(|x| self.lists.is_off(second_side, second, given, x));
        those
    }

    /// "In each sort the candidate is the stable matching whose mentors lie, for every student, between the given one
    /// and those of any other of that sort." There is one where the sort has a matching.
    pub fn candidate(&self, sort: Sort, given: &Matching, men: [Man; 2]) -> Option<&Matching> {
        let those = self.of_sort(sort, given, men);
        let mut between = those.iter().filter(|x| those.iter().all(|other| self.each_between(given, x, other)));
        let candidate = between.next().copied();
        assert!(between.next().is_none(), "a sort has no second candidate");
        assert_eq!(candidate.is_some(), !those.is_empty(), "a sort with a matching has a candidate");
        candidate
    }

    /// The stable matchings that lack both pairs.
    pub fn without_both(&self, given: &Matching, men: [Man; 2]) -> Vec<&Matching> {
        let lacks = |x: &Matching, man| x.woman_of(man) != given.woman_of(man);
        self.stable().iter().filter(|x| men.into_iter().all(|man| lacks(x, man))).collect()
    }

    /// The answer for the pairs of two men: "The candidate with fewest moved is taken, ties going to UU, UD, DU, DD in
    /// that order", with weights that whose moved weigh least; "'Fixed' is the answer exactly when no stable matching
    /// lacks both pairs."
    pub fn answer_for_two(&self, given: &Matching, men: [Man; 2], weights: Weights) -> PairsAnswer<'_> {
        if self.without_both(given, men).is_empty() {
            return PairsAnswer::Fixed;
        }
        let repaired = |sort| {
            let candidate = self.candidate(sort, given, men)?;
            Some(PairsAnswer::Repaired(sort, candidate, weights.of_moved(candidate, given)))
        };
        let first_least = SORTS.into_iter().filter_map(repaired).min_by_key(PairsAnswer::total);
        first_least.expect("a stable matching that lacks both pairs is of a sort")
    }

    /// The least total weight of those whom a stable matching moves that lacks both pairs, or none where there is no
    /// such matching.
    pub fn least_for_two(&self, given: &Matching, men: [Man; 2], weights: Weights) -> Option<usize> {
        self.without_both(given, men).iter().map(|x| weights.of_moved(x, given)).min()
    }
}
