//! Repairs of a pair of a given stable matching, the places gained, and the grade, where each man has a weight.
//! Document 01's distance is the total where every weight is 1.

use crate::matching::Matching;
use crate::people::{Man, Woman};
use crate::stable::Listing;
use crate::weights::Weights;

/// "The answer is up, down or fixed, and a repair carries its distance and matching"; with weights the total weight of
/// those whom it moves stands for the distance.
#[derive(Clone, Copy, Debug, PartialEq, Eq)]
pub enum Answer<'a> {
    Up(&'a Matching, usize),
    Down(&'a Matching, usize),
    Fixed,
}

impl Answer<'_> {
    /// "letter (U up, D down, F fixed)".
    pub fn letter(&self) -> char {
        match self {
            Answer::Up(..) => 'U',
            Answer::Down(..) => 'D',
            Answer::Fixed => 'F',
        }
    }

    /// "distance, 0 for F": "Its distance column is that total."
    pub fn total(&self) -> usize {
        match *self {
            Answer::Up(_, total) | Answer::Down(_, total) => total,
            Answer::Fixed => 0,
        }
    }
}

impl Listing {
    /// "the stable matchings without the pair" of this man in the given one.
    fn without_pair(&self, given: &Matching, man: Man) -> Vec<&Matching> {
        let woman = woman_of_the_asking(given, man);
        self.stable().iter().filter(|x| !x.holds(man, woman)).collect()
    }

    /// "A pair is fixed if every stable matching of the book holds it."
    pub fn is_fixed(&self, given: &Matching, man: Man) -> bool {
        let woman = woman_of_the_asking(given, man);
        self.stable().iter().all(|x| x.holds(man, woman))
    }

    /// "Repair up: of the stable matchings without the pair in which no student is worse off than in the given one,
    /// that in which each student has the lowest-ranked mentor that any of these gives."
    pub fn repair_up(&self, given: &Matching, man: Man) -> Option<&Matching> {
        let mut these = self.without_pair(given, man);
        these.retain(|x| self.lists.no_man_worse_off(x, given));
        these.iter().copied().find(|x| these.iter().all(|any| self.lists.no_man_worse_off(any, x)))
    }

    /// "Repair down: of those without the pair in which no student is better off, that in which each has the
    /// highest-ranked such mentor."
    pub fn repair_down(&self, given: &Matching, man: Man) -> Option<&Matching> {
        let mut these = self.without_pair(given, man);
        these.retain(|x| self.lists.no_man_worse_off(given, x));
        these.iter().copied().find(|x| these.iter().all(|any| self.lists.no_man_worse_off(x, any)))
    }

    /// The answer for a man's pair: "The nearer is taken; at equal distance, up"; with weights "the repair whose moved
    /// students weigh least in total, up when equal".
    pub fn answer(&self, given: &Matching, man: Man, weights: Weights) -> Answer<'_> {
        if self.is_fixed(given, man) {
            return Answer::Fixed;
        }
        let up = self.repair_up(given, man).map(|x| Answer::Up(x, weights.of_moved(x, given)));
        let down = self.repair_down(given, man).map(|x| Answer::Down(x, weights.of_moved(x, given)));
        match (up, down) {
            (Some(up), Some(down)) if up.total() <= down.total() => up,
            (_, Some(down)) => down,
            (Some(up), None) => up,
            (None, None) => panic!("a pair that is not fixed has a repair"),
        }
    }

    /// "each student's places gained, old place less new: above zero is better"; of a student without a mentor "the
    /// gain is 0".
    pub fn gains(&self, given: &Matching, repaired: &Matching) -> Vec<i8> {
        let place = |matching: &Matching, man| self.lists.place_of_woman(man, matching.woman_of(man)?);
        let gain = |man| match (place(given, man), place(repaired, man)) {
            (Some(old), Some(new)) => old as i8 - new as i8,
            (None, None) => 0,
            _ => panic!("who is placed is the same in every stable matching"),
        };
        Man::all(self.lists.n()).map(gain).collect()
    }

    /// The "number of fixed pairs" (W-204). A student without a mentor is in no pair.
    pub fn fixed_count(&self, given: &Matching) -> usize {
        given.pairs().filter(|&(man, _)| self.is_fixed(given, man)).count()
    }

    /// "Each pair's total is reduced by the asking student's own weight, and the grade is the largest of these"; where
    /// every weight is 1, "the largest distance of an answer, less 1, over the pairs that are not fixed". None "when no
    /// pair can be repaired": no pair is not fixed.
    pub fn grade(&self, given: &Matching, weights: Weights) -> Option<usize> {
        let not_fixed = given.pairs().filter(|&(man, _)| !self.is_fixed(given, man));
        not_fixed.map(|(man, _)| self.answer(given, man, weights).total() - weights.of(man)).max()
    }

    /// The least total weight of those whom a stable matching without the man's pair moves, or none where the pair is
    /// fixed: demand 3 says that the answer's total is this.
    pub fn least_total(&self, given: &Matching, man: Man, weights: Weights) -> Option<usize> {
        self.without_pair(given, man).iter().map(|x| weights.of_moved(x, given)).min()
    }
}

/// "The asking student is the one in the pair": his woman in the given matching.
fn woman_of_the_asking(given: &Matching, man: Man) -> Woman {
    given.woman_of(man).expect("a student without a mentor is in no pair")
}
