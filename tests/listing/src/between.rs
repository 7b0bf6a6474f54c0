//! Nobody is moved in vain (document 02, W-206): "in repair up each student's mentor stands on that student's list
//! between the given one and the one in that matching, ends counted. The mirror holds for repair down."

use crate::lists::Lists;
use crate::matching::Matching;
use crate::people::Man;
use crate::stable::Listing;

/// The side on which a stable matching parts a pair: "the asking student is better off", or worse off.
#[derive(Clone, Copy, Debug, PartialEq, Eq)]
pub enum Side {
    Up,
    Down,
}

impl Lists {
    /// The places of a man's women in three matchings, each on his list; none where he is alone.
    pub fn places(&self, man: Man, matchings: [&Matching; 3]) -> [Option<usize>; 3] {
        let listed = |woman| self.place_of_woman(man, woman).expect("a man's woman stands on his list");
        matchings.map(|matching| matching.woman_of(man).map(listed))
    }

    /// Whether a man's woman in the repaired matching "stands on that student's list between the given one and the one
    /// in that matching, ends counted"; who is alone in the given one has to be alone in the others.
    pub fn stands_between(&self, man: Man, given: &Matching, repaired: &Matching, other: &Matching) -> bool {
        match self.places(man, [given, repaired, other]) {
            [Some(given), Some(repaired), Some(other)] => (given.min(other)..=given.max(other)).contains(&repaired),
            places => places == [None; 3],
        }
    }

    /// Whether a man is better off in one matching than in the given one, or worse off.
    pub fn is_off(&self, side: Side, man: Man, given: &Matching, other: &Matching) -> bool {
        let (old, new) = (given.woman_of(man), other.woman_of(man));
        match side {
            Side::Up => self.man_prefers(man, new, old),
            Side::Down => self.man_prefers(man, old, new),
        }
    }
}

impl Listing {
    /// The stable matchings that part a man's pair on a side: "the asking student is better off in some stable
    /// matching", or worse off.
    pub fn parting_on(&self, side: Side, given: &Matching, man: Man) -> Vec<&Matching> {
        self.stable().iter().filter(|other| self.lists.is_off(side, man, given, other)).collect()
    }

    /// The repair of a man's pair on a side.
    pub fn repair_on(&self, side: Side, given: &Matching, man: Man) -> Option<&Matching> {
        match side {
            Side::Up => self.repair_up(given, man),
            Side::Down => self.repair_down(given, man),
        }
    }

    /// Whether every man's woman in the repaired matching stands between those in the given and in the other one.
    pub fn each_between(&self, given: &Matching, repaired: &Matching, other: &Matching) -> bool {
        Man::all(self.lists.n()).all(|man| self.lists.stands_between(man, given, repaired, other))
    }
}
