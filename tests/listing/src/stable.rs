//! Stable matchings: blocking pairs, rule 10, the list of all stable matchings, and the two extreme ones.

use crate::lists::Lists;
use crate::matching::{self, Matching};
use crate::people::{Man, Woman};
use crate::reply::Refusal;
use std::cell::OnceCell;

impl Lists {
    /// "A pair blocks if each lists the other and each is alone or prefers the other." Where lists are full that is
    /// "when both rank each other above their partners in it".
    pub fn blocks(&self, matching: &Matching, man: Man, woman: Woman) -> bool {
        self.list_each_other(man, woman)
            && self.man_prefers(man, Some(woman), matching.woman_of(man))
            && self.woman_prefers(woman, Some(man), matching.man_of(woman))
    }

    /// Whether a man blocks a matching with some woman.
    fn blocks_with_any(&self, matching: &Matching, man: Man) -> bool {
        Woman::all(self.n()).any(|woman| self.blocks(matching, man, woman))
    }

    /// "Stable: no pair blocks."
    pub fn is_stable(&self, matching: &Matching) -> bool {
        !Man::all(self.n()).any(|man| self.blocks_with_any(matching, man))
    }

    /// Rule 10: "a pair blocks", at the "lowest blocking student; his best-ranked blocking mentor".
    pub fn check_stable(&self, matching: &Matching) -> Result<(), Refusal> {
        let Some(man) = Man::all(self.n()).find(|&man| self.blocks_with_any(matching, man)) else {
            return Ok(());
        };
        let best = self.of_man(man).iter().find(|&&woman| self.blocks(matching, man, woman));
        let woman = best.expect("the man blocks with some woman");
        Err(Refusal { number: 10, place: man.index(), second: woman.index() })
    }

    /// Whether no man is worse off in one matching than in another.
    pub fn no_man_worse_off(&self, one: &Matching, other: &Matching) -> bool {
        !Man::all(self.n()).any(|man| self.man_prefers(man, other.woman_of(man), one.woman_of(man)))
    }

    /// Whether no woman is worse off in one matching than in another.
    pub fn no_woman_worse_off(&self, one: &Matching, other: &Matching) -> bool {
        !Woman::all(self.n()).any(|woman| self.woman_prefers(woman, other.man_of(woman), one.man_of(woman)))
    }
}

/// The lists of a book, and all its stable matchings once they are asked for.
pub struct Listing {
    pub lists: Lists,
    stable: OnceCell<Vec<Matching>>,
}

impl Listing {
    /// The lists, of which no matching is listed yet.
    pub fn new(lists: Lists) -> Listing {
        Listing { lists, stable: OnceCell::new() }
    }

    /// All stable matchings in the order of their bytes: all matchings are listed and the stable ones kept.
    pub fn stable(&self) -> &[Matching] {
        let n = self.lists.n();
        assert!(n <= 7, "all matchings of n = {n} are too many to list");
        self.stable.get_or_init(|| matching::all(&self.lists).into_iter().filter(|x| self.lists.is_stable(x)).collect())
    }

    /// "Who is placed is the same in every stable matching", on both sides.
    pub fn same_are_placed(&self) -> bool {
        let women =
            |x: &Matching| Woman::all(self.lists.n()).map(|woman| x.man_of(woman).is_some()).collect::<Vec<_>>();
        let men = |x: &Matching| Man::all(self.lists.n()).map(|man| x.woman_of(man).is_some()).collect::<Vec<_>>();
        let first = &self.stable()[0];
        self.stable().iter().all(|x| men(x) == men(first) && women(x) == women(first))
    }

    /// The student-best matching: the stable one in which each man has the best woman that any stable matching gives.
    pub fn student_best(&self) -> &Matching {
        let is_best = |x: &&Matching| self.stable().iter().all(|any| self.lists.no_man_worse_off(x, any));
        self.stable().iter().find(is_best).expect("every book has a student-best matching")
    }

    /// The mentor-best matching: the stable one in which each woman has the best man that any stable matching gives.
    pub fn mentor_best(&self) -> &Matching {
        let is_best = |x: &&Matching| self.stable().iter().all(|any| self.lists.no_woman_worse_off(x, any));
        self.stable().iter().find(is_best).expect("every book has a mentor-best matching")
    }
}
