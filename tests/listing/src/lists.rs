//! The ranked lists of a well-formed book: "the lists, one byte an entry, best first". In edition 1 "Each names every
//! member of the other side once"; in edition 2 lists may be short, and whoever is listed lists in turn.

use crate::book::{self, Edition};
use crate::people::{Man, Woman};

/// The list of each man and of each woman, best first, and the edition of their book.
pub struct Lists {
    pub edition: Edition,
    men: Vec<Vec<Woman>>,
    women: Vec<Vec<Man>>,
}

impl Lists {
    /// The lists of a well-formed book of n, each found by its directory pair.
    pub fn read(n: usize, book: &[u8]) -> Lists {
        let man_list = |man: usize| book::list(book, man).iter().map(|&number| Woman(number)).collect();
        let woman_list = |woman: usize| book::list(book, n + woman).iter().map(|&number| Man(number)).collect();
        Lists {
            edition: book::edition(book).expect("a well-formed book"),
            men: (0..n).map(man_list).collect(),
            women: (0..n).map(woman_list).collect(),
        }
    }

    /// How many men there are, and how many women.
    pub fn n(&self) -> usize {
        self.men.len()
    }

    /// A man's list.
    pub fn of_man(&self, man: Man) -> &[Woman] {
        &self.men[man.index()]
    }

    /// "Looking up a place now gives the place or 'not listed'": the place of a woman on a man's list.
    pub fn place_of_woman(&self, man: Man, woman: Woman) -> Option<usize> {
        self.men[man.index()].iter().position(|&other| other == woman)
    }

    /// The place of a man on a woman's list.
    pub fn place_of_man(&self, woman: Woman, man: Man) -> Option<usize> {
        self.women[woman.index()].iter().position(|&other| other == man)
    }

    /// Whether "each lists the other".
    pub fn list_each_other(&self, man: Man, woman: Woman) -> bool {
        self.place_of_woman(man, woman).is_some() && self.place_of_man(woman, man).is_some()
    }

    /// Whether a man ranks one woman on his list above another, or is alone otherwise.
    pub fn man_prefers(&self, man: Man, one: Option<Woman>, other: Option<Woman>) -> bool {
        prefers(one, other, |woman| self.place_of_woman(man, woman))
    }

    /// Whether a woman ranks one man on her list above another, or is alone otherwise.
    pub fn woman_prefers(&self, woman: Woman, one: Option<Man>, other: Option<Man>) -> bool {
        prefers(one, other, |man| self.place_of_man(woman, man))
    }
}

/// Whether one partner, if there is one, stands before the other, or there is no other.
fn prefers<T>(one: Option<T>, other: Option<T>, place: impl Fn(T) -> Option<usize>) -> bool {
    match (one.map(&place), other.map(&place)) {
        (Some(Some(one)), Some(Some(other))) => one < other,
        (Some(Some(_)), None) => true,
        (None, _) => false,
        _ => panic!("whoever is not listed is not ranked"),
    }
}
