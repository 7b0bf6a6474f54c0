//! Matchings: "A matching is n bytes that break no rule tried on a matching before 10, here 8 and 9", and 19 of W-203;
//! "byte i is the mentor of student i". "A student without a mentor has byte 255 in the matching."

use crate::book::Edition;
use crate::lists::Lists;
use crate::people::{Man, Woman};
use crate::reply::{refused, Refusal};

/// The byte of "a student without a mentor".
const WITHOUT: u8 = 255;

/// The woman of each man, if he has one.
#[derive(Clone, Debug, PartialEq, Eq)]
pub struct Matching(Vec<Option<Woman>>);

impl Matching {
    /// The matching of these lists that the bytes are, or the first of rules 8, 9 and 19 that they break: "matching is
    /// not n bytes"; "mentor n or more, or used by an earlier byte", at the "first such byte"; "a given pair does not
    /// list each other, after 9". Of edition 1: "there 255 is a clash".
    pub fn read(lists: &Lists, bytes: &[u8]) -> Result<Matching, Refusal> {
        let n = lists.n();
        if bytes.len() != n {
            return refused(8, 0);
        }
        for (at, &mentor) in bytes.iter().enumerate() {
            let without = mentor == WITHOUT && lists.edition == Edition::Two;
            if !without && (usize::from(mentor) >= n || bytes[..at].contains(&mentor)) {
                return refused(9, at);
            }
        }
        let woman = |&mentor: &u8| (mentor != WITHOUT).then_some(Woman(mentor));
        let matching = Matching(bytes.iter().map(woman).collect());
        if Man::all(n).any(|man| matching.woman_of(man).is_some_and(|woman| !lists.list_each_other(man, woman))) {
            return refused(19, 0);
        }
        Ok(matching)
    }

    /// The matching as bytes.
    pub fn bytes(&self) -> Vec<u8> {
        self.0.iter().map(|woman| woman.map_or(WITHOUT, |woman| woman.0)).collect()
    }

    /// The woman of a man, unless he is alone.
    pub fn woman_of(&self, man: Man) -> Option<Woman> {
        self.0[man.index()]
    }

    /// The man of a woman, unless she is alone.
    pub fn man_of(&self, woman: Woman) -> Option<Man> {
        Man::all(self.0.len()).find(|&man| self.woman_of(man) == Some(woman))
    }

    /// The men who have a woman, with her: the pairs.
    pub fn pairs(&self) -> impl Iterator<Item = (Man, Woman)> + '_ {
        Man::all(self.0.len()).filter_map(|man| Some((man, self.woman_of(man)?)))
    }

    /// The same matching but that a man has another woman; it is one again when all who change have changed.
    pub fn set(&mut self, man: Man, woman: Woman) {
        self.0[man.index()] = Some(woman);
    }

    /// "It holds a pair if the student has that mentor in it, and is without the pair otherwise."
    pub fn holds(&self, man: Man, woman: Woman) -> bool {
        self.woman_of(man) == Some(woman)
    }

    /// "A matching moves the students whose mentors in it differ from those in the given one."
    pub fn moved<'a>(&'a self, given: &'a Matching) -> impl Iterator<Item = Man> + 'a {
        Man::all(self.0.len()).filter(|&man| self.woman_of(man) != given.woman_of(man))
    }

    /// "The distance of two matchings is the number of students whose mentors differ."
    pub fn distance(&self, other: &Matching) -> usize {
        self.moved(other).count()
    }
}

/// All matchings of these lists, in the order of their bytes.
pub fn all(lists: &Lists) -> Vec<Matching> {
    let mut found = Vec::new();
    add_those_beginning_with(&mut Vec::new(), lists, &mut found);
    found
}

/// Adds the matchings in which the first men have the women of `begun`: the next man is given each woman left with
/// whom he lists each other, and in edition 2 none.
fn add_those_beginning_with(begun: &mut Vec<Option<Woman>>, lists: &Lists, found: &mut Vec<Matching>) {
    if begun.len() == lists.n() {
        found.push(Matching(begun.clone()));
        return;
    }
    let man = Man(begun.len() as u8);
    let women = Woman::all(lists.n()).filter(|&woman| lists.list_each_other(man, woman)).map(Some);
    for next in women.chain((lists.edition == Edition::Two).then_some(None)) {
        if next.is_none() || !begun.contains(&next) {
            begun.push(next);
            add_those_beginning_with(begun, lists, found);
            begun.pop();
        }
    }
}
