//! Rotations: next mentor, what a stable matching exposes, elimination, and the numbers of the rotations.

use crate::lists::Lists;
use crate::matching::Matching;
use crate::people::{Man, Woman};
use crate::stable::Listing;

/// "A rotation is a cycle of pairs in which each student's next mentor is the mentor of the following pair, the last
/// going to the first"; written from its lowest man.
#[derive(Clone, Debug, PartialEq, Eq)]
pub struct Rotation(pub Vec<(Man, Woman)>);

impl Lists {
    /// "a student's next mentor is the first one below the present one on that student's list who ranks this student
    /// above her own present student. There may be none." "A mentor who is alone ends the search for a next mentor:
    /// there is none."
    pub fn next_woman(&self, matching: &Matching, man: Man) -> Option<Woman> {
        for &woman in self.below(matching, man) {
            let present_man = matching.man_of(woman)?;
            if self.woman_prefers(woman, Some(man), Some(present_man)) {
                return Some(woman);
            }
        }
        None
    }

    /// Those "below the present one" on a man's list; nobody where he is alone.
    pub fn below(&self, matching: &Matching, man: Man) -> &[Woman] {
        let present = matching.woman_of(man).and_then(|woman| self.place_of_woman(man, woman));
        present.map_or(&[], |place| &self.of_man(man)[place + 1..])
    }

    /// The rotation exposed in a stable matching whose lowest man is this one, if there is one.
    fn exposed_from(&self, matching: &Matching, lowest: Man) -> Option<Rotation> {
        let mut pairs = vec![(lowest, matching.woman_of(lowest)?)];
        let mut last = lowest;
        loop {
            let next = self.next_woman(matching, last)?;
            last = matching.man_of(next)?;
            if last == lowest {
                return Some(Rotation(pairs));
            }
            if last < lowest || pairs.contains(&(last, next)) {
                return None;
            }
            pairs.push((last, next));
        }
    }

    /// The rotations exposed in a stable matching, the one that holds the lowest man first.
    pub fn exposed(&self, matching: &Matching) -> Vec<Rotation> {
        Man::all(self.n()).filter_map(|man| self.exposed_from(matching, man)).collect()
    }
}

impl Rotation {
    /// "Eliminating it gives each student that next mentor": the mentor of the following pair, the last going to the
    /// first.
    pub fn eliminated_from(&self, matching: &Matching) -> Matching {
        let mut after = matching.clone();
        for (k, &(man, _)) in self.0.iter().enumerate() {
            let (_, next) = self.0[(k + 1) % self.0.len()];
            after.set(man, next);
        }
        after
    }

    /// "Each is written from its lowest student: one byte for its number of pairs, then student and mentor bytes."
    pub fn bytes(&self) -> Vec<u8> {
        let pairs = self.0.iter().flat_map(|&(man, woman)| [man.0, woman.0]);
        std::iter::once(self.0.len() as u8).chain(pairs).collect()
    }
}

impl Listing {
    /// All rotations by number: "Begin with the student-best matching. Of the rotations exposed, eliminate the one
    /// that holds the lowest student number; go on until none is exposed."
    pub fn rotations(&self) -> Vec<Rotation> {
        let mut matching = self.student_best().clone();
        let mut numbered = Vec::new();
        while let Some(lowest) = self.lists.exposed(&matching).into_iter().next() {
            matching = lowest.eliminated_from(&matching);
            numbered.push(lowest);
        }
        numbered
    }
}

/// "The list of rotations holds them end to end in order of number".
pub fn list_bytes(rotations: &[Rotation]) -> Vec<u8> {
    rotations.iter().flat_map(Rotation::bytes).collect()
}
