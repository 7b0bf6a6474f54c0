//! Runs of eliminations from the student-best matching, and what document 01 says by them: which rotation precedes
//! which, closed sets, the matching of a set and the set of a matching.

use crate::matching::Matching;
use crate::rotation::Rotation;
use crate::stable::Listing;

/// Where a run stands: "A set is given as one byte, 0 or 1, a rotation".
#[derive(PartialEq)]
pub struct Run {
    /// The rotations that it has eliminated, as a set.
    pub eliminated: Vec<u8>,
    /// The matching that it has come to.
    pub matching: Matching,
    /// The numbers of the rotations that it exposes there.
    pub exposed: Vec<usize>,
}

/// All rotations by number, and every run, but that runs which stand alike are kept once.
pub struct Runs {
    pub rotations: Vec<Rotation>,
    pub runs: Vec<Run>,
}

impl Runs {
    /// Follows every run of eliminations from the student-best matching.
    pub fn new(listing: &Listing) -> Runs {
        let rotations = listing.rotations();
        let mut runs = vec![stand(listing, &rotations, vec![0; rotations.len()], listing.student_best().clone())];
        let mut followed = 0;
        while followed < runs.len() {
            for number in runs[followed].exposed.clone() {
                let mut eliminated = runs[followed].eliminated.clone();
                eliminated[number] = 1;
                let matching = rotations[number].eliminated_from(&runs[followed].matching);
                let run = stand(listing, &rotations, eliminated, matching);
                if !runs.contains(&run) {
                    runs.push(run);
                }
            }
            followed += 1;
        }
        Runs { rotations, runs }
    }

    /// "One rotation precedes another if every run of eliminations from the student-best matching that exposes the
    /// second has eliminated the first"; "no rotation precedes itself".
    pub fn precedes(&self, first: usize, second: usize) -> bool {
        let mut exposing = self.runs.iter().filter(|run| run.exposed.contains(&second));
        first != second && exposing.all(|run| run.eliminated[first] == 1)
    }

    /// "A set is closed if it holds whatever precedes its members."
    pub fn is_closed(&self, set: &[u8]) -> bool {
        let numbers = 0..self.rotations.len();
        let mut members = numbers.clone().filter(|&member| set[member] == 1);
        members.all(|member| numbers.clone().all(|other| set[other] == 1 || !self.precedes(other, member)))
    }

    /// The matching of a closed set: the one that a run comes to when it has eliminated the members of the set.
    pub fn matching_of(&self, set: &[u8]) -> &Matching {
        &only(self.runs.iter().filter(|run| run.eliminated == set)).matching
    }

    /// The set of a stable matching: the rotations that a run has eliminated when it comes to it.
    pub fn set_of(&self, matching: &Matching) -> &[u8] {
        &only(self.runs.iter().filter(|run| run.matching == *matching)).eliminated
    }
}

/// The run that has eliminated a set and has come to a matching.
fn stand(listing: &Listing, rotations: &[Rotation], eliminated: Vec<u8>, matching: Matching) -> Run {
    let number_of = |rotation: &Rotation| rotations.iter().position(|numbered| numbered == rotation);
    let exposed = listing.lists.exposed(&matching);
    let exposed = exposed.iter().map(|rotation| number_of(rotation).expect("every rotation has a number")).collect();
    Run { eliminated, matching, exposed }
}

/// The one run that there is.
fn only<'a>(mut runs: impl Iterator<Item = &'a Run>) -> &'a Run {
    let run = runs.next().expect("there is a run");
    assert!(runs.next().is_none(), "closed sets and stable matchings do not answer one to one");
    run
}
