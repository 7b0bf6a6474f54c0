//! Nobody is moved in vain (W-206): what the archive writes as a repair beside other stable matchings of the book that
//! part the pair on the same side.

use crate::both::{Both, Lent};
use crate::sound::Sound;
use archive::between::{left, outside, side};
use independent::random::Random;
use independent::reply::Reply;

/// How many stable matchings are looked at beside each repair.
const BESIDE: usize = 6;

impl Both {
    /// What the archive has written for a call for a repair, whose inputs are a book, a matching and at the end a
    /// request or a mentor's number, beside those stable matchings of the book that part the pair on its side.
    pub fn compare_between(&mut self, call: &str, inputs: &[&[u8]], reply: Reply, out: &mut Lent) {
        let Some(letter) = ['U', 'D'].into_iter().find(|&letter| letter as usize == reply.letter) else {
            return;
        };
        let (book, given, mentor) = (inputs[0], inputs[1], inputs[inputs.len() - 1].last());
        let student = given.iter().position(|other| Some(other) == mentor);
        let (Some(student), Some(repaired)) = (student, out.buffer().get(..given.len())) else {
            return;
        };
        for other in self.beside.iter().filter(|other| side(book, given, other, student) == Some(letter)) {
            self.tally.count_beside(letter, left(given, repaired, other));
            if let Some(at) = outside(book, given, repaired, other) {
                let inputs = [inputs, &[other]].concat();
                let due = "for each student a mentor between the given one and the one in the last input";
                let call = format!("{call}, student {student}");
                self.tally.differ(&call, &inputs, format!("{repaired:?}, student {at}"), due.to_string());
            }
        }
    }
}

impl Sound {
    /// Stable matchings to be looked at beside repairs: the two extreme ones, and some of those that are asked.
    pub fn beside(&self, matchings: &[Vec<u8>], random: &mut Random) -> Vec<Vec<u8>> {
        let extreme = [0, 1].map(|mark| self.poset.matching(&vec![mark; self.poset.count()])[..self.n].to_vec());
        let some = (0..BESIDE - 2).map(|_| matchings[random.below(matchings.len())].clone());
        extreme.into_iter().chain(some).collect()
    }
}
