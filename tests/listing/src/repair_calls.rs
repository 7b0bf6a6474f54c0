//! The calls on repairs of include/placement.h: the repair of a pair, asked for by a request or by the mentor's number,
//! or of two pairs, and the grade, with weights and without.
//!
//! "After the book, …: 8, 9, 10, then 13, 11, 12, then 14"; "17 weights, not n bytes, after 10"; 19 comes "after 9".
//! Of two pairs "11 and then 12 are tried on the first pair, then the second" (W-207).

use crate::asked::Asked;
use crate::matching::Matching;
use crate::pairs::PairsAnswer;
use crate::people::{Man, Woman};
use crate::repair::Answer;
use crate::reply::{refused, Granted, Refusal, Reply};
use crate::weights::Weights;

impl Asked<'_> {
    /// Weights of 1 for all men of the book; none where it is refused.
    pub fn ones(&self) -> Vec<u8> {
        vec![1; self.checked.unwrap_or(0)]
    }

    /// The stable matching and the weights that the bytes are: the book's rules, then 8, 9, 19, 10, then 17.
    pub fn weighed<'w>(&self, matching: &[u8], weights: &'w [u8]) -> Result<(Matching, Weights<'w>), Refusal> {
        let given = self.stable_matching(matching)?;
        Ok((given, Weights::read(self.checked?, weights)?))
    }

    /// The repair of one pair or of two.
    pub fn repair(&self, matching: &[u8], request: &[u8], out: &mut [u8], gains: &mut [i8]) -> Reply {
        self.weighted_repair(matching, &self.ones(), request, out, gains)
    }

    /// The repair of one pair or of two with weights: "Fixed writes neither matching nor gains, yet both buffers must
    /// hold n entries or 14 is given."
    pub fn weighted_repair(
        &self,
        matching: &[u8],
        weights: &[u8],
        request: &[u8],
        out: &mut [u8],
        gains: &mut [i8],
    ) -> Reply {
        let (given, weights) = self.weighed(matching, weights)?;
        let men = self.requested(&given, request)?;
        let n = self.checked?;
        if out.len() < n || gains.len() < n {
            return refused(14, 0);
        }
        let listing = self.listing();
        let (repaired, granted) = match men[..] {
            [man] => in_reply(listing.answer(&given, man, weights)),
            [first, second] => two_in_reply(listing.answer_for_two(&given, [first, second], weights)),
            _ => panic!("a request is for one pair or for two"),
        };
        if let Some(repaired) = repaired {
            out[..n].copy_from_slice(&repaired.bytes());
            gains[..n].copy_from_slice(&listing.gains(&given, repaired));
        }
        Ok(granted)
    }

    /// The asking men of a request: 13, "request is not exactly two bytes, student then mentor", "stays for other
    /// lengths" than four (W-207). "The same pair twice is answered as that pair alone."
    fn requested(&self, given: &Matching, request: &[u8]) -> Result<Vec<Man>, Refusal> {
        if ![2, 4].contains(&request.len()) {
            return refused(13, 0);
        }
        let pairs = request.chunks(2).map(|pair| self.requested_pair(given, Man(pair[0]), Woman(pair[1])));
        let mut men = pairs.collect::<Result<Vec<Man>, Refusal>>()?;
        men.dedup();
        Ok(men)
    }

    /// The man of a pair that is asked for: 11; 12, "the two are not together".
    fn requested_pair(&self, given: &Matching, man: Man, woman: Woman) -> Result<Man, Refusal> {
        let n = self.checked?;
        if man.index() >= n || woman.index() >= n {
            return refused(11, 0);
        }
        if !given.holds(man, woman) {
            return refused(12, 0);
        }
        Ok(man)
    }

    /// The repair of the pair of a mentor.
    pub fn repair_mentor(&self, matching: &[u8], mentor: u8, out: &mut [u8], gains: &mut [i8]) -> Reply {
        self.weighted_repair_mentor(matching, &self.ones(), mentor, out, gains)
    }

    /// The repair of the pair of a mentor with weights (W-205): "A new call takes a mentor's number and answers as the
    /// two-byte request for her pair does. A number of n or more gets 11, a mentor who is alone 12."
    pub fn weighted_repair_mentor(
        &self,
        matching: &[u8],
        weights: &[u8],
        mentor: u8,
        out: &mut [u8],
        gains: &mut [i8],
    ) -> Reply {
        let (given, _) = self.weighed(matching, weights)?;
        let woman = Woman(mentor);
        if woman.index() >= self.checked? {
            return refused(11, 0);
        }
        let Some(man) = given.man_of(woman) else {
            return refused(12, 0);
        };
        self.weighted_repair(matching, weights, &[man.0, woman.0], out, gains)
    }

    /// The grade of a matching, none where no pair can be repaired.
    pub fn grade(&self, matching: &[u8]) -> Result<Option<usize>, Refusal> {
        self.weighted_grade(matching, &self.ones())
    }

    /// The weighted grade of a matching, none where no pair can be repaired.
    pub fn weighted_grade(&self, matching: &[u8], weights: &[u8]) -> Result<Option<usize>, Refusal> {
        let (given, weights) = self.weighed(matching, weights)?;
        Ok(self.listing().grade(&given, weights))
    }
}

/// The repaired matching of an answer for one pair, and what the reply says of it.
fn in_reply(answer: Answer<'_>) -> (Option<&Matching>, Granted) {
    let granted = Granted { letter: Some(answer.letter()), value: answer.total(), ..Granted::default() };
    match answer {
        Answer::Up(repaired, _) | Answer::Down(repaired, _) => (Some(repaired), granted),
        Answer::Fixed => (None, granted),
    }
}

/// The same of an answer for two pairs.
fn two_in_reply(answer: PairsAnswer<'_>) -> (Option<&Matching>, Granted) {
    let (letter, second_letter) = answer.letters();
    let granted = Granted { letter: Some(letter), second_letter, value: answer.total(), place: 0 };
    match answer {
        PairsAnswer::Repaired(_, repaired, _) => (Some(repaired), granted),
        PairsAnswer::Fixed => (None, granted),
    }
}
