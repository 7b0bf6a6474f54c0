//! Repairs by document 000, section 3. S is the closed subset of the given matching and (m, w) one of its pairs.
//! - Repair up: S without the rotation that produces (m, w) and those that it precedes.
//! - Repair down: S with the rotation that eliminates (m, w) and those that precede it.
//!
//! The repairs of all pairs are worked out together: a set of men is a 64-bit number, and each rotation gets the set
//! of those men whose repair takes it out of S, or into S. These sets go along the edges of the poset, which makes the
//! transitive closure; one pass over the rotations does for all pairs.
//!
//! Both repairs of a pair are the same whatever men weigh; weights say which of the two is taken.

use crate::bits::transposed;
use crate::instance::Instance;
use crate::matching::{Matching, Partners, ALONE};
use crate::poset::{self, Poset};
use crate::weights::Weights;

/// No rotation.
const NONE: u16 = u16::MAX;

/// A repair, by the total weight of the men whom it moves; of two pairs with a letter for each. Or what is asked about
/// is fixed.
#[derive(Clone, Copy, Debug, PartialEq, Eq)]
pub enum Answer {
    Up(usize),
    Down(usize),
    Two([u8; 2], usize),
    Fixed,
}

impl Answer {
    /// The letter of the header's reply: of two pairs the first one's and 256 times the second one's.
    pub fn letter(self) -> usize {
        match self {
            Answer::Up(_) => b'U'.into(),
            Answer::Down(_) => b'D'.into(),
            Answer::Two(letters, _) => u16::from_le_bytes(letters).into(),
            Answer::Fixed => b'F'.into(),
        }
    }

    /// The total weight, 0 where nothing is repaired.
    pub fn total(self) -> usize {
        match self {
            Answer::Up(total) | Answer::Down(total) | Answer::Two(_, total) => total,
            Answer::Fixed => 0,
        }
    }
}

/// The repairs of the pairs of some men, those asked for.
pub struct Repairs<'a> {
    poset: &'a Poset,
    /// The closed subset of the given matching.
    inside: Vec<bool>,
    /// The rotation that produces each man's pair, and the one that eliminates it.
    produced_by: [u16; 64],
    eliminated_by: [u16; 64],
    /// For each rotation inside the men whose repair up takes it out, and for each outside those whose repair down
    /// takes it in.
    taken: Vec<u64>,
    /// For each man asked for, the men whom his repair up moves, and his repair down.
    up_moves: [u64; 64],
    down_moves: [u64; 64],
}

impl<'a> Repairs<'a> {
    /// The repairs for the pairs of the men in the set `asked`.
    pub fn of(instance: &Instance, poset: &'a Poset, matching: &Matching, asked: u64) -> Repairs<'a> {
        let count = poset.count();
        let mut repairs = Repairs {
            poset,
            inside: (0..count).map(|r| poset.is_eliminated(instance, matching, r)).collect(),
            produced_by: [NONE; 64],
            eliminated_by: [NONE; 64],
            taken: vec![0; count],
            up_moves: [0; 64],
            down_moves: [0; 64],
        };
        repairs.go_up(asked);
        repairs.go_down(asked);
        repairs
    }

    /// Rotations inside, the first first: each man is in the sets of the rotation that produces his pair (the last of the
    /// man's) and of all that come after it.
    fn go_up(&mut self, asked: u64) {
        for r in (0..self.poset.count()).filter(|&r| self.inside[r]) {
            self.poset.rotation(r).iter().for_each(|pair| self.produced_by[pair.man as usize & 63] = r as u16);
        }
        let mut moved_by = [0u64; 64];
        for r in (0..self.poset.count()).filter(|&r| self.inside[r]) {
            let mut takers = self.poset.before(r).iter().fold(0, |set, &b| set | self.taken[b as usize]);
            let pairs = self.poset.rotation(r);
            for pair in pairs.iter().filter(|pair| self.produced_by[pair.man as usize & 63] == r as u16) {
                takers |= 1 << pair.man & asked;
            }
            self.taken[r] = takers;
            pairs.iter().for_each(|pair| moved_by[pair.man as usize & 63] |= takers);
        }
        self.up_moves = transposed(moved_by);
    }

    /// Rotations outside, the last first: each man is in the sets of the rotation that eliminates his pair (the first
    /// of the man's) and of all that come before it.
    fn go_down(&mut self, asked: u64) {
        for r in (0..self.poset.count()).rev().filter(|&r| !self.inside[r]) {
            self.poset.rotation(r).iter().for_each(|pair| self.eliminated_by[pair.man as usize & 63] = r as u16);
        }
        let mut moved_by = [0u64; 64];
        for r in (0..self.poset.count()).rev().filter(|&r| !self.inside[r]) {
            let pairs = self.poset.rotation(r);
            for pair in pairs.iter().filter(|pair| self.eliminated_by[pair.man as usize & 63] == r as u16) {
                self.taken[r] |= 1 << pair.man & asked;
            }
            let takers = self.taken[r];
            for &b in self.poset.before(r).iter().filter(|&&b| !self.inside[b as usize]) {
                self.taken[b as usize] |= takers;
            }
            pairs.iter().for_each(|pair| moved_by[pair.man as usize & 63] |= takers);
        }
        self.down_moves = transposed(moved_by);
    }

    /// The answer for a man's pair: the repair that moves the smaller total weight, at equal totals up.
    pub fn answer(&self, man: u8, weights: &Weights) -> Answer {
        let man = man as usize & 63;
        let up = weights.total(self.up_moves[man]);
        let down = weights.total(self.down_moves[man]);
        match (self.produced_by[man] != NONE, self.eliminated_by[man] != NONE) {
            (true, true) if up <= down => Answer::Up(up),
            (true, false) => Answer::Up(up),
            (_, true) => Answer::Down(down),
            (false, false) => Answer::Fixed,
        }
    }

    /// The repaired matching of an answer for one pair.
    pub fn matching(&self, given: &Matching, man: u8, answer: Answer) -> Partners {
        let mut woman = given.woman;
        let taken = |&r: &usize| self.taken[r] >> man & 1 == 1;
        match answer {
            Answer::Up(_) => {
                let out = (0..self.poset.count()).rev().filter(|&r| self.inside[r]).filter(taken);
                out.for_each(|r| poset::restore(self.poset.rotation(r), &mut woman));
            }
            Answer::Down(_) => {
                let inward = (0..self.poset.count()).filter(|&r| !self.inside[r]).filter(taken);
                inward.for_each(|r| poset::eliminate(self.poset.rotation(r), &mut woman));
            }
            Answer::Two(..) | Answer::Fixed => {}
        }
        woman
    }
}

/// What is answered of all pairs of a matching.
pub struct All {
    /// The answer for each man's pair; none for a man who is alone.
    pub answers: Vec<Option<Answer>>,
    /// How many pairs are fixed.
    pub fixed: usize,
    /// The largest total of a repair, less the asking man's weight; none where no pair can be repaired.
    pub grade: Option<usize>,
}

/// The answers for all pairs of a matching, the number of those that are fixed, and the grade.
pub fn all(instance: &Instance, poset: &Poset, matching: &Matching, weights: &Weights) -> All {
    let repairs = Repairs::of(instance, poset, matching, u64::MAX);
    let paired = |m: u8| matching.woman[m as usize] != ALONE;
    let answer = |m| repairs.answer(m, weights);
    let answers: Vec<Option<Answer>> = (0..instance.n as u8).map(|m| paired(m).then(|| answer(m))).collect();
    let fixed = answers.iter().filter(|&&answer| answer == Some(Answer::Fixed)).count();
    let pairs = answers.iter().enumerate().filter_map(|(m, answer)| Some((m, answer.as_ref()?)));
    let repaired = pairs.filter(|(_, &answer)| answer != Answer::Fixed);
    let grade = repaired.map(|(m, answer)| answer.total() - weights.total(1 << m)).max();
    All { answers, fixed, grade }
}
