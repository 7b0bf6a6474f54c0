//! Repairs that are asked for by a mentor's number (W-205): the calls on both libraries, and the questions, good ones
//! and ones that break each rule.

use crate::both::Both;
use crate::sound::Sound;
use crate::weights;
use independent::calls;

impl Both {
    pub fn repair_mentor(&mut self, book: &[u8], m: &[u8], mentor: u8, rooms: [usize; 2]) {
        let reply = self.lending_two(
            "repair_mentor",
            &[book, m, &[mentor]],
            &vec![1; m.len()],
            rooms,
            |out, gains| archive::repair_mentor(book, m, mentor, out, gains),
            |out, gains| calls::repair_mentor(book, m, mentor, out, gains),
        );
        self.tally.count_by_mentor(reply);
    }

    pub fn weighted_repair_mentor(&mut self, book: &[u8], m: &[u8], weights: &[u8], mentor: u8, rooms: [usize; 2]) {
        let reply = self.lending_two(
            "weighted_repair_mentor",
            &[book, m, weights, &[mentor]],
            weights,
            rooms,
            |out, gains| archive::weighted_repair_mentor(book, m, weights, mentor, out, gains),
            |out, gains| calls::weighted_repair_mentor(book, m, weights, mentor, out, gains),
        );
        self.tally.count_by_mentor(reply);
    }
}

impl Sound {
    /// A stable matching by each mentor's number, whether she is alone or not, and by n.
    pub fn ask_mentors(&self, both: &mut Both, matching: &[u8]) {
        let weights = weights::any(self.n, &mut both.random);
        for mentor in 0..=self.n as u8 {
            let more = both.random.below(3);
            let rooms = [self.n + more, self.n + 2 - more];
            both.repair_mentor(&self.book, matching, mentor, rooms);
            both.weighted_repair_mentor(&self.book, matching, &weights, mentor, rooms);
        }
    }

    /// Numbers and buffers that break 11, 12 and 14, alone and together, with weights that are right and that break 17.
    pub fn ask_bad_mentors(&self, both: &mut Both, stable: &[u8]) {
        let (n, less) = (self.n, self.n.saturating_sub(1));
        let alone = (0..n as u8).find(|mentor| !stable.contains(mentor));
        let numbers = [n as u8, 64, 255, both.random.byte(), stable.first().copied().unwrap_or(0)];
        for mentor in numbers.into_iter().chain(alone) {
            for rooms in [[n, n], [less, n], [n, less], [0, 0]] {
                both.repair_mentor(&self.book, stable, mentor, rooms);
                for length in [n, n + 1, less] {
                    let weights = weights::any(length, &mut both.random);
                    both.weighted_repair_mentor(&self.book, stable, &weights, mentor, rooms);
                }
            }
        }
    }
}

/// A book and a matching of which one may break a rule, with mentors' numbers, weights and buffers that may too.
pub fn ask_bad(both: &mut Both, book: &[u8], matching: &[u8], n: usize) {
    let own = matching.first().copied().unwrap_or(0);
    let (any, weights) = (both.random.byte(), weights::any_length(n, &mut both.random));
    both.repair_mentor(book, matching, own, [n, n]);
    both.repair_mentor(book, matching, any, [0, n]);
    both.weighted_repair_mentor(book, matching, &weights, own, [n, n]);
    both.weighted_repair_mentor(book, matching, &weights, any, [n, 0]);
}
