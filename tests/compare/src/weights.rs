//! Questions with weights: weights of several kinds, and weights of a wrong length.

use crate::both::Both;
use crate::sound::Sound;
use independent::random::Random;
use independent::reply::Reply;

/// A weight for each of n students: all bytes, only 0 and 1, only 0 to 2, all 0, all 1, all 255, one heavy student
/// among others of weight 1, or one of weight 1 among others of weight 0.
pub fn any(n: usize, random: &mut Random) -> Vec<u8> {
    let heavy = random.below(n.max(1));
    let kind = random.below(8);
    let weight = |i: usize| match kind {
        0 => random.below(2) as u8,
        1 => random.below(3) as u8,
        2 => 0,
        3 => 1,
        4 => 255,
        5 => [1, 255][(i == heavy) as usize],
        6 => (i == heavy) as u8,
        _ => random.byte(),
    };
    (0..n).map(weight).collect()
}

/// Weights of the right length or, as often, of a wrong one.
pub fn any_length(n: usize, random: &mut Random) -> Vec<u8> {
    let length = match random.below(8) {
        0 => n.saturating_sub(1),
        1 => n + 1,
        2 => 0,
        3 => 2 * n,
        _ => n,
    };
    any(length, random)
}

impl Sound {
    /// A stable matching with weights: its grade, its sheet and the repairs of all its pairs, beside the plain answers.
    pub fn ask_weighted(&self, both: &mut Both, matching: &[u8], plain: &[Reply]) {
        let weights = any(self.n, &mut both.random);
        both.weighted_grade(&self.book, matching, &weights);
        let input = [&self.book[..], matching, &weights].concat();
        let size = independent::sheet::weighted_text(&input).len();
        for room in [size, size - 1, 1024] {
            both.weighted_sheet(&input, room);
        }
        for man in 0..self.n {
            let more = both.random.below(3);
            let (request, rooms) = ([man as u8, matching[man]], [self.n + 2 - more, self.n + more]);
            let weighted = both.weighted_repair(&self.book, matching, &weights, &request, rooms);
            both.tally.weigh(plain[man], weighted);
        }
    }

    /// Weights that break 17, alone and with requests and buffers that break the rules after it.
    pub fn ask_bad_weights(&self, both: &mut Both, stable: &[u8]) {
        let n = self.n;
        let own = stable.first().copied().unwrap_or(0);
        for length in [n.saturating_sub(1), n + 1, 0, 2 * n] {
            let (weights, little_room) = (any(length, &mut both.random), both.random.below(12));
            both.weighted_grade(&self.book, stable, &weights);
            let input = [&self.book[..], stable, &weights].concat();
            both.weighted_sheet(&input, 1024);
            both.weighted_sheet(&input, little_room);
            for request in [&[0, own][..], &[], &[0], &[n as u8, own], &[0, own.wrapping_add(1)]] {
                both.weighted_repair(&self.book, stable, &weights, request, [n, n]);
                both.weighted_repair(&self.book, stable, &weights, request, [n, 0]);
            }
        }
    }

    /// A matching that breaks 8, 9 or 10, with weights that are good or bad and a request that is.
    pub fn ask_weighted_bad_matching(&self, both: &mut Both, matching: &[u8]) {
        let weights = any_length(self.n, &mut both.random);
        let request = [0, matching.first().copied().unwrap_or(0), 0];
        let length = 1 + both.random.below(3);
        both.weighted_grade(&self.book, matching, &weights);
        both.weighted_sheet(&[&self.book[..], matching, &weights].concat(), 1024);
        both.weighted_repair(&self.book, matching, &weights, &request[..length], [self.n, self.n]);
    }
}
