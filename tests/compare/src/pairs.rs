//! Two pairs at one go (W-207): the questions, good ones and ones that break each rule; and what the archive writes,
//! which has to be stable, to have both students where the letters say, to lie between the given matching and other
//! stable ones of the same sort, and to move no more than any stable one without both pairs.

use crate::both::{Both, Lent};
use crate::pairs_tally::letters;
use crate::sound::Sound;
use crate::weights;
use archive::between::{left, outside, side};
use independent::calls;
use independent::matching::ALONE;
use independent::reply::Reply;

/// How many ordered pairs of pairs a stable matching is asked about at most.
const ASKED: usize = 12;

impl Both {
    /// A request that is not for one pair, with weights or without.
    fn two_pairs(&mut self, book: &[u8], m: &[u8], weights: Option<&[u8]>, request: &[u8], rooms: [usize; 2]) -> Reply {
        let reply = match weights {
            None => self.repair(book, m, request, rooms[0], rooms[1]),
            Some(weights) => self.weighted_repair(book, m, weights, request, rooms),
        };
        self.tally.pairs[weights.is_some() as usize].count(m, request, reply);
        reply
    }

    /// What the archive has written for two pairs, where its reply has two letters. The inputs are a book, a matching
    /// and at the end the request.
    pub fn compare_two(&mut self, call: &str, inputs: &[&[u8]], reply: Reply, out: &mut Lent) {
        let (book, given, request) = (inputs[0], inputs[1], inputs[inputs.len() - 1]);
        let (Some(letters), &[first, _, second, _]) = (letters(reply), request) else {
            return;
        };
        let known = (first.max(second) as usize) < given.len();
        let Some(repaired) = out.buffer().get(..given.len()).filter(|_| known) else {
            return;
        };
        if calls::check_matching(book, repaired) != Reply::default() {
            return self.tally.differ(call, inputs, format!("{repaired:?}"), "a stable matching".to_string());
        }
        let sides = |other: &[u8]| [first, second].map(|student| side(book, given, other, student.into()));
        if sides(repaired) != letters.map(Some) {
            let given = format!("{repaired:?}, where these are {:?}", sides(repaired));
            self.tally.differ(call, inputs, given, format!("students {first} and {second} as {letters:?} says"));
        }
        let weighted = (call == "weighted_repair") as usize;
        for other in self.beside.iter().filter(|other| sides(other) == letters.map(Some)) {
            self.tally.pairs[weighted].count_beside(reply, left(given, repaired, other));
            if let Some(at) = outside(book, given, repaired, other) {
                let inputs = [inputs, &[other]].concat();
                let due = "for each student a mentor between the given one and the one in the last input";
                self.tally.differ(call, &inputs, format!("{repaired:?}, student {at}"), due.to_string());
            }
        }
    }

    /// No stable matching without both pairs moves less weight than the archive reports, and there is none where it
    /// answers with F.
    pub fn compare_least(&mut self, call: &str, inputs: &[&[u8]], weights: &[u8], reply: Reply) {
        let (given, request) = (inputs[1], inputs[inputs.len() - 1]);
        let fixed = reply.letter == 'F' as usize;
        if !(fixed || letters(reply).is_some()) || request.len() != 4 {
            return;
        }
        let lacks_both = |other: &[u8]| request.chunks(2).all(|pair| other.get(pair[0] as usize) != Some(&pair[1]));
        for other in self.beside.iter().filter(|other| lacks_both(other)) {
            let moved = given.iter().zip(other).zip(weights).filter(|((old, new), _)| old != new);
            let total: usize = moved.map(|(_, &weight)| weight as usize).sum();
            if fixed || total < reply.value {
                let inputs = [inputs, &[other]].concat();
                let due = format!("at most {total}, the last input being without both pairs");
                self.tally.differ(call, &inputs, format!("{reply:?}"), due);
            }
        }
    }
}

impl Sound {
    /// A stable matching by ordered pairs of its pairs, some of them the same pair twice, plain and weighted. `alone`
    /// are the plain answers for each student's pair.
    pub fn ask_pairs(&self, both: &mut Both, matching: &[u8], alone: &[Reply]) {
        let placed: Vec<usize> = (0..self.n).filter(|&student| matching[student] != ALONE).collect();
        let weights = weights::any(self.n, &mut both.random);
        for _ in 0..ASKED.min(placed.len() * placed.len()) {
            let first = placed[both.random.below(placed.len())];
            let second = if both.random.once_in(8) { first } else { placed[both.random.below(placed.len())] };
            let request = [first as u8, matching[first], second as u8, matching[second]];
            let more = both.random.below(3);
            let rooms = [self.n + more, self.n + 2 - more];
            let plain = both.two_pairs(&self.book, matching, None, &request, rooms);
            let weighted = both.two_pairs(&self.book, matching, Some(&weights), &request, rooms);
            if first != second {
                let tally = &mut both.tally.pairs;
                tally[0].count_fixed(plain, [alone[first], alone[second]]);
                tally[1].count_fixed(weighted, [alone[first], alone[second]]);
                tally[1].weigh(plain, weighted);
            }
        }
    }

    /// Requests and buffers that break 13, 11, 12 and 14, on the first pair, on the second and on both, with weights
    /// that are right and that break 17.
    pub fn ask_bad_pairs(&self, both: &mut Both, stable: &[u8]) {
        let (n, less) = (self.n, self.n.saturating_sub(1));
        for request in self.bad_pairs(both, stable) {
            let short = [[less, n], [n, less], [0, 0]][both.random.below(3)];
            for rooms in [[n, n], short] {
                both.two_pairs(&self.book, stable, None, &request, rooms);
                let (right, wrong) = (weights::any(n, &mut both.random), weights::any_length(n, &mut both.random));
                both.two_pairs(&self.book, stable, Some(&right), &request, rooms);
                both.two_pairs(&self.book, stable, Some(&wrong), &request, rooms);
            }
        }
    }

    /// Requests of other lengths, made of right pairs or wrong throughout; and of four bytes, made of pairs each of
    /// which is right or wrong in some way, some of them with one student or one mentor twice.
    fn bad_pairs(&self, both: &mut Both, stable: &[u8]) -> Vec<Vec<u8>> {
        let (n, some) = (self.n as u8, self.n.max(1));
        let [first, second, other] = [both.random.below(some), both.random.below(some), both.random.below(some)];
        let right = [first, second].map(|student| [student as u8, stable.get(student).copied().unwrap_or(0)]);
        let (alone, [student, mentor], other) = (self.alone().next().unwrap_or(0) as u8, right[0], other as u8);
        let mut requests = vec![right.concat(), [right[0]; 2].concat()];
        for length in [0, 1, 3, 5, 6, 8, 5 + both.random.below(300)] {
            requests.push(right.concat().into_iter().cycle().take(length).collect());
            requests.push(vec![n; length]);
        }
        let unknown = [[n, mentor], [student, n], [255, 255], [alone, ALONE]];
        let parted = [[student, other], [other, mentor], [alone, 0]];
        let wrong = [&unknown[..], &parted].concat();
        for &pair in &wrong {
            requests.extend([[right[0], pair], [pair, right[1]], [pair, pair]].map(|pairs| pairs.concat()));
            requests.push([pair, wrong[both.random.below(wrong.len())]].concat());
        }
        requests
    }
}

/// A book and a matching of which one may break a rule, with requests for two pairs, weights and buffers that may too.
pub fn ask_bad(both: &mut Both, book: &[u8], matching: &[u8], n: usize) {
    let mut student = || both.random.below(matching.len().max(1));
    let [first, second] = [student(), student()];
    let mentor = |student: usize| matching.get(student).copied().unwrap_or(0);
    let request = [first as u8, mentor(first), second as u8, mentor(second)];
    let weights = weights::any_length(n, &mut both.random);
    both.two_pairs(book, matching, None, &request, [n, n]);
    both.two_pairs(book, matching, None, &[n as u8; 4], [0, n]);
    both.two_pairs(book, matching, Some(&weights), &request, [n, n]);
    both.two_pairs(book, matching, Some(&weights), &[n as u8; 5], [n, 0]);
}
