//! Counts of what requests for two pairs have met (W-207), for the plain call or the weighted one.

use independent::reply::Reply;
use std::fmt::Write;

/// The letters of the sorts.
const SORTS: [[char; 2]; 4] = [['U', 'U'], ['U', 'D'], ['D', 'U'], ['D', 'D']];

/// The letters of a reply for two pairs; none where it is fixed, refused or of one pair.
pub fn letters(reply: Reply) -> Option<[char; 2]> {
    SORTS.into_iter().find(|&[first, second]| reply.letter == first as usize + 256 * second as usize)
}

#[derive(Default)]
pub struct PairsTally {
    /// Answers with the letters of each sort.
    sorts: [usize; 4],
    /// Those that move students who weigh more than 0 and leave others who do.
    mixed: [usize; 4],
    /// Stable matchings beside those of each sort: all, and those that move students whom the answer leaves.
    beside: [[usize; 2]; 4],
    /// Fixed pairs: all, and those of which neither is fixed alone.
    fixed: [usize; 2],
    /// Answers with U, D and F to the same pair twice.
    same: [usize; 3],
    /// Weighted answers with the letters of each sort where the plain ones are others.
    turned: [usize; 4],
    /// Refusals by number, at 0 the calls that were not refused; then 11 and 12 by the pair that breaks the rule.
    refusals: [usize; 20],
    by_pair: [[usize; 2]; 2],
}

impl PairsTally {
    /// Counts the answer to a request for a given matching.
    pub fn count(&mut self, given: &[u8], request: &[u8], reply: Reply) {
        self.refusals[reply.number] += 1;
        if let ([first, mentor, ..], 11 | 12) = (request, reply.number) {
            let right = given.get(*first as usize) == Some(mentor) && (*mentor as usize) < given.len();
            self.by_pair[reply.number - 11][right as usize] += 1;
        }
        let same = request.len() == 4 && request[..2] == request[2..];
        if let Some(letter) = ['U', 'D', 'F'].iter().position(|&c| same && c as usize == reply.letter) {
            self.same[letter] += 1;
        }
        if let Some(sort) = sort(reply) {
            self.sorts[sort] += 1;
        }
    }

    /// Counts the answer for two pairs that are not the same beside those for each of them.
    pub fn count_fixed(&mut self, both: Reply, alone: [Reply; 2]) {
        let fixed = |reply: Reply| reply.letter == 'F' as usize;
        self.fixed[0] += fixed(both) as usize;
        self.fixed[1] += (fixed(both) && !alone.into_iter().any(fixed)) as usize;
    }

    /// Counts a weighted answer beside the plain one for the same two pairs.
    pub fn weigh(&mut self, plain: Reply, weighted: Reply) {
        if let Some(sort) = sort(weighted) {
            self.turned[sort] += (plain.letter != weighted.letter) as usize;
        }
    }

    /// Counts an answer by the total weights of the students whom it moves and of those whom it leaves.
    pub fn count_mixed(&mut self, reply: Reply, moved: usize, left: usize) {
        if let Some(sort) = sort(reply) {
            self.mixed[sort] += (moved > 0 && left > 0) as usize;
        }
    }

    /// Counts a stable matching beside an answer, by how many students it moves and the answer leaves.
    pub fn count_beside(&mut self, reply: Reply, left: usize) {
        if let Some(sort) = sort(reply) {
            self.beside[sort][0] += 1;
            self.beside[sort][1] += (left > 0) as usize;
        }
    }

    /// What never occurred and should have, of the plain call or of the weighted one.
    pub fn missing(&self, weighted: bool) -> Vec<String> {
        let mut all = vec![];
        for (sort, letters) in SORTS.iter().enumerate() {
            let letters: String = letters.iter().collect();
            all.push((self.sorts[sort], format!("letters {letters}")));
            all.push((self.mixed[sort], format!("{letters} that moves students and leaves others")));
            all.push((self.beside[sort][1], format!("{letters} that leaves whom a stable matching moves")));
            all.push((if weighted { self.turned[sort] } else { 1 }, format!("weights that give {letters}")));
        }
        all.push((self.fixed[0], "fixed pairs".to_string()));
        all.push((self.fixed[1], "fixed pairs of which neither is fixed alone".to_string()));
        for (letter, times) in ['U', 'D', 'F'].iter().zip(self.same) {
            all.push((times, format!("{letter} to the same pair twice")));
        }
        let rules = (0..20).filter(|k| ![15, 16].contains(k) && (weighted || *k != 17));
        rules.for_each(|k| all.push((self.refusals[k], format!("refusal {k}"))));
        for (number, pairs) in [11, 12].iter().zip(self.by_pair) {
            all.push((pairs[0], format!("refusal {number} by the first pair")));
            all.push((pairs[1], format!("refusal {number} by the second pair")));
        }
        let never = all.into_iter().filter(|(times, _)| *times == 0);
        never.map(|(_, what)| format!("{what} ({})", words(weighted))).collect()
    }

    pub fn print(&self, weighted: bool) {
        let ([uu, ud, du, dd], [fixed, together], [up, down, same_fixed]) = (self.sorts, self.fixed, self.same);
        println!("{}: UU {uu}, UD {ud}, DU {du}, DD {dd}, F {fixed}, neither fixed alone {together}", words(weighted));
        println!("    the same pair twice: U {up}, D {down}, F {same_fixed}");
        println!(
            "    that move students and leave others: {:?}; other letters by weights: {:?}",
            self.mixed, self.turned
        );
        println!("    stable matchings beside, and those that move students whom these leave: {:?}", self.beside);
        let mut line = "    refused".to_string();
        for (number, times) in self.refusals.iter().enumerate().skip(1) {
            write!(line, " {number}: {times}").expect("a string takes everything");
        }
        println!("{line}; 11 and 12 by each pair: {:?}", self.by_pair);
    }
}

/// The number of the sort whose letters a reply has.
fn sort(reply: Reply) -> Option<usize> {
    let letters = letters(reply)?;
    SORTS.iter().position(|&sort| sort == letters)
}

fn words(weighted: bool) -> &'static str {
    ["two pairs", "two pairs, weighted"][weighted as usize]
}
