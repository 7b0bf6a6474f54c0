//! Repairs that are asked for by a mentor's number (W-205): the calls, and what is asked by them in the first part and,
//! of damaged books and of weights, in the second.

use crate::both::Both;
use crate::calls::Call;
use crate::tally::letter_place;
use crate::weights::WEIGHTS;
use archive::Reply;
use listing::asked::Asked;

/// Rooms that are enough for n up to 6: a matching and gains.
const ROOMS: (usize, usize) = (16, 16);

impl Both {
    /// The repair of a mentor's pair, with result buffers of these lengths.
    pub fn repair_mentor(&mut self, book: &Asked, matching: &[u8], mentor: u8, rooms: (usize, usize)) -> Reply {
        let archive =
            |out: &mut [u8], gains: &mut [i8]| archive::repair_mentor(book.book(), matching, mentor, out, gains);
        let listing = |out: &mut [u8], gains: &mut [i8]| book.repair_mentor(matching, mentor, out, gains);
        let inputs = [book.book(), matching, &[mentor]];
        let both = self.lending_both(Call::RepairMentor, &inputs, &vec![1; matching.len()], rooms, archive, listing);
        self.compare_between(Call::RepairMentor, book, matching, &[mentor], both)
    }

    /// The weighted repair of a mentor's pair, with result buffers of these lengths.
    pub fn weighted_repair_mentor(
        &mut self,
        book: &Asked,
        matching: &[u8],
        weights: &[u8],
        mentor: u8,
        rooms: (usize, usize),
    ) -> Reply {
        let archive = |out: &mut [u8], gains: &mut [i8]| {
            archive::weighted_repair_mentor(book.book(), matching, weights, mentor, out, gains)
        };
        let listing =
            |out: &mut [u8], gains: &mut [i8]| book.weighted_repair_mentor(matching, weights, mentor, out, gains);
        let inputs = [book.book(), matching, weights, &[mentor]];
        let both = self.lending_both(Call::WeightedRepairMentor, &inputs, weights, rooms, archive, listing);
        self.compare_between(Call::WeightedRepairMentor, book, matching, &[mentor], both)
    }

    /// Asks a stable matching by the number of each mentor, by n and by 255.
    pub fn ask_mentors(&mut self, book: &Asked, matching: &[u8]) {
        for mentor in (0..=matching.len() as u8).chain([255]) {
            let due = self.repair_mentor(book, matching, mentor, ROOMS);
            match due.number {
                0 => self.tally.letters_by_mentor[letter_place(due.letter)] += 1,
                rule => self.tally.mentors_alone += (rule == 12) as usize,
            }
        }
    }

    /// Asks the same with weights.
    pub fn ask_weighted_mentors(&mut self, book: &Asked, matching: &[u8], weights: &[u8]) {
        for mentor in (0..=matching.len() as u8).chain([255]) {
            let due = self.weighted_repair_mentor(book, matching, weights, mentor, ROOMS);
            if due.number == 0 {
                self.tally.weighted_letters_by_mentor[letter_place(due.letter)] += 1;
            }
        }
    }

    /// Asks with these weights by numbers and with buffers that are right, and with ones that break 11, 12 or 14.
    pub fn ask_mentors_of_weights(&mut self, book: &Asked, matching: &[u8], weights: &[u8]) {
        let n = matching.len();
        for mentor in some(matching) {
            for rooms in [(n, n), (0, n), (n, 0)] {
                self.weighted_repair_mentor(book, matching, weights, mentor, rooms);
            }
        }
    }

    /// Asks a damaged copy of a book, where the other inputs are right and where they break every later rule.
    pub fn ask_damaged_by_mentor(&mut self, copy: &Asked, matching: &[u8]) {
        let (n, own) = (matching.len(), matching.first().copied().unwrap_or(0));
        self.repair_mentor(copy, matching, own, (n, n));
        self.repair_mentor(copy, &[255, 255, 255], 255, (0, 0));
        self.weighted_repair_mentor(copy, matching, &WEIGHTS[..n], own, (n, n));
        self.weighted_repair_mentor(copy, &[255, 255, 255], &[0; 9], 255, (0, 0));
    }
}

/// The mentor of student 0, one who is alone, if there is one, and n and 255, which no mentor has for a number.
fn some(matching: &[u8]) -> impl Iterator<Item = u8> {
    let n = matching.len() as u8;
    let alone = (0..n).find(|mentor| !matching.contains(mentor));
    matching.first().copied().into_iter().chain(alone).chain([n, 255])
}

#[cfg(test)]
mod tests {
    use super::*;

    /// One who is alone is among them where there is one.
    #[test]
    fn some_mentors() {
        let all = |matching: &[u8]| some(matching).collect::<Vec<_>>();
        assert_eq!(all(&[]), [0, 255]);
        assert_eq!(all(&[2, 0, 1]), [2, 3, 255]);
        assert_eq!(all(&[0, 255, 2]), [0, 1, 3, 255]);
        assert_eq!(all(&[255, 255]), [255, 0, 2, 255]);
    }
}
