//! What is asked of stable matchings with weights in the first part: the answers for all pairs, also by their mentors,
//! and for each two pairs, the grade and the sheet. Result buffers are long enough.

use crate::both::Both;
use crate::draw::Draw;
use crate::tally::letter_place;
use archive::NO_GRADE;
use listing::asked::Asked;
use listing::matching::Matching;
use listing::people::{Man, Woman};
use listing::weights::Weights;

/// Rooms that are enough for n up to 6: a matching and gains; a weighted sheet.
const ROOMS: (usize, usize) = (16, 16);
const SHEET_ROOM: usize = 96;

/// Weights number k of n men, of the weights 0, 1 and 2: each digit of k to the base 3 is a weight.
fn numbered(n: usize, k: usize) -> Vec<u8> {
    (0..n as u32).map(|man| (k / 3usize.pow(man) % 3) as u8).collect()
}

impl Both {
    /// Asks every stable matching of a book for n up to 3 with all weights 0, 1 and 2. A book of n = 3 with one stable
    /// matching, in which every pair is fixed whatever anybody weighs, is asked with one of the 27 tables, by its
    /// number: each of these 34,080 books meets one table, and each table more than a thousand of them. Each two pairs
    /// are asked for with one in nine tables of n = 3, again by the number of the book.
    pub fn ask_all_weights(&mut self, n: usize, book: &Asked, number: usize) {
        let tables = 3usize.pow(n as u32);
        let stable = book.listing().stable();
        for table in 0..tables {
            if n < 3 || stable.len() > 1 || table == number % tables {
                for matching in stable {
                    let weights = numbered(n, table);
                    self.ask_weighted(book, matching, &weights);
                    if n < 3 || table % 9 == number % 9 {
                        self.ask_weighted_pairs(book, matching, &weights);
                    }
                }
            }
        }
    }

    /// Asks a stable matching with drawn weights: any bytes, and weights 0, 1 and 2.
    pub fn ask_drawn_weights(&mut self, n: usize, book: &Asked, stable: &Matching, draw: &mut Draw) {
        for end in [256, 3] {
            let weights: Vec<u8> = (0..n).map(|_| draw.below(end) as u8).collect();
            self.ask_weighted(book, stable, &weights);
            self.ask_weighted_pairs(book, stable, &weights);
        }
    }

    /// Asks a stable matching with weights.
    fn ask_weighted(&mut self, book: &Asked, stable: &Matching, weights: &[u8]) {
        self.tally.weighted_matchings += 1;
        let matching = stable.bytes();
        for man in Man::all(matching.len()) {
            match stable.woman_of(man) {
                Some(woman) => self.ask_weighted_pair(book, stable, weights, (man, woman)),
                None => {
                    self.weighted_repair(book, &matching, weights, &[man.0, 0], ROOMS);
                }
            }
        }
        self.ask_weighted_mentors(book, &matching, weights);
        let grade = self.weighted_grade(book, &matching, weights).value;
        self.tally.weighted_grades += if grade == NO_GRADE { 0 } else { grade };
        self.weighted_sheet(&[book.book(), &matching, weights].concat(), SHEET_ROOM);
    }

    /// Asks for the weighted repair of a man's pair, than which no stable matching without the pair weighs less.
    fn ask_weighted_pair(&mut self, book: &Asked, stable: &Matching, weights: &[u8], (man, woman): (Man, Woman)) {
        let due = self.weighted_repair(book, &stable.bytes(), weights, &[man.0, woman.0], ROOMS);
        self.tally.weighted_letters[letter_place(due.letter)] += 1;
        self.tally.weighted_totals += due.value;
        let weights = Weights::read(weights.len(), weights).expect("a weight for each man");
        let least = book.listing().least_total(stable, man, weights);
        self.expect(due.value == least.unwrap_or(0), "the least total of a stable matching without the pair");
    }
}

#[cfg(test)]
mod tests {
    use super::*;

    /// All weights 0, 1 and 2 have a number.
    #[test]
    fn all_weights_are_numbered() {
        let mut all: Vec<Vec<u8>> = (0..27).map(|k| numbered(3, k)).collect();
        all.sort();
        all.dedup();
        assert_eq!((all.len(), &all[0][..], &all[26][..]), (27, &[0, 0, 0][..], &[2, 2, 2][..]));
    }
}
