//! Rule 17: bytes that are asked about as weights, alone and where other rules are broken too, and inputs of the
//! weighted sheet that end early or late.

use crate::both::Both;
use listing::asked::Asked;
use listing::book;

/// Weights for n up to 6, of which the first n are taken, and two bytes more.
pub const WEIGHTS: [u8; 8] = [3, 0, 255, 7, 1, 20, 1, 0];

/// A room that is enough for a weighted sheet for n up to 6, and one that is too short for any but that of n = 0.
const SHEET_ROOMS: [usize; 2] = [96, 9];

impl Both {
    /// Asks each stable matching of a book with weights of every length to n + 2.
    pub fn ask_weights(&mut self, book: &Asked, n: usize) {
        for stable in book.listing().stable() {
            let matching = stable.bytes();
            for length in 0..=n + 2 {
                self.ask_weights_of(book, &matching, &WEIGHTS[..length]);
            }
            self.ask_cut_inputs(book, &matching);
        }
    }

    /// Asks with these weights, with a request for one pair or two and buffers that are right, and with ones that break
    /// 13, 11, 12 or 14.
    fn ask_weights_of(&mut self, book: &Asked, matching: &[u8], weights: &[u8]) {
        let n = matching.len();
        self.weighted_grade(book, matching, weights);
        let own = matching.first().copied().unwrap_or(0);
        let last = n.saturating_sub(1) as u8;
        let other = matching.last().copied().unwrap_or(0);
        let one: [&[u8]; 5] = [&[0, own], &[], &[0, own, 0], &[n as u8, own], &[0, own ^ 1]];
        let two: [&[u8]; 4] =
            [&[0, own, last, other], &[0, own, n as u8, own], &[0, own, last, own ^ 1], &[0, own, last, other, 0]];
        for request in one.into_iter().chain(two) {
            for rooms in [(n, n), (0, n), (n, 0)] {
                self.weighted_repair(book, matching, weights, request, rooms);
            }
        }
        self.ask_mentors_of_weights(book, matching, weights);
        for room in SHEET_ROOMS {
            self.weighted_sheet(&[book.book(), matching, weights].concat(), room);
        }
    }

    /// Asks for the weighted sheet of inputs that end within two bytes of the end of the book, of the matching or of
    /// the weights, or between these; with a matching, and with bytes that are none.
    fn ask_cut_inputs(&mut self, book: &Asked, matching: &[u8]) {
        let n = matching.len();
        let clash = vec![0; n];
        for after in [matching, &clash] {
            let input = [book.book(), after, &WEIGHTS[..n], &[1, 1]].concat();
            for length in book.book().len() - 2..=input.len() {
                for room in SHEET_ROOMS {
                    self.weighted_sheet(&input[..length], room);
                }
            }
        }
    }

    /// Asks the largest book with other than 64 weights, for which no matching has to be listed. All lists are alike,
    /// so that each man with the woman of his number is stable. With 65 weights the sheet's input has 8,835 bytes.
    pub fn ask_largest_weights(&mut self) {
        let lists: Vec<u8> = (0..2 * book::LARGEST).flat_map(|_| 0..book::LARGEST as u8).collect();
        let bytes = book::write(book::LARGEST, &lists, book::size(book::LARGEST)).expect("lists that break no rule");
        let matching: Vec<u8> = (0..book::LARGEST as u8).collect();
        for length in [0, 63, 65, 128] {
            self.ask_weights_of(&Asked::new(&bytes), &matching, &vec![255; length]);
        }
    }
}
