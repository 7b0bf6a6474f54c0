//! Rules 15, 16 and 14: bytes that are asked about as a set of rotations.

use crate::both::Both;
use listing::asked::Asked;

/// Rotations up to which all sets are asked, and up to which all marks 0, 1, 2 and 255 are.
const ALL_SETS: usize = 7;
const ALL_MARKS: usize = 3;

impl Both {
    /// Asks for the matchings of sets: closed and not, of wrong lengths, with marks over 1.
    pub fn ask_marks(&mut self, book: &Asked, n: usize) {
        let rotations = book.runs().rotations.len();
        for length in 0..=rotations + 2 {
            self.ask_set_rooms(book, &vec![0; length], n);
            self.ask_set_rooms(book, &vec![1; length], n);
        }
        if rotations <= ALL_MARKS {
            self.ask_all_sets(book, n, &[0, 1, 2, 255], rotations);
        } else if rotations <= ALL_SETS {
            self.ask_all_sets(book, n, &[0, 1], rotations);
        }
        for stable in book.listing().stable() {
            self.ask_near_sets(book, n, book.runs().set_of(stable));
        }
    }

    /// Asks of all sets with these marks.
    fn ask_all_sets(&mut self, book: &Asked, n: usize, marks: &[u8], rotations: usize) {
        for number in 0..marks.len().pow(rotations as u32) {
            let mark = |at: usize| marks[number / marks.len().pow(at as u32) % marks.len()];
            let set: Vec<u8> = (0..rotations).map(mark).collect();
            self.ask_set_rooms(book, &set, n);
        }
    }

    /// Asks of a closed set with one mark exchanged, or over 1.
    fn ask_near_sets(&mut self, book: &Asked, n: usize, closed: &[u8]) {
        for at in 0..closed.len() {
            for mark in [1 - closed[at], 2, 255] {
                let mut set = closed.to_vec();
                set[at] = mark;
                self.ask_set_rooms(book, &set, n);
            }
        }
    }

    /// Asks of one set with a buffer that is long enough, and with ones that are too short.
    fn ask_set_rooms(&mut self, book: &Asked, set: &[u8], n: usize) {
        for room in [n, n.saturating_sub(1), 0] {
            self.set_to_matching(book, set, room);
        }
    }
}
