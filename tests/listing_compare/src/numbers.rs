//! Rules 3 and 11 on numbers: sizes of books, and people and rotations that no book has.

use crate::beyond::HUGE;
use crate::both::Both;
use listing::asked::Asked;

impl Both {
    /// Asks for the size of each book there may be, and of some that are too large.
    pub fn ask_sizes(&mut self) {
        for n in (0..=66).chain(HUGE) {
            self.book_size(n);
        }
    }

    /// Asks for the lists and the order of people and rotations, with numbers that there are and that there are not.
    pub fn ask_numbers(&mut self, book: &Asked, n: usize) {
        for number in (0..=n + 1).chain([63, 64, 128]).chain(HUGE) {
            self.student_list(book, number);
            self.mentor_list(book, number);
        }
        let rotations = book.runs().rotations.len();
        let numbers = || (0..=rotations + 1).chain(HUGE);
        for first in numbers() {
            for second in numbers() {
                self.precedes(book, first, second);
            }
        }
    }
}
