//! The writer: rules 3, 1, 4, 6, 7 and 14, alone and together, and the largest book.

use crate::beyond::HUGE;
use crate::both::Both;
use listing::asked::Asked;
use listing::book;

impl Both {
    /// Writes the book of these lists, of lists that are cut, lengthened or changed, and with an n that is not theirs.
    pub fn ask_writer(&mut self, n: usize, lists: &[u8]) {
        let size = book::size(n);
        for room in 0..=size + 2 {
            self.write_book(n, lists, room);
        }
        let longer = [lists, &[0, 1]].concat();
        for length in 0..=longer.len() {
            self.write_book(n, &longer[..length], size);
            self.write_book(n, &longer[..length], 0);
        }
        for other in [n + 1, n.saturating_sub(1), 65].into_iter().chain(HUGE) {
            self.write_book(other, lists, size);
            self.write_book(other, &[], 0);
        }
        self.ask_changed_lists(n, lists);
    }

    /// Writes lists with one byte changed, which breaks 6 or 7, and with two, where the first fault counts.
    fn ask_changed_lists(&mut self, n: usize, lists: &[u8]) {
        let size = book::size(n);
        for at in 0..lists.len() {
            for entry in (0..=n as u8).chain([64, 255]) {
                let mut changed = lists.to_vec();
                changed[at] = entry;
                self.write_book(n, &changed, size);
                self.write_book(n, &changed, size - 1);
                let opposite = lists.len() - 1 - at;
                changed[opposite] = n as u8;
                self.write_book(n, &changed, size);
            }
        }
    }

    /// Writes and checks the largest book, also with too little room, short of a byte, with its last entry changed, and
    /// with n one more.
    pub fn ask_largest(&mut self) {
        let mut lists: Vec<u8> = (0..2 * book::LARGEST).flat_map(|_| 0..book::LARGEST as u8).collect();
        let size = book::size(book::LARGEST);
        let mut largest = self.write_book(book::LARGEST, &lists, size + 1);
        self.write_book(book::LARGEST, &lists, size - 1);
        self.check_book(&Asked::new(&largest));
        self.check_book(&Asked::new(&largest[..size - 1]));
        for (entry, number) in [(0, 7), (64, 6)] {
            *lists.last_mut().expect("there are lists") = entry;
            self.write_book(book::LARGEST, &lists, size);
            *largest.last_mut().expect("there are lists") = entry;
            let due = self.check_book(&Asked::new(&largest));
            self.expect(due.number == number, "the rule that the last entry of the largest book breaks");
        }
        largest[1] += 1;
        self.check_book(&Asked::new(&largest));
    }
}
