//! The second part: each rule of document 01's table and of W-203, with its place, on every call that has it, for
//! fewer books.

use crate::both::Both;
use crate::draw::Draw;
use crate::lists::{books, drawn, numbered, KINDS};
use crate::short_lists::{self, WAYS};
use listing::asked::Asked;

/// The step by which books of edition 1 for n = 3 are taken by number, and how many of each kind are drawn for n = 4
/// to 6.
const STEP: usize = 331;
const DRAWN: usize = 10;

/// How many books of edition 2 are drawn of each kind and way for n = 3 to 6; and of those for n = 2, of which each is
/// taken, one in so many has two bytes changed at a time.
const DRAWN_SHORT: usize = 2;
const CHANGED_TWICE: usize = 8;

/// A number that no person, rotation or book has, as the types of the C interface can carry it.
pub const HUGE: [usize; 4] = [255, 256, 1 << 32, usize::MAX];

impl Both {
    /// Asks every book of edition 1 for n up to 2, some for n = 3 and drawn ones for n = 4 to 6, whole and damaged.
    pub fn ask_beyond(&mut self) {
        self.ask_sizes();
        self.ask_largest();
        self.ask_largest_weights();
        for n in 0..=3 {
            for number in (0..books(n)).step_by(if n < 3 { 1 } else { STEP }) {
                self.ask_full(n, &numbered(n, number));
            }
        }
        let mut draw = Draw::after(2);
        for n in 4..=6 {
            for _ in 0..DRAWN {
                for kind in KINDS {
                    self.ask_full(n, &drawn(kind, n, &mut draw));
                }
            }
        }
    }

    /// Asks the writer and the book of edition 1 of full lists.
    fn ask_full(&mut self, n: usize, lists: &[u8]) {
        self.ask_writer(n, lists);
        let bytes = listing::book::write(n, lists, listing::book::size(n)).expect("lists that break no rule");
        self.ask_every_rule(&bytes, n <= 2);
    }

    /// Asks every book of edition 2 for n up to 2 and drawn ones for n = 3 to 6, whole and damaged.
    pub fn ask_beyond_short(&mut self) {
        self.ask_largest_directories();
        for n in 0..=2 {
            for (number, lists) in short_lists::every(n).enumerate() {
                let bytes = short_lists::book(&lists);
                match Asked::new(&bytes).check_book() {
                    Ok(_) => self.ask_short(&lists, n < 2 || number % CHANGED_TWICE == 0),
                    Err(_) => self.ask_damaged_copy(&bytes, &vec![255; n], 0),
                }
            }
        }
        let mut draw = Draw::after(6);
        for n in 3..=6 {
            for _ in 0..DRAWN_SHORT {
                for way in WAYS {
                    for kind in KINDS {
                        self.ask_short(&short_lists::drawn(kind, way, n, &mut draw), false);
                    }
                }
            }
        }
    }

    /// Asks the book of edition 2 of short lists, and other directories over them.
    fn ask_short(&mut self, lists: &[Vec<u8>], twice: bool) {
        self.ask_every_rule(&short_lists::book(lists), twice);
        self.ask_directories(lists);
    }

    /// Asks of a book whatever breaks a rule; `twice` where two bytes are to be changed at a time.
    fn ask_every_rule(&mut self, bytes: &[u8], twice: bool) {
        let before = bytes.to_vec();
        let book = Asked::new(bytes);
        let n = book.listing().lists.n();
        self.tally.books += 1;
        self.ask_numbers(&book, n);
        self.ask_rooms(&book, n);
        self.ask_strings(&book, n);
        self.ask_requests(&book, n);
        self.ask_weights(&book, n);
        self.ask_marks(&book, n);
        self.ask_damaged(&book, n, twice);
        self.expect(bytes == before, "a book after all calls: a call has written to it");
    }
}
