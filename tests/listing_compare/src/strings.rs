//! Rules 8, 9 and 10: bytes that are asked about as a matching, each by every call that takes one.

use crate::both::Both;
use crate::weights::WEIGHTS;
use listing::asked::Asked;

impl Both {
    /// Asks of bytes of every length to n + 2; for n up to 3 of all bytes of length n from 0 to n and 255, else of
    /// each stable matching with one byte changed and with two exchanged.
    pub fn ask_strings(&mut self, book: &Asked, n: usize) {
        let counted: Vec<u8> = (0..n as u8 + 2).collect();
        for length in 0..=n + 2 {
            self.ask_string(book, &counted[..length], n);
            self.ask_string(book, &vec![0; length], n);
        }
        if n <= 3 {
            self.ask_all_strings(book, n);
        } else {
            for stable in book.listing().stable() {
                self.ask_near_strings(book, &stable.bytes());
            }
        }
    }

    /// Asks of all bytes of length n from 0 to n and 255.
    fn ask_all_strings(&mut self, book: &Asked, n: usize) {
        let entries: Vec<u8> = (0..=n as u8).chain([255]).collect();
        for number in 0..entries.len().pow(n as u32) {
            let entry = |at: usize| entries[number / entries.len().pow(at as u32) % entries.len()];
            let string: Vec<u8> = (0..n).map(entry).collect();
            self.ask_string(book, &string, n);
        }
    }

    /// Asks of a matching with one byte changed, and with two exchanged.
    fn ask_near_strings(&mut self, book: &Asked, matching: &[u8]) {
        let n = matching.len();
        for at in 0..n {
            for entry in (0..=n as u8).chain([64, 255]) {
                let mut changed = matching.to_vec();
                changed[at] = entry;
                self.ask_string(book, &changed, n);
            }
            for other in 0..at {
                let mut exchanged = matching.to_vec();
                exchanged.swap(at, other);
                self.ask_string(book, &exchanged, n);
            }
        }
    }

    /// Asks everything of bytes as a matching, also with weights, a request and buffers that break a later rule.
    fn ask_string(&mut self, book: &Asked, string: &[u8], n: usize) {
        self.check_matching(book, string);
        self.grade(book, string);
        self.matching_to_set(book, string, 16);
        self.matching_to_set(book, string, 0);
        self.repair(book, string, &[0, 0], n, n);
        self.repair(book, string, &[0], 0, 0);
        self.repair(book, string, &[0, 0, 1, 1], n, n);
        self.repair_mentor(book, string, 0, (n, n));
        self.repair_mentor(book, string, 255, (0, 0));
        if book.stable_matching(string).is_err() {
            self.sheets(&[book.book(), string].concat(), &[[16, 16], [9, 9]]);
        }
        self.ask_weighted_string(book, string, n);
    }

    /// Asks the weighted calls of bytes as a matching, with weights that are right and with a byte more.
    fn ask_weighted_string(&mut self, book: &Asked, string: &[u8], n: usize) {
        for weights in [&WEIGHTS[..n], &WEIGHTS[..n + 1]] {
            self.weighted_grade(book, string, weights);
            self.weighted_repair(book, string, weights, &[0, 0], (n, n));
            self.weighted_repair(book, string, weights, &[0], (0, 0));
            self.weighted_repair(book, string, weights, &[0, 0, 1, 1], (n, n));
            self.weighted_repair_mentor(book, string, weights, 0, (n, n));
            self.weighted_repair_mentor(book, string, weights, 255, (0, 0));
            if book.stable_matching(string).is_err() {
                let input = [book.book(), string, weights].concat();
                self.weighted_sheet(&input, 16);
                self.weighted_sheet(&input, 9);
            }
        }
    }
}
