//! Rules 1 to 7 and 18: damaged copies of a book, each asked by every call, where the other inputs are right and where
//! they break every later rule.

use crate::both::Both;
use crate::weights::WEIGHTS;
use listing::asked::Asked;

impl Both {
    /// Asks copies that are cut to every length, lengthened, and changed in each byte; `twice` in two bytes.
    pub fn ask_damaged(&mut self, book: &Asked, n: usize, twice: bool) {
        let matching = book.listing().student_best().bytes();
        let rotations = book.runs().rotations.len();
        let mut ask = |bytes: &[u8]| self.ask_damaged_copy(bytes, &matching, rotations);
        let longer = [book.book(), &[0, 1, 2]].concat();
        for length in 0..=longer.len() {
            ask(&longer[..length]);
        }
        for at in 0..book.book().len() {
            for byte in values(n, book.book()[at]) {
                let mut changed = longer.clone();
                changed[at] = byte;
                let size = book.book().len();
                ask(&changed[..size]);
                if n <= 2 || at < 2 {
                    ask(&changed[..size - 1]);
                    ask(&changed[..size + 1]);
                }
                if twice {
                    change_another(&changed[..size], at, n, &mut ask);
                }
            }
        }
    }

    /// Asks a copy by every call.
    pub fn ask_damaged_copy(&mut self, bytes: &[u8], matching: &[u8], rotations: usize) {
        let copy = Asked::new(bytes);
        if copy.check_book().is_err() {
            self.tally.damaged_books += 1;
        }
        let n = matching.len();
        self.check_book(&copy);
        self.student_list(&copy, 0);
        self.mentor_list(&copy, 256);
        self.check_matching(&copy, matching);
        self.check_matching(&copy, &[255, 255, 255]);
        self.grade(&copy, matching);
        self.grade(&copy, &[255, 255, 255]);
        for room in [n, 0] {
            self.student_best(&copy, room);
            self.mentor_best(&copy, room);
        }
        self.rotation_count(&copy);
        for room in [200, 0] {
            self.rotations(&copy, room);
        }
        self.sheets(&[bytes, matching].concat(), &[[200, 500], [0, 0]]);
        self.sheets(bytes, &[[200, 200]]);
        self.precedes(&copy, 0, 0);
        self.precedes(&copy, usize::MAX, 0);
        self.set_to_matching(&copy, &vec![0; rotations], n);
        self.set_to_matching(&copy, &[2; 20], 0);
        self.matching_to_set(&copy, matching, rotations);
        self.matching_to_set(&copy, &[255, 255, 255], 0);
        let own = matching.first().copied().unwrap_or(0);
        self.repair(&copy, matching, &[0, own], n, n);
        self.repair(&copy, matching, &[0, own, 0, own], n, n);
        self.repair(&copy, &[255, 255, 255], &[], 0, 0);
        self.ask_damaged_weighted(&copy, matching);
        self.ask_damaged_by_mentor(&copy, matching);
    }

    /// Asks a copy by every weighted call.
    fn ask_damaged_weighted(&mut self, copy: &Asked, matching: &[u8]) {
        let n = matching.len();
        let (weights, own) = (&WEIGHTS[..n], matching.first().copied().unwrap_or(0));
        self.weighted_grade(copy, matching, weights);
        self.weighted_grade(copy, &[255, 255, 255], &[0; 9]);
        self.weighted_repair(copy, matching, weights, &[0, own], (n, n));
        self.weighted_repair(copy, matching, weights, &[0, own, 0, own], (n, n));
        self.weighted_repair(copy, &[255, 255, 255], &[0; 9], &[], (0, 0));
        for room in [200, 0] {
            self.weighted_sheet(&[copy.book(), matching, weights].concat(), room);
        }
        self.weighted_sheet(copy.book(), 200);
    }
}

/// The bytes that stand in for a byte: about 0, n and 64, the largest, and its neighbours.
fn values(n: usize, byte: u8) -> Vec<u8> {
    let n = n as u8;
    let mut values = vec![0, 1, n, n + 1, 64, 65, 255, byte.wrapping_add(1), byte.wrapping_sub(1)];
    values.sort();
    values.dedup();
    values.retain(|&value| value != byte);
    values
}

/// Changes one more byte after the one at this place, and hands each copy on.
fn change_another(changed: &[u8], at: usize, n: usize, ask: &mut impl FnMut(&[u8])) {
    for other in at + 1..changed.len() {
        for byte in [n as u8, 255] {
            let mut twice = changed.to_vec();
            twice[other] = byte;
            ask(&twice);
        }
    }
}
