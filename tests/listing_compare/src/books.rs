//! The books of the first part: of edition 1 every one for n up to 3 with every matching, of edition 2 every one for
//! n up to 2 with all bytes that name mentors or nobody; and drawn ones for n up to 6 with every stable matching and
//! some others. Stable matchings are asked with weights too.

use crate::both::Both;
use crate::draw::{factorial, permutation, Draw};
use crate::lists::{books, drawn, numbered, KINDS};
use crate::short_lists::{self, WAYS};
use listing::asked::Asked;

/// How many books of each kind are drawn for an n, and of each kind and way in edition 2.
const DRAWN: [(usize, usize); 3] = [(4, 600), (5, 300), (6, 150)];
const DRAWN_SHORT: [(usize, usize); 4] = [(3, 60), (4, 100), (5, 100), (6, 60)];

impl Both {
    /// Asks every book of edition 1 for n up to 3.
    pub fn ask_small_books(&mut self) {
        for n in 0..=3 {
            for number in 0..books(n) {
                let bytes = self.write_book(n, &numbered(n, number), 122);
                self.ask_bytes(&bytes, |both, book| {
                    both.ask_every_matching(n, book);
                    both.ask_all_weights(n, book, number);
                });
            }
        }
    }

    /// Asks the drawn books of edition 1 for n = 4 to 6.
    pub fn ask_drawn_books(&mut self) {
        let (mut draw, mut weights) = (Draw::after(1), Draw::after(3));
        for (n, count) in DRAWN {
            for _ in 0..count {
                for kind in KINDS {
                    let lists = drawn(kind, n, &mut draw);
                    let bytes = self.write_book(n, &lists, 122);
                    self.ask_bytes(&bytes, |both, book| {
                        let others: Vec<Vec<u8>> = (0..3).map(|_| permutation(n, draw.next())).collect();
                        both.ask_some_matchings(n, book, &others, &mut weights);
                    });
                }
            }
        }
    }

    /// Asks every book of edition 2 for n up to 2.
    pub fn ask_small_short_books(&mut self) {
        for n in 0..=2 {
            for lists in short_lists::every(n) {
                let bytes = short_lists::book(&lists);
                if self.check_book(&Asked::new(&bytes)).number == 18 {
                    self.tally.one_sided_books += 1;
                    continue;
                }
                self.ask_bytes(&bytes, |both, book| {
                    for matching in strings(n) {
                        both.ask_matching(book, &matching, 0);
                    }
                    both.ask_all_weights(n, book, 0);
                });
            }
        }
    }

    /// Asks the drawn books of edition 2 for n = 3 to 6.
    pub fn ask_drawn_short_books(&mut self) {
        let (mut draw, mut weights) = (Draw::after(4), Draw::after(5));
        for (n, count) in DRAWN_SHORT {
            for _ in 0..count {
                for way in WAYS {
                    for kind in KINDS {
                        let bytes = short_lists::book(&short_lists::drawn(kind, way, n, &mut draw));
                        self.ask_bytes(&bytes, |both, book| {
                            let others: Vec<Vec<u8>> = (0..3).map(|_| some_placed(n, &mut draw)).collect();
                            both.ask_some_matchings(n, book, &others, &mut weights);
                        });
                    }
                }
            }
        }
    }

    /// Asks a book, and of its matchings what is said.
    fn ask_bytes(&mut self, bytes: &[u8], ask_matchings: impl FnOnce(&mut Both, &Asked)) {
        let before = bytes.to_vec();
        let book = Asked::new(bytes);
        self.ask_book(&book);
        ask_matchings(self, &book);
        self.expect(bytes == before, "a book after all calls: a call has written to it");
    }

    /// Asks every matching of a book of edition 1, and for n up to 2 bytes that are none.
    fn ask_every_matching(&mut self, n: usize, book: &Asked) {
        for number in 0..factorial(n) {
            self.ask_matching(book, &permutation(n, number), number);
        }
        let none: &[&[u8]] = match n {
            0 => &[&[0]],
            1 => &[&[0, 1], &[], &[1]],
            2 => &[&[0, 1, 2], &[0], &[1, 2], &[0, 0]],
            _ => &[],
        };
        for matching in none {
            self.ask_matching(book, matching, 0);
        }
    }

    /// Asks every stable matching of a book, also with drawn weights, and of other bytes those that are not stable.
    fn ask_some_matchings(&mut self, n: usize, book: &Asked, others: &[Vec<u8>], weights: &mut Draw) {
        for (number, stable) in book.listing().stable().iter().enumerate() {
            self.ask_matching(book, &stable.bytes(), number);
            self.ask_drawn_weights(n, book, stable, weights);
        }
        for matching in others {
            if book.stable_matching(matching).is_err() {
                self.ask_matching(book, matching, 0);
            }
        }
    }
}

/// All bytes of length n from 0 to n − 1 and 255.
fn strings(n: usize) -> impl Iterator<Item = Vec<u8>> {
    let entry = move |number: usize, at: usize| number / (n + 1).pow(at as u32) % (n + 1);
    (0..(n + 1).pow(n as u32)).map(move |number| (0..n).map(|at| or_nobody(n, entry(number, at))).collect())
}

/// The byte of the mentor of this number, or of nobody where there is none.
fn or_nobody(n: usize, number: usize) -> u8 {
    if number < n {
        number as u8
    } else {
        255
    }
}

/// A drawn permutation in which each entry may be 255 instead, one in three.
fn some_placed(n: usize, draw: &mut Draw) -> Vec<u8> {
    let all = permutation(n, draw.next());
    all.into_iter().map(|mentor| if draw.below(3) == 0 { 255 } else { mentor }).collect()
}
