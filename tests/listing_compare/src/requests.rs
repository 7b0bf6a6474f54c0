//! Rules 13, 11, 12 and 14: requests for a repair and mentors who ask for one by number, plain and weighted, alone and
//! with buffers that are too short.

use crate::both::Both;
use crate::weights::WEIGHTS;
use listing::asked::Asked;

impl Both {
    /// Asks each stable matching of a book with every request of up to two bytes, and with longer ones, among them two
    /// pairs; and by mentors.
    pub fn ask_requests(&mut self, book: &Asked, n: usize) {
        let numbers = || (0..=n as u8 + 1).chain([64, 255]);
        for stable in book.listing().stable() {
            let matching = stable.bytes();
            self.ask_request(book, &matching, &[]);
            for student in numbers() {
                self.ask_request(book, &matching, &[student]);
                for mentor in numbers() {
                    self.ask_request(book, &matching, &[student, mentor]);
                }
            }
            self.ask_two_pairs(book, &matching);
            for mentor in numbers() {
                self.ask_by_mentor(book, &matching, mentor);
            }
        }
    }

    /// Asks with each two of some pairs, sound and not, and with the same bytes one less and up to five more.
    fn ask_two_pairs(&mut self, book: &Asked, matching: &[u8]) {
        let pairs = some_pairs(matching);
        for first in &pairs {
            for second in &pairs {
                self.ask_request(book, matching, &[*first, *second].concat());
            }
            let long = [*first, pairs[0]].concat().repeat(3);
            for length in [3, 5, 6, 7, 8, 9] {
                self.ask_request(book, matching, &long[..length]);
            }
        }
    }

    /// Asks one request with buffers that are long enough, and with one or both too short.
    fn ask_request(&mut self, book: &Asked, matching: &[u8], request: &[u8]) {
        let n = matching.len();
        for (room, gains_room) in rooms(n) {
            self.repair(book, matching, request, room, gains_room);
            self.weighted_repair(book, matching, &WEIGHTS[..n], request, (room, gains_room));
        }
    }

    /// Asks by one mentor's number with the same buffers.
    fn ask_by_mentor(&mut self, book: &Asked, matching: &[u8], mentor: u8) {
        let n = matching.len();
        for rooms in rooms(n) {
            self.repair_mentor(book, matching, mentor, rooms);
            self.weighted_repair_mentor(book, matching, &WEIGHTS[..n], mentor, rooms);
        }
    }
}

/// Lengths of buffers that are long enough, and of which one or both are too short.
fn rooms(n: usize) -> [(usize, usize); 4] {
    let short = n.saturating_sub(1);
    [(n, n), (short, n), (n, short), (0, 0)]
}

/// Pairs for requests: those of the first and of the last student who has a mentor, each of the two with the mentor of
/// the other, which breaks 12, and numbers that break 11; where a student is alone, he with mentor 0 and with nobody.
fn some_pairs(matching: &[u8]) -> Vec<[u8; 2]> {
    let n = matching.len() as u8;
    let own: Vec<[u8; 2]> = (0..n).zip(matching).filter(|(_, &mentor)| mentor < n).map(|(s, &m)| [s, m]).collect();
    let ends = own.first().into_iter().zip(own.last()).filter(|(first, last)| first != last);
    let ends: Vec<[u8; 2]> = ends.flat_map(|(&[s, m], &[t, l])| [[s, m], [t, l], [s, l], [t, m]]).collect();
    let alone = matching.iter().position(|&mentor| mentor >= n).map(|student| student as u8);
    let alone = alone.into_iter().flat_map(|student| [[student, 0], [student, 255]]);
    let sound = if ends.is_empty() { own } else { ends };
    sound.into_iter().chain([[n, 0], [0, n], [255, 255]]).chain(alone).collect()
}

#[cfg(test)]
mod tests {
    use super::*;

    /// With one pair there is no other to exchange mentors with; with none there are numbers alone.
    #[test]
    fn pairs_for_requests() {
        assert_eq!(some_pairs(&[]), [[0, 0], [0, 0], [255, 255]]);
        assert_eq!(some_pairs(&[0]), [[0, 0], [1, 0], [0, 1], [255, 255]]);
        assert_eq!(some_pairs(&[255, 0]), [[1, 0], [2, 0], [0, 2], [255, 255], [0, 0], [0, 255]]);
        assert_eq!(some_pairs(&[1, 2, 0]), [[0, 1], [2, 0], [0, 0], [2, 1], [3, 0], [0, 3], [255, 255]]);
    }
}
