//! Rule 14: every call that has a result buffer, with each length about the one that it needs.

use crate::both::Both;
use crate::weights::WEIGHTS;
use listing::asked::Asked;
use listing::people::Man;
use listing::{moves, rotation, sheet};

impl Both {
    /// Asks with result buffers from none to two entries more than are needed.
    pub fn ask_rooms(&mut self, book: &Asked, n: usize) {
        for room in 0..=n + 2 {
            self.student_best(book, room);
            self.mentor_best(book, room);
        }
        let rotations = &book.runs().rotations;
        for room in 0..=rotation::list_bytes(rotations).len() + 2 {
            self.rotations(book, room);
        }
        for stable in book.listing().stable() {
            let matching = stable.bytes();
            for room in 0..=rotations.len() + 2 {
                self.matching_to_set(book, &matching, room);
            }
            for room in 0..=n + 2 {
                self.set_to_matching(book, book.runs().set_of(stable), room);
            }
            self.ask_repair_rooms(book, &matching);
            self.ask_rooms_of_two(book, &matching);
        }
        let best = book.listing().student_best().bytes();
        self.ask_sheet_rooms(&[book.book(), &best].concat());
        self.ask_sheet_rooms(book.book());
        self.sheets(&[book.book(), &[0; 8771]].concat(), &[[64, 64]]);
        self.ask_weighted_sheet_rooms(&[book.book(), &best, &WEIGHTS[..n]].concat());
        self.ask_weighted_sheet_rooms(&[book.book(), &best].concat());
        self.weighted_sheet(&[book.book(), &best, &[0; 8835]].concat(), 64);
    }

    /// Asks for the repair of every pair, plain and weighted, by a request and by its mentor's number, with both
    /// buffers a little too short, long enough or longer.
    fn ask_repair_rooms(&mut self, book: &Asked, matching: &[u8]) {
        let n = matching.len();
        for man in Man::all(n) {
            let request = [man.0, matching[man.index()]];
            for room in [0, n - 1, n, n + 1] {
                for gains_room in [0, n - 1, n, n + 1] {
                    self.repair(book, matching, &request, room, gains_room);
                    self.weighted_repair(book, matching, &WEIGHTS[..n], &request, (room, gains_room));
                    self.repair_mentor(book, matching, request[1], (room, gains_room));
                    self.weighted_repair_mentor(book, matching, &WEIGHTS[..n], request[1], (room, gains_room));
                }
            }
        }
    }

    /// Asks for the repair of two pairs, those of the first and of the last student who has a mentor, plain and
    /// weighted, with buffers from none to an entry more than is needed each; where there is one pair alone, for it
    /// twice.
    fn ask_rooms_of_two(&mut self, book: &Asked, matching: &[u8]) {
        let n = matching.len();
        let mut placed = (0..n).filter(|&student| usize::from(matching[student]) < n);
        let Some(first) = placed.next() else { return };
        let last = placed.last().unwrap_or(first);
        let request = [first as u8, matching[first], last as u8, matching[last]];
        for room in 0..=n + 1 {
            for gains_room in 0..=n + 1 {
                self.repair(book, matching, &request, room, gains_room);
                self.weighted_repair(book, matching, &WEIGHTS[..n], &request, (room, gains_room));
            }
        }
    }

    /// Asks for a sheet, and for the sheet with moves, with the buffers of `sheet_rooms`.
    fn ask_sheet_rooms(&mut self, input: &[u8]) {
        let [sheet, moves] = moves::texts(input);
        for room in sheet_rooms(sheet.len()) {
            self.sheet(input, &sheet, room);
        }
        for room in sheet_rooms(moves.len()) {
            self.moves(input, &moves, room);
        }
    }

    /// Asks for a weighted sheet with them.
    fn ask_weighted_sheet_rooms(&mut self, input: &[u8]) {
        for room in sheet_rooms(sheet::weighted_text(input).len()) {
            self.weighted_sheet(input, room);
        }
    }
}

/// Lengths of buffers for a sheet of this length: from three bytes too short to two longer, none, one and 1,024.
fn sheet_rooms(length: usize) -> impl Iterator<Item = usize> {
    [0, 1].into_iter().chain(length - 3..=length + 2).chain([1024])
}
