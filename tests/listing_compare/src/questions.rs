//! What is asked of every book: the extremes, the rotations and their order, sets, and of its matchings the check,
//! the repairs of all pairs, the grade, the set and the sheet, also with moves. Result buffers are long enough.

use crate::both::Both;
use crate::tally::letter_place;
use listing::asked::Asked;
use listing::lists::Lists;
use listing::matching::Matching;
use listing::people::{Man, Woman};
use listing::weights::Weights;

/// Rooms that are enough for n up to 6: a matching, gains or a set; the list of rotations; a sheet; one with moves.
const ROOM: usize = 16;
const LIST_ROOM: usize = 200;
const SHEET_ROOM: usize = 64;
const MOVES_ROOM: usize = SHEET_ROOM + 6 * 6 * 10;

impl Both {
    /// Asks what is asked of a book alone.
    pub fn ask_book(&mut self, book: &Asked) {
        self.tally.books += 1;
        self.check_book(book);
        self.student_best(book, ROOM);
        self.mentor_best(book, ROOM);
        self.rotation_count(book);
        let rotations = self.rotations(book, LIST_ROOM);
        self.tally.rotations += rotations;
        self.count_alone(book, rotations);
        self.ask_order(book, rotations);
        self.ask_sets(book, rotations);
    }

    /// Counts a book by its rotations and by who is alone. On both sides the same are placed in every stable
    /// matching; so where a man is alone, a woman is.
    fn count_alone(&mut self, book: &Asked, rotations: usize) {
        let listing = book.listing();
        self.expect(listing.same_are_placed(), "who is placed in every stable matching");
        let (rotating, lonely) = (rotations > 0, listing.student_best().pairs().count() < listing.lists.n());
        self.tally.rotating_books += rotating as usize;
        self.tally.lonely_books += lonely as usize;
        self.tally.rotating_lonely_books += (rotating && lonely) as usize;
    }

    /// Asks which rotation precedes which, and of the first number that no rotation has.
    fn ask_order(&mut self, book: &Asked, rotations: usize) {
        for first in 0..=rotations {
            for second in 0..=rotations {
                self.precedes(book, first, second);
            }
        }
    }

    /// Asks of every set of at most three rotations, of one with a mark too many and of one with the mark 2.
    fn ask_sets(&mut self, book: &Asked, rotations: usize) {
        if rotations <= 3 {
            for number in 0..1 << rotations {
                let set: Vec<u8> = (0..rotations).map(|k| number >> k & 1).collect();
                self.ask_set(book, &set);
            }
        }
        self.set_to_matching(book, &vec![0; rotations + 1], ROOM);
        if rotations > 0 {
            self.set_to_matching(book, &vec![2; rotations], ROOM);
        }
    }

    /// Asks for the matching of a set, closed or not.
    fn ask_set(&mut self, book: &Asked, set: &[u8]) {
        self.tally.sets += 1;
        self.set_to_matching(book, set, ROOM);
    }

    /// Asks everything of bytes as a matching; `number` says which mark of its set is exchanged if it is stable.
    pub fn ask_matching(&mut self, book: &Asked, matching: &[u8], number: usize) {
        self.tally.matchings += 1;
        self.check_matching(book, matching);
        match book.stable_matching(matching) {
            Ok(stable) => self.ask_stable(book, &stable, matching, number),
            Err(_) => {
                self.repair(book, matching, &[0, 0], ROOM, ROOM);
                self.matching_to_set(book, matching, ROOM);
            }
        }
        self.grade(book, matching);
        self.tally.sheets += 1;
        self.sheets(&[book.book(), matching].concat(), &[[SHEET_ROOM, MOVES_ROOM]]);
    }

    /// Asks what is asked of stable matchings alone: the answers for all pairs, also by their mentors, and for each two
    /// pairs, and sets.
    fn ask_stable(&mut self, book: &Asked, stable: &Matching, matching: &[u8], number: usize) {
        self.tally.stable_matchings += 1;
        for man in Man::all(matching.len()) {
            self.tally.ended_searches += ends_early(&book.listing().lists, stable, man) as usize;
            match stable.woman_of(man) {
                Some(woman) => self.ask_pair(book, stable, matching, man, woman),
                None => self.ask_alone(book, matching, man),
            }
        }
        self.ask_mentors(book, matching);
        self.ask_pairs(book, stable);
        let mut set = self.matching_to_set(book, matching, ROOM);
        self.ask_set(book, &set);
        if !set.is_empty() {
            let at = number % set.len();
            set[at] = 1 - set[at];
            self.ask_set(book, &set);
        }
    }

    /// Asks for the repair of a man's pair, which moves as few students as any, and of him with the woman after his
    /// own; and whom both repairs of the pair move.
    fn ask_pair(&mut self, book: &Asked, stable: &Matching, matching: &[u8], man: Man, woman: Woman) {
        self.ask_between(book, stable, man);
        let due = self.repair(book, matching, &[man.0, woman.0], ROOM, ROOM);
        self.tally.letters[letter_place(due.letter)] += 1;
        let ones = book.ones();
        let ones = Weights::read(matching.len(), &ones).expect("a weight for each man");
        let fewest = book.listing().least_total(stable, man, ones);
        self.expect(due.value == fewest.unwrap_or(0), "the least distance of a stable matching without the pair");
        self.repair(book, matching, &[man.0, woman.0 + 1], ROOM, ROOM);
    }

    /// Asks for the repair of a man who is alone, with his byte in the matching and with a woman.
    fn ask_alone(&mut self, book: &Asked, matching: &[u8], man: Man) {
        self.tally.alone += 1;
        self.repair(book, matching, &[man.0, 255], ROOM, ROOM);
        self.repair(book, matching, &[man.0, 0], ROOM, ROOM);
    }
}

/// Whether a woman who is alone ends the search for a man's next woman before one who ranks him above her own man.
fn ends_early(lists: &Lists, matching: &Matching, man: Man) -> bool {
    let willing = |woman: Woman| lists.woman_prefers(woman, Some(man), matching.man_of(woman));
    let mut placed = lists.below(matching, man).iter().filter(|&&woman| matching.man_of(woman).is_some());
    lists.next_woman(matching, man).is_none() && placed.any(|&woman| willing(woman))
}
