//! Nobody is moved in vain (W-206): both repairs of each pair by the definitions, and the matchings that the archive
//! writes, beside every stable matching that parts the pair, or both pairs (W-207), on the same side.

use crate::both::Both;
use crate::calls::Call;
use crate::lent::Lent;
use crate::pairs::{is_of_two, sides};
use archive::{between, Reply};
use listing::asked::Asked;
use listing::between::Side;
use listing::matching::Matching;
use listing::people::Man;

/// Stable matchings beside repairs on one side: how many, how many students these move and the repairs leave, and how
/// many stand strictly between.
#[derive(Clone, Copy, Default)]
pub struct Beside {
    pub matchings: usize,
    pub left: usize,
    pub inside: usize,
}

impl Both {
    /// W-206 of a pair of a stable matching, by the definitions: "If the asking student is better off in some stable
    /// matching", there is repair up, and each man's woman in it stands between the given one and the one in that
    /// matching; "whoever a repair moves is moved by every stable matching that parts the pair on the same side"; and
    /// the mirror.
    pub fn ask_between(&mut self, book: &Asked, given: &Matching, man: Man) {
        let listing = book.listing();
        for side in [Side::Up, Side::Down] {
            let (others, repaired) = (listing.parting_on(side, given, man), listing.repair_on(side, given, man));
            self.expect(repaired.is_some() != others.is_empty(), "a repair where a stable matching parts the pair");
            let Some(repaired) = repaired else { continue };
            for other in others {
                self.expect(listing.each_between(given, repaired, other), "a repair between two stable matchings");
                let moved: Vec<Man> = other.moved(given).collect();
                self.expect(repaired.moved(given).all(|man| moved.contains(&man)), "whoever a repair moves is moved");
                self.count_beside(book, side, [given, repaired, other]);
            }
        }
    }

    /// Counts a stable matching beside a repair.
    fn count_beside(&mut self, book: &Asked, side: Side, [given, repaired, other]: [&Matching; 3]) {
        let lists = &book.listing().lists;
        let beside = &mut self.tally.beside[side as usize];
        beside.matchings += 1;
        for man in Man::all(lists.n()) {
            let [old, new, far] = lists.places(man, [given, repaired, other]);
            beside.left += (new == old && far != old) as usize;
            beside.inside += (new != old && new != far) as usize;
        }
    }

    /// What the archive wrote for a pair or for two, where its reply and the one that is due have the same letters U or
    /// D, beside every stable matching that parts each pair on the side of its letter. Gives back the reply that is
    /// due. The mentors are the last bytes of the pairs of `asked`, which is a request or a mentor's number.
    pub fn compare_between(
        &mut self,
        call: Call,
        book: &Asked,
        matching: &[u8],
        asked: &[u8],
        both: [(Reply, Lent<u8>); 2],
    ) -> Reply {
        let [(given, mut out), (due, _)] = both;
        if given.letter == due.letter && !sides(due.letter).is_empty() {
            let student = |mentor: &u8| matching.iter().position(|other| other == mentor).expect("a pair");
            let students = asked.chunks(2).filter_map(<[u8]>::last).map(student);
            let parted: Vec<(usize, char)> = students.zip(sides(due.letter)).collect();
            let matchings = (matching, &out.buffer()[..matching.len()]);
            self.compare_beside(call, book, matchings, &parted, is_of_two(asked));
        }
        due
    }

    /// The same of the pairs of students, each with the letter of its side, and the matching written. Those by requests
    /// of two pairs are counted apart.
    fn compare_beside(
        &mut self,
        call: Call,
        book: &Asked,
        (matching, repaired): (&[u8], &[u8]),
        parted: &[(usize, char)],
        of_two: bool,
    ) {
        let bytes = book.book();
        let on_side = |other: &[u8], student, letter| between::side(bytes, matching, other, student) == Some(letter);
        let others = book.listing().stable().iter().map(Matching::bytes);
        for other in others.filter(|other| parted.iter().all(|&(student, letter)| on_side(other, student, letter))) {
            let left = between::left(matching, repaired, &other);
            match of_two {
                true => self.tally.pairs.count_beside(call, left),
                false => self.tally.count_beside(call, left),
            }
            if let Some(at) = between::outside(bytes, matching, repaired, &other) {
                let inputs = format!("{bytes:?} {matching:?}, {parted:?}");
                self.tally
                    .differ(format!("{call:?} {inputs}\n  archive {repaired:?}\n  beside  {other:?} for student {at}"));
            }
        }
    }
}

#[cfg(test)]
mod tests {
    use archive::between::{left, outside, side};

    /// Three students with the lists 0 1 2, 2 1 0 and 0, and a fourth with none; the mentors' lists are not looked at.
    const BOOK: [u8; 41] = [
        2, 4, 34, 0, 3, 0, 37, 0, 3, 0, 40, 0, 1, 0, 41, 0, 0, 0, 41, 0, 0, 0, 41, 0, 0, 0, 41, 0, 0, 0, 41, 0, 0, 0,
        0, 1, 2, 2, 1, 0, 0,
    ];

    /// The side is that of the student who asks, by his list; one who keeps his mentor, or has none, is on neither.
    #[test]
    fn sides() {
        let of = |given: &[u8], other: &[u8]| [0, 1, 2, 3].map(|student| side(&BOOK, given, other, student));
        assert_eq!(of(&[0, 1, 255, 255], &[2, 2, 255, 255]), [Some('D'), Some('U'), None, None]);
        assert_eq!(of(&[1, 2, 0, 255], &[0, 0, 0, 255]), [Some('U'), Some('D'), None, None]);
    }

    /// Ends are counted, and who has a mentor in one matching has to have one in all.
    #[test]
    fn who_stands_outside() {
        let first = |given: u8, repaired: u8, other: u8| {
            outside(&BOOK, &[given, 1, 0, 255], &[repaired, 1, 0, 255], &[other, 1, 0, 255])
        };
        let between = [(0, 0, 0), (0, 0, 2), (0, 1, 2), (0, 2, 2), (2, 2, 0), (2, 1, 0), (2, 0, 0), (1, 1, 0)];
        assert!(between.iter().all(|&(given, repaired, other)| first(given, repaired, other).is_none()));
        for (given, repaired, other) in
            [(0, 2, 1), (1, 0, 2), (1, 2, 0), (2, 0, 1), (0, 1, 0), (0, 255, 1), (255, 0, 255)]
        {
            assert_eq!(first(given, repaired, other), Some(0), "{given} {repaired} {other}");
        }
        assert_eq!(outside(&BOOK, &[0, 1, 0, 255], &[0, 2, 0, 255], &[0, 0, 0, 255]), Some(1));
        assert_eq!(left(&[0, 1, 255], &[0, 2, 255], &[1, 2, 255]), 1);
        assert_eq!(left(&[0, 1, 255], &[1, 2, 255], &[1, 2, 255]), 0);
    }
}
