//! Each call on the archive and on the listing, with equal inputs and equal result buffers, compared in every field
//! of the reply and in every byte of the buffers and of the guard bytes around them. What the archive reports of a
//! repair is recounted from its gains in `recount`, and what it writes held against other stable matchings in
//! `between`. The calls for a sheet stand in `printed` and `moves`, those by a mentor's number in `by_mentor`.

use crate::calls::Call;
use crate::lent::Lent;
use crate::tally::Tally;
use archive::{Reply, NO_GRADE};
use listing::asked::{self, Asked};
use listing::reply::{granted, Refusal};

/// A reply of the listing in the form of the C interface: the letter of a second pair counts 256 times.
fn in_c(reply: listing::reply::Reply) -> Reply {
    match reply {
        Ok(granted) => {
            let [first, second] =
                [granted.letter, granted.second_letter].map(|letter| letter.map_or(0, |letter| letter as usize));
            let letter = first + 256 * second;
            Reply { number: 0, place: granted.place, second: 0, letter, value: granted.value }
        }
        Err(r) => Reply { number: r.number, place: r.place, second: r.second, letter: 0, value: 0 },
    }
}

/// The reply of a grade call: the value is `NO_GRADE` where no pair can be repaired.
fn grade_in_c(grade: Result<Option<usize>, Refusal>) -> listing::reply::Reply {
    granted(grade?.unwrap_or(NO_GRADE))
}

/// Both sides, with the tally of what was compared.
#[derive(Default)]
pub struct Both {
    pub tally: Tally,
}

impl Both {
    /// Counts a difference where something that both sides have to meet does not hold.
    pub fn expect(&mut self, holds: bool, what: &str) {
        if !holds {
            self.tally.differ(what.to_string());
        }
    }

    /// Compares the replies of a call without a result buffer; `inputs` are for the report.
    fn replies(&mut self, call: Call, inputs: &[&[u8]], given: Reply, due: listing::reply::Reply) -> Reply {
        let due = in_c(due);
        self.tally.count(call, due);
        if given != due {
            self.tally.differ(format!("{call:?} {inputs:?}\n  archive {given:?}\n  due     {due:?}"));
        }
        due
    }

    /// Makes a call with a result buffer of this length on both sides: reply and buffer of the archive, and those due.
    pub fn lending(
        &mut self,
        call: Call,
        inputs: &[&[u8]],
        room: usize,
        archive: impl Fn(&mut [u8]) -> Reply,
        listing: impl Fn(&mut [u8]) -> listing::reply::Reply,
    ) -> [(Reply, Lent<u8>); 2] {
        let (mut one, mut other) = (Lent::bytes(room), Lent::bytes(room));
        let (given, due) = (archive(one.buffer()), in_c(listing(other.buffer())));
        self.tally.count(call, due);
        if given != due || one != other {
            let (a, b) = (one.all(), other.all());
            let report = format!("\n  archive {given:?} {a:?}\n  due     {due:?} {b:?}");
            self.tally.differ(format!("{call:?} {inputs:?}, room {room}{report}"));
        }
        [(given, one), (due, other)]
    }

    /// Makes a call for a repair with these weights, and result buffers of these lengths for a matching and for gains,
    /// on both sides: reply and matching buffer of the archive, and those due.
    pub fn lending_both(
        &mut self,
        call: Call,
        inputs: &[&[u8]],
        weights: &[u8],
        (room, gains_room): (usize, usize),
        archive: impl Fn(&mut [u8], &mut [i8]) -> Reply,
        listing: impl Fn(&mut [u8], &mut [i8]) -> listing::reply::Reply,
    ) -> [(Reply, Lent<u8>); 2] {
        let (mut one, mut other) = (Lent::bytes(room), Lent::bytes(room));
        let (mut gains, mut due_gains) = (Lent::gains(gains_room), Lent::gains(gains_room));
        let given = archive(one.buffer(), gains.buffer());
        let due = in_c(listing(other.buffer(), due_gains.buffer()));
        self.tally.count(call, due);
        if given != due || one != other || gains != due_gains {
            let a = format!("{given:?} {:?} {:?}", one.all(), gains.all());
            let b = format!("{due:?} {:?} {:?}", other.all(), due_gains.all());
            self.tally.differ(format!("{call:?} {inputs:?}, rooms {room} {gains_room}\n  archive {a}\n  due     {b}"));
        }
        self.recount(call, inputs, weights, given, gains.buffer());
        [(given, one), (due, other)]
    }

    /// The check of a book.
    pub fn check_book(&mut self, book: &Asked) -> Reply {
        self.replies(Call::CheckBook, &[book.book()], archive::check_book(book.book()), book.check_book())
    }

    /// The size of a book.
    pub fn book_size(&mut self, n: usize) {
        self.replies(Call::BookSize, &[&n.to_le_bytes()], archive::book_size(n), asked::book_size(n));
    }

    /// The writer: the book that is due, or no bytes where the lists are refused.
    pub fn write_book(&mut self, n: usize, lists: &[u8], room: usize) -> Vec<u8> {
        let archive = |out: &mut [u8]| archive::write_book(n, lists, out);
        let listing = |out: &mut [u8]| asked::write_book(n, lists, out);
        let [_, (due, mut out)] = self.lending(Call::WriteBook, &[&n.to_le_bytes(), lists], room, archive, listing);
        out.buffer()[..due.value].to_vec()
    }

    /// One student's list.
    pub fn student_list(&mut self, book: &Asked, number: usize) {
        let given = archive::student_list(book.book(), number);
        let inputs = [book.book(), &number.to_le_bytes()];
        self.replies(Call::StudentList, &inputs, given, book.student_list(number));
    }

    /// One mentor's list.
    pub fn mentor_list(&mut self, book: &Asked, number: usize) {
        let given = archive::mentor_list(book.book(), number);
        let inputs = [book.book(), &number.to_le_bytes()];
        self.replies(Call::MentorList, &inputs, given, book.mentor_list(number));
    }

    /// The check of a matching.
    pub fn check_matching(&mut self, book: &Asked, matching: &[u8]) -> Reply {
        let given = archive::check_matching(book.book(), matching);
        self.replies(Call::CheckMatching, &[book.book(), matching], given, book.check_matching(matching))
    }

    /// The student-best matching.
    pub fn student_best(&mut self, book: &Asked, room: usize) {
        let archive = |out: &mut [u8]| archive::student_best(book.book(), out);
        self.lending(Call::StudentBest, &[book.book()], room, archive, |out| book.student_best(out));
    }

    /// The mentor-best matching.
    pub fn mentor_best(&mut self, book: &Asked, room: usize) {
        let archive = |out: &mut [u8]| archive::mentor_best(book.book(), out);
        self.lending(Call::MentorBest, &[book.book()], room, archive, |out| book.mentor_best(out));
    }

    /// The repair of a pair or of two, with result buffers of these lengths.
    pub fn repair(&mut self, book: &Asked, matching: &[u8], request: &[u8], room: usize, gains_room: usize) -> Reply {
        let inputs = [book.book(), matching, request];
        let archive = |out: &mut [u8], gains: &mut [i8]| archive::repair(book.book(), matching, request, out, gains);
        let listing = |out: &mut [u8], gains: &mut [i8]| book.repair(matching, request, out, gains);
        let rooms = (room, gains_room);
        let both = self.lending_both(Call::Repair, &inputs, &vec![1; matching.len()], rooms, archive, listing);
        self.tally.pairs.count(Call::Repair, matching, request, both[1].0);
        self.compare_between(Call::Repair, book, matching, request, both)
    }

    /// The grade of a matching.
    pub fn grade(&mut self, book: &Asked, matching: &[u8]) {
        let given = archive::grade(book.book(), matching);
        self.replies(Call::Grade, &[book.book(), matching], given, grade_in_c(book.grade(matching)));
    }

    /// How many rotations there are.
    pub fn rotation_count(&mut self, book: &Asked) {
        self.replies(Call::RotationCount, &[book.book()], archive::rotation_count(book.book()), book.rotation_count());
    }

    /// The list of rotations: how many are due.
    pub fn rotations(&mut self, book: &Asked, room: usize) -> usize {
        let archive = |out: &mut [u8]| archive::rotations(book.book(), out);
        let [_, (due, _)] = self.lending(Call::Rotations, &[book.book()], room, archive, |out| book.rotations(out));
        due.value
    }

    /// Whether one rotation precedes another.
    pub fn precedes(&mut self, book: &Asked, first: usize, second: usize) {
        let given = archive::precedes(book.book(), first, second);
        let inputs = [book.book(), &first.to_le_bytes(), &second.to_le_bytes()];
        self.replies(Call::Precedes, &inputs, given, book.precedes(first, second));
    }

    /// The matching of a set.
    pub fn set_to_matching(&mut self, book: &Asked, set: &[u8], room: usize) {
        let archive = |out: &mut [u8]| archive::set_to_matching(book.book(), set, out);
        let listing = |out: &mut [u8]| book.set_to_matching(set, out);
        self.lending(Call::SetToMatching, &[book.book(), set], room, archive, listing);
    }

    /// The set of a matching: the one that is due, or no bytes where the matching is refused.
    pub fn matching_to_set(&mut self, book: &Asked, matching: &[u8], room: usize) -> Vec<u8> {
        let archive = |out: &mut [u8]| archive::matching_to_set(book.book(), matching, out);
        let listing = |out: &mut [u8]| book.matching_to_set(matching, out);
        let [_, (due, mut set)] = self.lending(Call::MatchingToSet, &[book.book(), matching], room, archive, listing);
        set.buffer()[..due.value].to_vec()
    }

    /// The weighted repair of a pair or of two, with result buffers of these lengths.
    pub fn weighted_repair(
        &mut self,
        book: &Asked,
        matching: &[u8],
        weights: &[u8],
        request: &[u8],
        rooms: (usize, usize),
    ) -> Reply {
        let archive = |out: &mut [u8], gains: &mut [i8]| {
            archive::weighted_repair(book.book(), matching, weights, request, out, gains)
        };
        let listing = |out: &mut [u8], gains: &mut [i8]| book.weighted_repair(matching, weights, request, out, gains);
        let inputs = [book.book(), matching, weights, request];
        let both = self.lending_both(Call::WeightedRepair, &inputs, weights, rooms, archive, listing);
        self.tally.pairs.count(Call::WeightedRepair, matching, request, both[1].0);
        self.compare_between(Call::WeightedRepair, book, matching, request, both)
    }

    /// The weighted grade of a matching: the reply that is due.
    pub fn weighted_grade(&mut self, book: &Asked, matching: &[u8], weights: &[u8]) -> Reply {
        let given = archive::weighted_grade(book.book(), matching, weights);
        let due = grade_in_c(book.weighted_grade(matching, weights));
        self.replies(Call::WeightedGrade, &[book.book(), matching, weights], given, due)
    }
}
