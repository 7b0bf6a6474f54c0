//! The third part: the archive against itself. Books of edition 1 and of edition 2 with the same full lists get the
//! same answers from every call, but where 255 or the size is concerned: every book for n up to 3.

use crate::both::Both;
use crate::calls::Call;
use crate::draw::{factorial, permutation};
use crate::lent::Lent;
use crate::lists::{books, numbered};
use crate::weights::WEIGHTS;
use archive::Reply;

/// A room that is enough for n = 3, for each result.
const ROOM: usize = 128;

/// A book of n students in both editions.
struct Editions<'a> {
    both: &'a mut Both,
    books: [Vec<u8>; 2],
    n: usize,
}

impl Both {
    /// Asks every book for n up to 3 in both editions.
    pub fn ask_editions(&mut self) {
        for n in 0..=3 {
            for number in 0..books(n) {
                let lists = numbered(n, number);
                let one = listing::book::write(n, &lists, listing::book::size(n)).expect("lists that break no rule");
                let two = [&[2], &one[1..]].concat();
                self.tally.books += 1;
                let mut editions = Editions { both: self, books: [one, two], n };
                editions.ask_book();
                (0..factorial(n)).for_each(|number| editions.ask_matching(&permutation(n, number)));
                editions.ask_refused(number);
            }
        }
    }
}

impl Editions<'_> {
    /// Makes a call with both editions, equal result buffers and equal other inputs: the reply and the first buffer.
    fn alike(&mut self, call: Call, make: impl Fn(&[u8], &mut [u8], &mut [i8]) -> Reply) -> (Reply, Vec<u8>) {
        let [one, two] = &self.books;
        let lend = || (Lent::bytes(ROOM), Lent::gains(ROOM));
        let ((mut out, mut gains), (mut other_out, mut other_gains)) = (lend(), lend());
        let reply = make(one, out.buffer(), gains.buffer());
        let other = make(two, other_out.buffer(), other_gains.buffer());
        self.both.tally.count(call, reply);
        if reply != other || out != other_out || gains != other_gains {
            let (a, b) = (format!("{reply:?} {:?}", out.all()), format!("{other:?} {:?}", other_out.all()));
            self.both.tally.differ(format!("{call:?} {one:?} in both editions\n  edition 1 {a}\n  edition 2 {b}"));
        }
        (reply, out.buffer().to_vec())
    }

    /// Asks what is asked of a book alone: of each person, each two rotations and each set of rotations too.
    fn ask_book(&mut self) {
        self.alike(Call::CheckBook, |book, _, _| archive::check_book(book));
        for number in 0..=self.n {
            self.alike(Call::StudentList, |book, _, _| archive::student_list(book, number));
            self.alike(Call::MentorList, |book, _, _| archive::mentor_list(book, number));
        }
        self.alike(Call::StudentBest, |book, out, _| archive::student_best(book, out));
        self.alike(Call::MentorBest, |book, out, _| archive::mentor_best(book, out));
        self.alike(Call::RotationCount, |book, _, _| archive::rotation_count(book));
        let (reply, _) = self.alike(Call::Rotations, |book, out, _| archive::rotations(book, out));
        for pair in 0..(reply.value + 1).pow(2) {
            let (first, second) = (pair / (reply.value + 1), pair % (reply.value + 1));
            self.alike(Call::Precedes, |book, _, _| archive::precedes(book, first, second));
        }
        for number in 0..1 << reply.value {
            let set: Vec<u8> = (0..reply.value).map(|k| number >> k & 1).collect();
            self.alike(Call::SetToMatching, |book, out, _| archive::set_to_matching(book, &set, out));
        }
    }

    /// Asks a matching; of a stable one the repairs of all pairs, also by each mentor's number and by n, of each two
    /// pairs without weights, and the set, of another one of each.
    fn ask_matching(&mut self, matching: &[u8]) {
        let weights = &WEIGHTS[..self.n];
        let (reply, _) = self.alike(Call::CheckMatching, |book, _, _| archive::check_matching(book, matching));
        let students = if reply.number == 0 { self.n } else { self.n.min(1) };
        for man in 0..students {
            let request = [man as u8, matching[man]];
            self.alike(Call::Repair, |book, out, gains| archive::repair(book, matching, &request, out, gains));
            self.alike(Call::WeightedRepair, |book, out, gains| {
                archive::weighted_repair(book, matching, weights, &request, out, gains)
            });
        }
        for (first, second) in (0..students * students).map(|both| (both / students, both % students)) {
            let request = [first as u8, matching[first], second as u8, matching[second]];
            self.alike(Call::Repair, |book, out, gains| archive::repair(book, matching, &request, out, gains));
        }
        for mentor in 0..=if reply.number == 0 { self.n as u8 } else { 0 } {
            self.alike(Call::RepairMentor, |book, out, gains| {
                archive::repair_mentor(book, matching, mentor, out, gains)
            });
            self.alike(Call::WeightedRepairMentor, |book, out, gains| {
                archive::weighted_repair_mentor(book, matching, weights, mentor, out, gains)
            });
        }
        self.alike(Call::Grade, |book, _, _| archive::grade(book, matching));
        self.alike(Call::WeightedGrade, |book, _, _| archive::weighted_grade(book, matching, weights));
        self.alike(Call::MatchingToSet, |book, out, _| archive::matching_to_set(book, matching, out));
        self.alike(Call::Sheet, |book, out, _| archive::sheet(&[book, matching].concat(), out));
        self.alike(Call::Moves, |book, out, _| archive::moves(&[book, matching].concat(), out));
        self.alike(Call::WeightedSheet, |book, out, _| {
            archive::weighted_sheet(&[book, matching, weights].concat(), out)
        });
    }

    /// Asks bytes that are no matching, and the book with one list entry changed, which breaks 6 or 7.
    fn ask_refused(&mut self, number: usize) {
        let n = self.n as u8;
        for string in [vec![], vec![0; self.n], vec![n; self.n], vec![0; self.n + 1]] {
            self.alike(Call::CheckMatching, |book, _, _| archive::check_matching(book, &string));
            self.alike(Call::Sheet, |book, out, _| archive::sheet(&[book, &string].concat(), out));
            self.alike(Call::Moves, |book, out, _| archive::moves(&[book, &string].concat(), out));
        }
        let (start, entries) = (2 + 8 * self.n, 2 * self.n * self.n);
        for entry in if n == 0 { 0..0 } else { 0..n + 1 } {
            let at = start + number % entries;
            let changed = |book: &[u8]| [&book[..at], &[entry], &book[at + 1..]].concat();
            self.alike(Call::CheckBook, |book, _, _| archive::check_book(&changed(book)));
            self.alike(Call::Sheet, |book, out, _| archive::sheet(&changed(book), out));
        }
    }
}
