//! Each call on both libraries, with equal inputs and equal result buffers, compared in reply and in every byte of the
//! buffers and of the guard bytes before and after them. What the archive reports of a repair is recounted from its
//! gains in `recount`, and what it writes held against other stable matchings in `between` and, for two pairs, in
//! `pairs`. The calls for a sheet stand in `printed` and `moves`, those by a mentor's number in `by_mentor`.

use crate::tally::{hex, Tally};
use independent::calls;
use independent::random::Random;
use independent::reply::Reply;

/// Guard bytes on each side of a result buffer.
const GUARD: usize = 32;

pub struct Both {
    pub random: Random,
    pub tally: Tally,
    /// Stable matchings of the book that is asked, to be looked at beside repairs.
    pub beside: Vec<Vec<u8>>,
}

/// A result buffer of some length between guard bytes, filled at random.
#[derive(Clone, PartialEq)]
pub struct Lent(Vec<u8>);

impl Lent {
    fn new(length: usize, random: &mut Random) -> Lent {
        let mut bytes = Vec::with_capacity(length + 2 * GUARD + 8);
        while bytes.len() < length + 2 * GUARD {
            bytes.extend(random.bits().to_le_bytes());
        }
        bytes.truncate(length + 2 * GUARD);
        Lent(bytes)
    }

    pub fn buffer(&mut self) -> &mut [u8] {
        let end = self.0.len() - GUARD;
        &mut self.0[GUARD..end]
    }

    /// The buffer as signed bytes.
    fn signed(&mut self) -> &mut [i8] {
        let buffer = self.buffer();
        // Safety: i8 and u8 have the same size and alignment, and every byte is an i8.
        unsafe { std::slice::from_raw_parts_mut(buffer.as_mut_ptr().cast(), buffer.len()) }
    }

    /// Where two buffers first differ, counted from the buffer's first byte, and the bytes there.
    fn difference(&self, other: &Lent) -> Option<(isize, u8, u8)> {
        let at = self.0.iter().zip(&other.0).position(|(a, b)| a != b)?;
        Some((at as isize - GUARD as isize, self.0[at], other.0[at]))
    }
}

impl Both {
    pub fn new(seed: u64) -> Both {
        Both { random: Random::new(seed), tally: Tally::default(), beside: vec![] }
    }

    /// Compares the replies of a call without a result buffer.
    fn replies(&mut self, call: &str, inputs: &[&[u8]], archive: Reply, independent: Reply) -> Reply {
        self.tally.count(independent);
        if archive != independent {
            self.tally.differ(call, inputs, format!("{archive:?}"), format!("{independent:?}"));
        }
        independent
    }

    /// Makes a call with a result buffer of this length on both sides: the reply and the buffer of each.
    pub fn lending(
        &mut self,
        call: &str,
        inputs: &[&[u8]],
        length: usize,
        archive: impl Fn(&mut [u8]) -> Reply,
        independent: impl Fn(&mut [u8]) -> Reply,
    ) -> [(Reply, Lent); 2] {
        let mut one = Lent::new(length, &mut self.random);
        let mut other = one.clone();
        let (a, b) = (archive(one.buffer()), independent(other.buffer()));
        self.tally.count(b);
        if a != b || one != other {
            let bytes = one.difference(&other);
            let call = format!("{call}, buffer of {length}, first difference (at, archive, independent) {bytes:?}");
            let text = |reply, lent: &mut Lent| format!("{reply:?}, {}", hex(lent.buffer()));
            let (a, b) = (text(a, &mut one), text(b, &mut other));
            self.tally.differ(&call, inputs, a, b);
        }
        [(a, one), (b, other)]
    }

    /// Makes a call for a repair with these weights and two result buffers of these lengths, the second for gains, on
    /// both sides.
    pub fn lending_two(
        &mut self,
        call: &str,
        inputs: &[&[u8]],
        weights: &[u8],
        [room, gains_room]: [usize; 2],
        archive: impl Fn(&mut [u8], &mut [i8]) -> Reply,
        independent: impl Fn(&mut [u8], &mut [i8]) -> Reply,
    ) -> Reply {
        let (mut out, mut gains) = (Lent::new(room, &mut self.random), Lent::new(gains_room, &mut self.random));
        let (mut out2, mut gains2) = (out.clone(), gains.clone());
        let a = archive(out.buffer(), gains.signed());
        let b = independent(out2.buffer(), gains2.signed());
        self.tally.count(b);
        if a != b || out != out2 || gains != gains2 {
            let bytes = (out.difference(&out2), gains.difference(&gains2));
            let call = format!("{call}, buffers of {room} and {gains_room}, first differences {bytes:?}");
            let text = |reply, out: &mut Lent, gains: &mut Lent| {
                format!("{reply:?}, {}, gains {:?}", hex(out.buffer()), gains.signed())
            };
            let (a, b) = (text(a, &mut out, &mut gains), text(b, &mut out2, &mut gains2));
            self.tally.differ(&call, inputs, a, b);
        }
        self.recount(call, inputs, weights, a, gains.signed());
        self.compare_between(call, inputs, a, &mut out);
        self.compare_two(call, inputs, a, &mut out);
        self.compare_least(call, inputs, weights, a);
        b
    }

    pub fn check_book(&mut self, book: &[u8]) -> Reply {
        self.replies("check_book", &[book], archive::check_book(book), calls::check_book(book))
    }

    pub fn book_size(&mut self, n: usize) {
        self.replies(&format!("book_size {n}"), &[], archive::book_size(n), calls::book_size(n));
    }

    pub fn write_book(&mut self, n: usize, lists: &[u8], room: usize) {
        let call = format!("write_book {n}");
        self.lending(
            &call,
            &[lists],
            room,
            |out| archive::write_book(n, lists, out),
            |out| calls::write_book(n, lists, out),
        );
    }

    pub fn student_list(&mut self, book: &[u8], k: usize) {
        self.replies(
            &format!("student_list {k}"),
            &[book],
            archive::student_list(book, k),
            calls::student_list(book, k),
        );
    }

    pub fn mentor_list(&mut self, book: &[u8], k: usize) {
        self.replies(&format!("mentor_list {k}"), &[book], archive::mentor_list(book, k), calls::mentor_list(book, k));
    }

    pub fn check_matching(&mut self, book: &[u8], m: &[u8]) -> Reply {
        self.replies("check_matching", &[book, m], archive::check_matching(book, m), calls::check_matching(book, m))
    }

    pub fn student_best(&mut self, book: &[u8], room: usize) {
        self.lending(
            "student_best",
            &[book],
            room,
            |o| archive::student_best(book, o),
            |o| calls::student_best(book, o),
        );
    }

    pub fn mentor_best(&mut self, book: &[u8], room: usize) {
        self.lending("mentor_best", &[book], room, |o| archive::mentor_best(book, o), |o| calls::mentor_best(book, o));
    }

    pub fn rotation_count(&mut self, book: &[u8]) {
        self.replies("rotation_count", &[book], archive::rotation_count(book), calls::rotation_count(book));
    }

    pub fn rotations(&mut self, book: &[u8], room: usize) {
        self.lending("rotations", &[book], room, |o| archive::rotations(book, o), |o| calls::rotations(book, o));
    }

    pub fn precedes(&mut self, book: &[u8], first: usize, second: usize) {
        let call = format!("precedes {first} {second}");
        self.replies(&call, &[book], archive::precedes(book, first, second), calls::precedes(book, first, second));
    }

    pub fn set_to_matching(&mut self, book: &[u8], set: &[u8], room: usize) {
        let archive = |out: &mut [u8]| archive::set_to_matching(book, set, out);
        self.lending("set_to_matching", &[book, set], room, archive, |out| calls::set_to_matching(book, set, out));
    }

    pub fn matching_to_set(&mut self, book: &[u8], m: &[u8], room: usize) {
        let archive = |out: &mut [u8]| archive::matching_to_set(book, m, out);
        self.lending("matching_to_set", &[book, m], room, archive, |out| calls::matching_to_set(book, m, out));
    }

    pub fn grade(&mut self, book: &[u8], m: &[u8]) {
        self.replies("grade", &[book, m], archive::grade(book, m), calls::grade(book, m));
    }

    pub fn repair(&mut self, book: &[u8], m: &[u8], request: &[u8], room: usize, gains_room: usize) -> Reply {
        self.lending_two(
            "repair",
            &[book, m, request],
            &vec![1; m.len()],
            [room, gains_room],
            |out, gains| archive::repair(book, m, request, out, gains),
            |out, gains| calls::repair(book, m, request, out, gains),
        )
    }

    pub fn weighted_grade(&mut self, book: &[u8], m: &[u8], weights: &[u8]) {
        let (a, b) = (archive::weighted_grade(book, m, weights), calls::weighted_grade(book, m, weights));
        self.replies("weighted_grade", &[book, m, weights], a, b);
    }

    pub fn weighted_repair(
        &mut self,
        book: &[u8],
        m: &[u8],
        weights: &[u8],
        request: &[u8],
        rooms: [usize; 2],
    ) -> Reply {
        self.lending_two(
            "weighted_repair",
            &[book, m, weights, request],
            weights,
            rooms,
            |out, gains| archive::weighted_repair(book, m, weights, request, out, gains),
            |out, gains| calls::weighted_repair(book, m, weights, request, out, gains),
        )
    }
}
