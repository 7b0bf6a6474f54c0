//! The calls of include/placement.h. A book is asked by many calls, so what is listed of it is kept.
//!
//! "After the book, as far as a call takes such input or a result buffer: 8, 9, 10, then 13, 11, 12, then 14; for a
//! set 15, 16, 14; for one list or two rotations 11." 19 comes "after 9". "Nothing is written on refusal; on success
//! nothing past the result." The calls on repairs stand in `repair_calls`.

use crate::book;
use crate::lists::Lists;
use crate::matching::Matching;
use crate::reply::{granted, refused, Granted, Refusal, Reply};
use crate::rotation::list_bytes;
use crate::runs::Runs;
use crate::stable::Listing;
use crate::{moves, sheet};
use std::cell::OnceCell;

/// Bytes that are asked about as a book: their n or the rule they break, and what has been listed.
pub struct Asked<'a> {
    book: &'a [u8],
    pub(crate) checked: Result<usize, Refusal>,
    listing: OnceCell<Listing>,
    runs: OnceCell<Runs>,
}

impl Asked<'_> {
    /// The bytes, of which nothing is listed yet.
    pub fn new(book: &[u8]) -> Asked<'_> {
        Asked { book, checked: book::check(book), listing: OnceCell::new(), runs: OnceCell::new() }
    }

    /// The bytes themselves.
    pub fn book(&self) -> &[u8] {
        self.book
    }

    /// The lists of a well-formed book, and of its matchings what has been listed.
    pub fn listing(&self) -> &Listing {
        let n = self.checked.expect("a well-formed book");
        self.listing.get_or_init(|| Listing::new(Lists::read(n, self.book)))
    }

    /// The rotations and the runs of a well-formed book.
    pub fn runs(&self) -> &Runs {
        self.runs.get_or_init(|| Runs::new(self.listing()))
    }

    /// The stable matching that the bytes are: the book's rules, then 8, 9, 19, 10.
    pub fn stable_matching(&self, matching: &[u8]) -> Result<Matching, Refusal> {
        self.checked?;
        let lists = &self.listing().lists;
        let matching = Matching::read(lists, matching)?;
        lists.check_stable(&matching)?;
        Ok(matching)
    }

    /// The check of a book; the value is n.
    pub fn check_book(&self) -> Reply {
        granted(self.checked?)
    }

    /// One student's list: "the library hands back that stretch of the book". Any number may be asked for.
    pub fn student_list(&self, student: usize) -> Reply {
        self.numbered(student)?;
        self.stretch(student)
    }

    /// One mentor's list.
    pub fn mentor_list(&self, mentor: usize) -> Reply {
        let n = self.numbered(mentor)?;
        self.stretch(n + mentor)
    }

    /// n, where each side has a person of this number, or rule 11: "a student, mentor or rotation asked for has no such
    /// number".
    fn numbered(&self, number: usize) -> Result<usize, Refusal> {
        let n = self.checked?;
        if number >= n {
            return refused(11, 0);
        }
        Ok(n)
    }

    /// The stretch of a directory pair.
    fn stretch(&self, pair: usize) -> Reply {
        let (offset, length) = book::directory_pair(self.book, pair);
        Ok(Granted { place: offset, value: length, ..Granted::default() })
    }

    /// The check of a matching.
    pub fn check_matching(&self, matching: &[u8]) -> Reply {
        self.stable_matching(matching)?;
        granted(0)
    }

    /// The student-best matching.
    pub fn student_best(&self, out: &mut [u8]) -> Reply {
        let n = self.checked?;
        put(out, &self.listing().student_best().bytes())?;
        granted(n)
    }

    /// The mentor-best matching.
    pub fn mentor_best(&self, out: &mut [u8]) -> Reply {
        let n = self.checked?;
        put(out, &self.listing().mentor_best().bytes())?;
        granted(n)
    }

    /// How many rotations there are.
    pub fn rotation_count(&self) -> Reply {
        self.checked?;
        granted(self.runs().rotations.len())
    }

    /// The list of rotations; "the reply gives how many there are".
    pub fn rotations(&self, out: &mut [u8]) -> Reply {
        self.checked?;
        let rotations = &self.runs().rotations;
        put(out, &list_bytes(rotations))?;
        granted(rotations.len())
    }

    /// "Asked about two rotation numbers, the library says yes or no", 1 or 0.
    pub fn precedes(&self, first: usize, second: usize) -> Reply {
        self.checked?;
        let runs = self.runs();
        let count = runs.rotations.len();
        if first >= count || second >= count {
            return refused(11, 0);
        }
        granted(runs.precedes(first, second).into())
    }

    /// The matching of a set: 15, "set has a wrong length or a byte over 1"; 16, "set is not closed"; 14.
    pub fn set_to_matching(&self, set: &[u8], out: &mut [u8]) -> Reply {
        let n = self.checked?;
        let runs = self.runs();
        if set.len() != runs.rotations.len() || set.iter().any(|&mark| mark > 1) {
            return refused(15, 0);
        }
        if !runs.is_closed(set) {
            return refused(16, 0);
        }
        put(out, &runs.matching_of(set).bytes())?;
        granted(n)
    }

    /// The closed set of a stable matching.
    pub fn matching_to_set(&self, matching: &[u8], out: &mut [u8]) -> Reply {
        let given = self.stable_matching(matching)?;
        let set = self.runs().set_of(&given);
        put(out, set)?;
        granted(set.len())
    }
}

/// Writes a result, or refuses by 14: "a lent result buffer is too short".
fn put(out: &mut [u8], result: &[u8]) -> Result<(), Refusal> {
    if out.len() < result.len() {
        return refused(14, 0);
    }
    out[..result.len()].copy_from_slice(result);
    Ok(())
}

/// The bytes of a book of n.
pub fn book_size(n: usize) -> Reply {
    if n > book::LARGEST {
        return refused(3, 1);
    }
    granted(book::size(n))
}

/// The writer; the value is how many bytes it has written.
pub fn write_book(n: usize, lists: &[u8], out: &mut [u8]) -> Reply {
    let book = book::write(n, lists, out.len())?;
    put(out, &book)?;
    granted(book.len())
}

/// A text that is printed to a buffer; the value is how many bytes it has written.
pub fn print(text: &str, out: &mut [u8]) -> Reply {
    put(out, text.as_bytes())?;
    granted(text.len())
}

/// The sheet of a book with a matching after it.
pub fn sheet(input: &[u8], out: &mut [u8]) -> Reply {
    print(&sheet::text(input), out)
}

/// The sheet with moves of a book with a matching after it.
pub fn moves(input: &[u8], out: &mut [u8]) -> Reply {
    print(&moves::texts(input)[1], out)
}

/// The weighted sheet of a book with a matching and weights after it.
pub fn weighted_sheet(input: &[u8], out: &mut [u8]) -> Reply {
    print(&sheet::weighted_text(input), out)
}
