//! The book as bytes (document 01, "The book"; W-203 for edition 2): its rules 1 to 7 and 18 in their order, and the
//! writer, which makes books of edition 1.

use crate::reply::{refused, Refusal};
use std::ops::RangeInclusive;

/// "n from 0 to 64".
pub const LARGEST: usize = 64;

/// "Byte 0 is the edition".
#[derive(Clone, Copy, Debug, PartialEq, Eq)]
pub enum Edition {
    One,
    Two,
}

/// The edition of a book that has a byte, if it is known.
pub fn edition(book: &[u8]) -> Option<Edition> {
    match book[0] {
        1 => Some(Edition::One),
        2 => Some(Edition::Two),
        _ => None,
    }
}

/// "The whole is 2 + 8 × n + 2 × n × n bytes": the size of a book of edition 1.
pub fn size(n: usize) -> usize {
    2 + 8 * n + 2 * n * n
}

/// "The first offset is 2 + 8 × n": where the list bytes begin.
pub fn first_offset(n: usize) -> usize {
    2 + 8 * n
}

/// "For edition 2 the size is the end of the last list". The directory is there.
fn end_of_the_last_list(n: usize, book: &[u8]) -> usize {
    if n == 0 {
        return first_offset(n);
    }
    let (offset, length) = directory_pair(book, 2 * n - 1);
    offset + length
}

/// How many bytes of a sheet's input are the book: its size, and of edition 2 the directory at least. All are, where
/// there is no directory that gives a size.
pub fn bytes_of_the_book(n: usize, input: &[u8]) -> usize {
    match edition(input) {
        Some(Edition::Two) if input.len() < first_offset(n) => input.len(),
        Some(Edition::Two) => end_of_the_last_list(n, input).max(first_offset(n)),
        _ => size(n),
    }
}

/// The first rule that a book breaks, or its n: "Book: under 2 bytes, then 2, 3, 1, 4, 5; then list bytes from the
/// first"; in edition 2 "1 is given first if the directory does not fit, then 5, then 1 and 4 for the lists".
pub fn check(book: &[u8]) -> Result<usize, Refusal> {
    if book.len() < 2 {
        return refused(1, book.len());
    }
    let Some(edition) = edition(book) else {
        return refused(2, 0);
    };
    let n = usize::from(book[1]);
    if n > LARGEST {
        return refused(3, 1);
    }
    match edition {
        Edition::One => {
            check_end(book, size(n))?;
            check_directory(n, book, n..=n)?;
        }
        Edition::Two => {
            if book.len() < first_offset(n) {
                return refused(1, book.len());
            }
            check_directory(n, book, 0..=n)?;
            check_end(book, end_of_the_last_list(n, book))?;
        }
    }
    check_entries(n, (0..2 * n).map(|pair| list(book, pair)), first_offset(n))?;
    check_returned(n, book)?;
    Ok(n)
}

/// Rule 1, "under the size", at the "bytes given"; rule 4, "bytes past the size", at the "size".
fn check_end(bytes: &[u8], size: usize) -> Result<(), Refusal> {
    if bytes.len() < size {
        return refused(1, bytes.len());
    }
    if bytes.len() > size {
        return refused(4, size);
    }
    Ok(())
}

/// Rule 5: "2 × n directory pairs, … each list starts where the one before ended", "each length is n" in edition 1,
/// and edition 2 "lets each directory length run from 0 to n"; the place is the first byte of the first pair that is
/// not so.
fn check_directory(n: usize, book: &[u8], lengths: RangeInclusive<usize>) -> Result<(), Refusal> {
    let mut end_of_the_one_before = first_offset(n);
    for pair in 0..2 * n {
        let (offset, length) = directory_pair(book, pair);
        if offset != end_of_the_one_before || !lengths.contains(&length) {
            return refused(5, 2 + 4 * pair);
        }
        end_of_the_one_before += length;
    }
    Ok(())
}

/// A directory pair: "an offset and a length, two bytes each, low byte first".
pub fn directory_pair(book: &[u8], pair: usize) -> (usize, usize) {
    let number_at = |at: usize| usize::from(book[at]) + 256 * usize::from(book[at + 1]);
    (number_at(2 + 4 * pair), number_at(4 + 4 * pair))
}

/// The list of a directory pair, "students 0 upward and then mentors".
pub fn list(book: &[u8], pair: usize) -> &[u8] {
    let (offset, length) = directory_pair(book, pair);
    &book[offset..offset + length]
}

/// Rules 6 and 7 on lists end to end: "list bytes from the first, 6 before 7 at one byte"; places count on from
/// `first_place`.
fn check_entries<'a>(n: usize, lists: impl Iterator<Item = &'a [u8]>, mut first_place: usize) -> Result<(), Refusal> {
    for list in lists {
        for (at, &entry) in list.iter().enumerate() {
            if usize::from(entry) >= n {
                return refused(6, first_place + at);
            }
            if list[..at].contains(&entry) {
                return refused(7, first_place + at);
            }
        }
        first_place += list.len();
    }
    Ok(())
}

/// Rule 18: "one-sided, an entry not returned by the other, after all 6 and 7".
fn check_returned(n: usize, book: &[u8]) -> Result<(), Refusal> {
    for number in 0..n {
        let returned_by_mentor = |mentor: &u8| list(book, n + usize::from(*mentor)).contains(&(number as u8));
        let returned_by_student = |student: &u8| list(book, usize::from(*student)).contains(&(number as u8));
        if !list(book, number).iter().all(returned_by_mentor) || !list(book, n + number).iter().all(returned_by_student)
        {
            return refused(18, 0);
        }
    }
    Ok(())
}

/// The book that a writer makes of n and its list bytes: "It refuses by 3, then 1 and 4 against that count, then 6
/// and 7, then 14; places count from the first list byte." `room` is the length of the result buffer.
pub fn write(n: usize, entries: &[u8], room: usize) -> Result<Vec<u8>, Refusal> {
    if n > LARGEST {
        return refused(3, 1);
    }
    check_end(entries, 2 * n * n)?;
    check_entries(n, entries.chunks(n.max(1)), 0)?;
    if room < size(n) {
        return refused(14, 0);
    }
    Ok(book_of(n, entries))
}

/// The bytes of a book: edition 1, n, the directory, the lists.
fn book_of(n: usize, entries: &[u8]) -> Vec<u8> {
    let mut book = vec![1, n as u8];
    for list in 0..2 * n {
        let offset = first_offset(n) + list * n;
        book.extend((offset as u16).to_le_bytes());
        book.extend((n as u16).to_le_bytes());
    }
    book.extend(entries);
    book
}
