//! Books and matchings of the papers, books of short lists, and the sheet as text.
#![allow(dead_code)] // each test program uses a part

use listing::asked::{sheet, write_book, Asked};
use listing::matching::Matching;

/// Table 1 of document 000 as a book, with the matching 4 5 6 3 1 2 0 after it.
pub const TABLE_1_AND_MATCHING_5: &[u8] = include_bytes!("../../../../examples/table-1");

/// The matching M5 of document 000, section 3.
pub const MATCHING_5: [u8; 7] = [4, 5, 6, 3, 1, 2, 0];

/// The digits of a text.
fn digits(text: &str) -> Vec<u8> {
    text.bytes().filter(u8::is_ascii_digit).map(|digit| digit - b'0').collect()
}

/// The book of n people a side from its lists, one digit an entry.
pub fn book_of(n: usize, lists: &str) -> Vec<u8> {
    let mut out = vec![0; 156];
    let written = write_book(n, &digits(lists), &mut out).expect("lists that break no rule");
    out.truncate(written.value);
    out
}

/// The book of edition 2 from the lists of n students and n mentors, one digit an entry, `-` for a list without any.
pub fn short_book_of(lists: &str) -> Vec<u8> {
    let lists: Vec<Vec<u8>> = lists.split_whitespace().map(digits).collect();
    let (mut directory, mut offset) = (vec![], 2 + 4 * lists.len());
    for list in &lists {
        directory.extend([offset as u8, 0, list.len() as u8, 0]);
        offset += list.len();
    }
    [&[2, lists.len() as u8 / 2], &directory[..], &lists.concat()].concat()
}

/// Table 1 as a book.
pub fn table_1() -> &'static [u8] {
    &TABLE_1_AND_MATCHING_5[..156]
}

/// The given matching M5.
pub fn matching_5() -> Matching {
    Matching::read(&Asked::new(table_1()).listing().lists, &MATCHING_5).expect("a matching")
}

/// The sheet of a book and a matching.
pub fn sheet_of(book: &[u8], matching: &[u8]) -> String {
    let mut out = vec![0; 1024];
    let written = sheet(&[book, matching].concat(), &mut out).expect("1,024 bytes are always enough");
    out.truncate(written.value);
    String::from_utf8(out).expect("digits, letters and spaces")
}
