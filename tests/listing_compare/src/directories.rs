//! Rule 5 in edition 2, and 1 and 4 after it: lists of another length, with a directory that says so or not, and lists
//! that begin a byte late or early. So for small books and for the largest n.

use crate::both::Both;
use crate::short_lists::book;
use listing::asked::Asked;
use listing::book::{directory_pair, first_offset, LARGEST};

impl Both {
    /// Asks books in which one list has each length from none to n + 1, and ones in which it is moved.
    pub fn ask_directories(&mut self, lists: &[Vec<u8>]) {
        let (n, whole) = (lists.len() / 2, book(lists));
        let asked = Asked::new(&whole);
        let matching = asked.listing().student_best().bytes();
        let rotations = asked.runs().rotations.len();
        for k in 0..2 * n {
            let lengths = (0..=n + 1).filter(|&length| length != lists[k].len());
            for bytes in with_other_directories(lists, &whole, k, lengths) {
                self.ask_damaged_copy(&bytes, &matching, rotations);
            }
        }
    }

    /// Asks a book of 64 students whose lists have 42 or 43 entries, for which no matching has to be listed, and the
    /// same of some of its lists: the check, one person's list and the check of matchings that break a rule.
    pub fn ask_largest_directories(&mut self) {
        let list = |i: usize| (0..LARGEST).filter(|j| (i + j) % 3 != 0).map(|j| j as u8).collect();
        let lists: Vec<Vec<u8>> = (0..2 * LARGEST).map(|person| list(person % LARGEST)).collect();
        let whole = book(&lists);
        self.ask_unmatched(&whole);
        for k in [0, 1, LARGEST - 1, LARGEST, 2 * LARGEST - 1] {
            for bytes in with_other_directories(&lists, &whole, k, [0, 41, 44, 63, 64, 65].into_iter()) {
                self.ask_unmatched(&bytes);
                self.ask_unmatched(&bytes[..bytes.len() - 1]);
                self.ask_unmatched(&[&bytes[..], &[0]].concat());
            }
        }
    }

    /// Asks a book by calls that need no stable matching.
    fn ask_unmatched(&mut self, bytes: &[u8]) {
        let asked = Asked::new(bytes);
        self.check_book(&asked);
        for number in [0, 1, LARGEST - 1, LARGEST] {
            self.student_list(&asked, number);
            self.mentor_list(&asked, number);
        }
        let placed = |mentor: u8| [&[mentor], &[255; LARGEST - 1][..]].concat();
        for matching in [placed(255), placed(1), placed(0), vec![1; LARGEST], vec![255; LARGEST + 1]] {
            self.check_matching(&asked, &matching);
        }
    }
}

/// Books in which list k has another length, with a directory that says so and with the lists as they were, and ones
/// in which it and those after it are moved.
fn with_other_directories<'a>(
    lists: &'a [Vec<u8>],
    whole: &'a [u8],
    k: usize,
    lengths: impl Iterator<Item = usize> + 'a,
) -> impl Iterator<Item = Vec<u8>> + 'a {
    let start = first_offset(lists.len() / 2);
    let of_length = move |length: usize| {
        let other = with_length(lists, k, length);
        let over_the_same = [&other[..start], &whole[start..]].concat();
        [other, over_the_same]
    };
    lengths.flat_map(of_length).chain([moved_back(whole, lists.len(), k), moved_up(whole, lists.len(), k)])
}

/// The book in which list k is cut to a length, or has entries added: first those that it does not hold.
fn with_length(lists: &[Vec<u8>], k: usize, length: usize) -> Vec<u8> {
    let (n, mut lists) = ((lists.len() / 2) as u8, lists.to_vec());
    let more: Vec<u8> = (0..n).filter(|entry| !lists[k].contains(entry)).chain([0, 0]).collect();
    lists[k].extend(more);
    lists[k].truncate(length);
    book(&lists)
}

/// The book in which list k and those after it begin a byte late, after a byte that is on no list.
fn moved_back(whole: &[u8], pairs: usize, k: usize) -> Vec<u8> {
    let mut bytes = whole.to_vec();
    (k..pairs).for_each(|pair| set_offset(&mut bytes, pair, directory_pair(whole, pair).0 + 1));
    bytes.insert(directory_pair(whole, k).0, 0);
    bytes
}

/// The book in which list k and those after it begin a byte early, within what stands before them.
fn moved_up(whole: &[u8], pairs: usize, k: usize) -> Vec<u8> {
    let mut bytes = whole.to_vec();
    (k..pairs).for_each(|pair| set_offset(&mut bytes, pair, directory_pair(whole, pair).0 - 1));
    bytes.pop();
    bytes
}

/// Changes the offset in a directory pair.
fn set_offset(bytes: &mut [u8], pair: usize, offset: usize) {
    bytes[2 + 4 * pair..4 + 4 * pair].copy_from_slice(&(offset as u16).to_le_bytes());
}
