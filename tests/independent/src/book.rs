//! The book: the encoded lists of n men and n women, of n entries each in edition 1 and of 0 to n in edition 2. Rules
//! 1 to 7 and 18 in the order of document 01 and of W-203, one person's list, the writer.

use crate::bits::{everyone, transposed};
use crate::reply::{refused, rule, Checked, Refusal};

/// The largest n.
pub const LARGEST: usize = 64;

/// The bytes of a book of n men and n women where each list has n entries.
pub fn size(n: usize) -> usize {
    2 + 8 * n + 2 * n * n
}

/// Where the lists begin: after edition, n and 2n directory pairs of four bytes.
pub fn lists_start(n: usize) -> usize {
    2 + 8 * n
}

/// Whether lists may be short and men alone: in edition 2.
pub fn partial(book: &[u8]) -> bool {
    book[0] == 2
}

/// An input taken apart: the book and what follows it.
pub fn and_rest(input: &[u8]) -> (&[u8], &[u8]) {
    input.split_at(extent(input).min(input.len()))
}

/// How many bytes the book of an input has. In edition 2 it goes to the end of its last list, and to that of the
/// directory at least; bytes that are not there count as 0. Otherwise it has the size that byte 1 gives.
fn extent(input: &[u8]) -> usize {
    let byte = |at: usize| input.get(at).map_or(0, |&byte| byte as usize);
    let (n, start) = (byte(1), lists_start(byte(1)));
    let word = |at: usize| byte(at) + 256 * byte(at + 1);
    match (byte(0), n) {
        (2, 0) => start,
        (2, _) => start.max(word(start - 4) + word(start - 2)),
        _ => size(n),
    }
}

/// n, from the two bytes at the front: under 2 bytes, then 2, then 3.
fn people(book: &[u8]) -> Checked<usize> {
    rule(book.len() < 2, 1, book.len())?;
    rule(book[0] != 1 && book[0] != 2, 2, 0)?;
    rule(book[1] as usize > LARGEST, 3, 1)?;
    Ok(book[1] as usize)
}

/// Rules 1 to 7 and 18; n of a well-formed book.
pub fn check(book: &[u8]) -> Checked<usize> {
    let n = people(book)?;
    if partial(book) {
        rule(book.len() < lists_start(n), 1, book.len())?;
    } else {
        check_size(book, size(n))?;
    }
    let end = check_directory(book, n)?;
    check_size(book, end)?;
    check_lists((0..2 * n).map(|k| list(book, k)), n, lists_start(n))?;
    rule(one_sided(book, n), 18, 0)?;
    Ok(n)
}

/// Rules 1 and 4 against a size.
fn check_size(book: &[u8], size: usize) -> Checked<()> {
    rule(book.len() < size, 1, book.len())?;
    rule(book.len() > size, 4, size)
}

/// Directory pair k: the offset of list k and its length, two bytes each, low byte first.
pub fn directory_pair(book: &[u8], k: usize) -> (usize, usize) {
    let word = |at: usize| u16::from_le_bytes([book[at], book[at + 1]]) as usize;
    (word(2 + 4 * k), word(4 + 4 * k))
}

/// Rule 5: the first directory pair whose list does not begin where the one before ended, or has a length that it may
/// not have. Answers with the end of the last list.
fn check_directory(book: &[u8], n: usize) -> Checked<usize> {
    let mut end = lists_start(n);
    for k in 0..2 * n {
        let (offset, length) = directory_pair(book, k);
        let allowed = if partial(book) { length <= n } else { length == n };
        rule(offset != end || !allowed, 5, 2 + 4 * k)?;
        end += length;
    }
    Ok(end)
}

/// List k of a book: men's lists are 0 to n - 1, women's the next n.
fn list(book: &[u8], k: usize) -> &[u8] {
    let (offset, length) = directory_pair(book, k);
    &book[offset..offset + length]
}

/// Rules 6 and 7 on lists that stand end to end; the first entry has the place `at`.
fn check_lists<'a>(lists: impl Iterator<Item = &'a [u8]>, n: usize, mut at: usize) -> Checked<()> {
    for list in lists {
        if !names_each_once(list, n) {
            return Err(first_fault(list, n, at));
        }
        at += list.len();
    }
    Ok(())
}

/// Whether a list names people below n only, and nobody twice.
fn names_each_once(list: &[u8], n: usize) -> bool {
    let bits = list.iter().fold(0, |bits, entry| bits | entry);
    let named = named(list);
    bits < 64 && named & !everyone(n) == 0 && named.count_ones() as usize == list.len()
}

/// Whom a list names.
fn named(list: &[u8]) -> u64 {
    list.iter().fold(0, |set, &entry| set | 1 << (entry & 63))
}

/// The first fault of a list that has one and begins at `start`: rule 6 before rule 7 at one entry.
fn first_fault(list: &[u8], n: usize, start: usize) -> Refusal {
    let mut named = 0u64;
    for (at, &entry) in (start..).zip(list) {
        if entry as usize >= n {
            return refused(6, at);
        }
        if named >> entry & 1 == 1 {
            return refused(7, at);
        }
        named |= 1 << entry;
    }
    unreachable!("a list of entries that are all below n, no two of them equal, has no fault")
}

/// Whether somebody lists one who does not list him. Whom each man lists is a row of bits, and so is whom each woman
/// lists; with rows and columns exchanged one table has to be the other.
fn one_sided(book: &[u8], n: usize) -> bool {
    let table = |from: usize| {
        let mut rows = [0; 64];
        (0..n).for_each(|i| rows[i] = named(list(book, from + i)));
        rows
    };
    transposed(table(n)) != table(0)
}

/// Where the list of a man or a woman begins, and its length. Rule 11.
pub fn list_offset(book: &[u8], woman: bool, number: usize) -> Checked<(usize, usize)> {
    let n = check(book)?;
    rule(number >= n, 11, 0)?;
    Ok(directory_pair(book, if woman { n + number } else { number }))
}

/// Writes the book of edition 1 of n and 2n^2 list bytes: 3, then 1 and 4 against 2n^2, then 6 and 7, then 14.
pub fn write(n: usize, lists: &[u8], out: &mut [u8]) -> Checked<usize> {
    rule(n > LARGEST, 3, 1)?;
    check_size(lists, 2 * n * n)?;
    check_lists(lists.chunks(n.max(1)), n, 0)?;
    rule(out.len() < size(n), 14, 0)?;
    out[..2].copy_from_slice(&[1, n as u8]);
    for k in 0..2 * n {
        let offset = ((lists_start(n) + k * n) as u16).to_le_bytes();
        out[2 + 4 * k..6 + 4 * k].copy_from_slice(&[offset[0], offset[1], n as u8, 0]);
    }
    out[lists_start(n)..size(n)].copy_from_slice(lists);
    Ok(size(n))
}
