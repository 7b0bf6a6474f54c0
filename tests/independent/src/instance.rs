//! The lists of a well-formed book, and the ranks that they give.

use crate::book;
use crate::reply::Checked;

/// The rank of whoever does not stand on a list: below all who do.
pub const UNLISTED: u8 = u8::MAX;

/// A table of 64 rows and 64 columns. Indices are taken modulo 64, so that no look-up needs a test.
struct Table([u8; 4096]);

impl Table {
    #[inline(always)]
    fn get(&self, row: u8, column: u8) -> u8 {
        self.0[(row as usize & 63) << 6 | column as usize & 63]
    }

    #[inline(always)]
    fn set(&mut self, row: u8, column: u8, value: u8) {
        self.0[(row as usize & 63) << 6 | column as usize & 63] = value;
    }
}

/// The people of one side: their lists, end to end and best first, and the rank that each gives to each of the others.
pub struct Side<'a> {
    book: &'a [u8],
    /// Where the list of each begins in the book; the list before ends there.
    starts: [u16; 65],
    ranks: Table,
}

impl<'a> Side<'a> {
    /// The side of a well-formed book whose n lists begin with list `from`. The ranks are read off them.
    fn new(n: usize, book: &'a [u8], from: usize) -> Side<'a> {
        let mut side = Side { book, starts: [0; 65], ranks: Table([UNLISTED; 4096]) };
        for i in 0..n {
            let (offset, length) = book::directory_pair(book, from + i);
            side.starts[i] = offset as u16;
            side.starts[i + 1] = (offset + length) as u16;
            for (rank, &other) in side.list(i as u8).iter().enumerate() {
                side.ranks.set(i as u8, other, rank as u8);
            }
        }
        side
    }

    /// The list of one person, best first.
    #[inline(always)]
    pub fn list(&self, i: u8) -> &'a [u8] {
        &self.book[self.starts[i as usize & 63] as usize..self.starts[(i as usize & 63) + 1] as usize]
    }

    /// The entry of that rank on the list of `i`.
    #[inline(always)]
    pub fn at(&self, i: u8, rank: u8) -> u8 {
        self.book[self.starts[i as usize & 63] as usize + rank as usize]
    }

    /// The rank of `other` on the list of `i`, 0 for the best.
    #[inline(always)]
    pub fn rank(&self, i: u8, other: u8) -> u8 {
        debug_assert!(other < 64, "a person");
        self.ranks.get(i, other)
    }
}

/// A well-formed book as both sides; where it is of edition 2, men may be without a woman.
pub struct Instance<'a> {
    pub n: usize,
    pub partial: bool,
    pub men: Side<'a>,
    pub women: Side<'a>,
}

/// The instance of a book, or the first rule that it breaks.
pub fn read(book: &[u8]) -> Checked<Instance<'_>> {
    let n = book::check(book)?;
    Ok(Instance { n, partial: book::partial(book), men: Side::new(n, book, 0), women: Side::new(n, book, n) })
}
