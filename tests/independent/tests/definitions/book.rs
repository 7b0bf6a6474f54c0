//! Rules 1 to 7 and 18 in the words of document 01 and of W-203.

/// A number of two bytes, low byte first.
fn number_at(book: &[u8], at: usize) -> usize {
    book[at] as usize + 256 * book[at + 1] as usize
}

/// The first rule that a book breaks, with its place.
pub fn first_broken(book: &[u8]) -> Option<(usize, usize)> {
    if book.len() < 2 {
        return Some((1, book.len()));
    }
    let n = book[1] as usize;
    if ![1, 2].contains(&book[0]) {
        return Some((2, 0));
    }
    if n > 64 {
        return Some((3, 1));
    }
    let start = 2 + 8 * n;
    let outline = match book[0] {
        1 => ends(book, start + 2 * n * n),
        _ => (book.len() < start).then_some((1, book.len())),
    };
    outline.or_else(|| match directory(book, n) {
        Err(broken) => Some(broken),
        Ok(end) => ends(book, end).or_else(|| entries(book, n)).or_else(|| one_sided(book, n)),
    })
}

/// Rules 1 and 4: a book that ends before its size or after it.
fn ends(book: &[u8], size: usize) -> Option<(usize, usize)> {
    let short = (book.len() < size).then_some((1, book.len()));
    short.or_else(|| (book.len() > size).then_some((4, size)))
}

/// The end of the last list, or rule 5 at the first byte of the first directory pair that is wrong. The first offset
/// is 2 + 8n, each list starts where the one before ended. Each length is n in edition 1 and 0 to n in edition 2.
fn directory(book: &[u8], n: usize) -> Result<usize, (usize, usize)> {
    let lengths = if book[0] == 1 { n..=n } else { 0..=n };
    let mut ended = 2 + 8 * n;
    for at in (2..2 + 8 * n).step_by(4) {
        let (offset, length) = (number_at(book, at), number_at(book, at + 2));
        if offset != ended || !lengths.contains(&length) {
            return Err((5, at));
        }
        ended = offset + length;
    }
    Ok(ended)
}

/// The list of each person of a book whose directory is right, with the place of its first entry.
fn lists(book: &[u8], n: usize) -> Vec<(usize, &[u8])> {
    let list = |k: usize| {
        let (offset, length) = (number_at(book, 2 + 4 * k), number_at(book, 4 + 4 * k));
        (offset, &book[offset..offset + length])
    };
    (0..2 * n).map(list).collect()
}

/// The first entry that is n or more (6) or stands earlier in its list (7).
fn entries(book: &[u8], n: usize) -> Option<(usize, usize)> {
    lists(book, n).iter().find_map(|&(offset, list)| first_wrong(list, n).map(|(number, at)| (number, offset + at)))
}

/// The same of one list, with places from its first entry.
pub fn first_wrong(list: &[u8], n: usize) -> Option<(usize, usize)> {
    (0..list.len()).find_map(|at| match list[at] {
        entry if entry as usize >= n => Some((6, at)),
        entry if list[..at].contains(&entry) => Some((7, at)),
        _ => None,
    })
}

/// An entry that is not returned by the other (18).
fn one_sided(book: &[u8], n: usize) -> Option<(usize, usize)> {
    let lists = lists(book, n);
    let returned = |i: usize, other: usize| lists[other].1.contains(&((i % n) as u8));
    let others = |i: usize| lists[i].1.iter().map(move |&entry| entry as usize + if i < n { n } else { 0 });
    (0..2 * n).any(|i| others(i).any(|other| !returned(i, other))).then_some((18, 0))
}
