//! W-206 from bytes alone: a repaired matching beside a stable one that parts the pair on the same side. A book is well
//! formed here, and the matchings are stable in it.

/// The number at a byte of a book, low byte first.
fn number(book: &[u8], at: usize) -> usize {
    usize::from(book[at]) + 256 * usize::from(book[at + 1])
}

/// The place of the mentor of a student in a matching, on his list, whose directory pair says where it stands; none
/// where she does not stand on it.
fn place(book: &[u8], matching: &[u8], student: usize) -> Option<usize> {
    let pair = 2 + 4 * student;
    let (offset, length) = (number(book, pair), number(book, pair + 2));
    book[offset..offset + length].iter().position(|&mentor| mentor == matching[student])
}

/// The letter of the side on which another stable matching parts the pair of a student: U where he is better off in it
/// than in the given one, D where he is worse off; none where he has the same mentor.
pub fn side(book: &[u8], given: &[u8], other: &[u8], student: usize) -> Option<char> {
    let (old, new) = (place(book, given, student)?, place(book, other, student)?);
    (old != new).then_some(if new < old { 'U' } else { 'D' })
}

/// The first student, if there is one, whose mentor in the repaired matching does not stand on his list between those
/// of the given and of the other matching, ends counted. Who has a mentor in one has to have one in all.
pub fn outside(book: &[u8], given: &[u8], repaired: &[u8], other: &[u8]) -> Option<usize> {
    let between = |student: &usize| match [given, repaired, other].map(|matching| place(book, matching, *student)) {
        [Some(given), Some(repaired), Some(other)] => (given.min(other)..=given.max(other)).contains(&repaired),
        places => places == [None; 3],
    };
    (0..given.len()).find(|student| !between(student))
}

/// How many students the other matching moves and the repaired one leaves.
pub fn left(given: &[u8], repaired: &[u8], other: &[u8]) -> usize {
    (0..given.len()).filter(|&student| repaired[student] == given[student] && other[student] != given[student]).count()
}
