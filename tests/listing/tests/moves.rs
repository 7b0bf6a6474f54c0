//! The sheet with moves: the whole text for Table 1 of document 000 with the matching M5, by its Tables 2 and 3 and the
//! places of Table 1, and for short lists that are worked out by hand.

mod books;

use books::{book_of, short_book_of, TABLE_1_AND_MATCHING_5};
use listing::asked::moves;
use listing::reply::{granted, refused};

/// The matchings to which M5 is repaired, by Table 3, and the places of women whom men leave and get, by Table 1:
///
/// - M2, up for men 0 and 5: man 0 from 4 (place 4) to 2 (place 3), man 5 from 2 (6) to 4 (5)
/// - M1, up for man 1: man 0 as in M2, man 1 from 5 (3) to 4 (2), man 5 from 2 (6) to 0 (2), man 6 from 0 (2) to 5 (1)
/// - M6, down for men 2 and 6: man 2 from 6 (0) to 0 (1), man 6 from 0 (2) to 6 (3)
/// - M7, down for man 3: men 2 and 6 as in M6, man 1 from 5 (3) to 3 (6), man 3 from 3 (0) to 5 (6)
/// - M8, down for man 4: man 0 from 4 (4) to 1 (5), man 4 from 1 (0) to 4 (4)
const M2: &str = " 0 4 2 +1\n 5 2 4 +1\n";
const M1: &str = " 0 4 2 +1\n 1 5 4 +1\n 5 2 0 +4\n 6 0 5 +1\n";
const M6: &str = " 2 6 0 -1\n 6 0 6 -1\n";
const M7: &str = " 1 5 3 -3\n 2 6 0 -1\n 3 3 5 -6\n 6 0 6 -1\n";
const M8: &str = " 0 4 1 -1\n 4 1 4 -4\n";

fn text_of(input: &[u8]) -> String {
    let mut out = vec![0; 1024];
    let written = moves(input, &mut out).expect("1,024 bytes are enough for these");
    out.truncate(written.value);
    String::from_utf8(out).expect("digits, letters, signs and spaces")
}

/// The text for a book and a matching.
fn of(book: Vec<u8>, matching: &[u8]) -> String {
    text_of(&[&book[..], matching].concat())
}

fn table_1() -> String {
    format!("7 6 0 3\n0 4 U 2\n{M2}1 5 U 4\n{M1}2 6 D 2\n{M6}3 3 D 4\n{M7}4 1 D 2\n{M8}5 2 U 2\n{M2}6 0 D 2\n{M6}")
}

#[test]
fn table_1_and_matching_5() {
    assert_eq!(text_of(TABLE_1_AND_MATCHING_5), table_1());
}

/// Students 0 and 1 exchange mentors 0 and 1, each of whom the other ranks second. Students 2 and 3 keep theirs, and
/// students 4 and 5 have none.
#[test]
fn short_lists() {
    let six = || short_book_of("01 10 243 32 1 - 10 014 32 23 2 -");
    let rest = "2 2 F 0\n3 3 F 0\n4 - N 0\n5 - N 0\n";
    let (down, up) = (" 0 0 1 -1\n 1 1 0 -1\n", " 0 1 0 +1\n 1 0 1 +1\n");
    let due = [
        format!("6 1 2 1\n0 0 D 2\n{down}1 1 D 2\n{down}{rest}"),
        format!("6 1 2 1\n0 1 U 2\n{up}1 0 U 2\n{up}{rest}"),
    ];
    assert_eq!([of(six(), &[0, 1, 2, 3, 255, 255]), of(six(), &[1, 0, 2, 3, 255, 255])], due);
}

/// Nobody is moved where there is nobody, one pair alone, or nobody placed. A refusal is a line.
#[test]
fn no_moves() {
    assert_eq!(of(book_of(0, ""), &[]), "0 0 0 -\n");
    assert_eq!(of(book_of(1, "0 0"), &[0]), "1 0 1 -\n0 0 F 0\n");
    assert_eq!(of(short_book_of("- -"), &[255]), "1 0 0 -\n0 - N 0\n");
    assert_eq!(of(book_of(2, "01 01 01 01"), &[1, 0]), "refused 10\n");
    assert_eq!(text_of(&TABLE_1_AND_MATCHING_5[..162]), "refused 8\n");
    assert_eq!(text_of(&[]), "refused 1\n");
}

/// 14 where the buffer is too short, whatever it is short of, and nothing is written.
#[test]
fn buffers() {
    let length = table_1().len();
    let mut out = vec![9; length];
    for room in 0..length {
        assert_eq!(moves(TABLE_1_AND_MATCHING_5, &mut out[..room]), refused(14, 0));
    }
    assert_eq!(out, vec![9; length]);
    assert_eq!(moves(TABLE_1_AND_MATCHING_5, &mut out), granted(length));
    assert_eq!(out, table_1().as_bytes());
}
