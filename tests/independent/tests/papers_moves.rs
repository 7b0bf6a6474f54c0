//! The sheet with moves: the whole text for Table 1 of document 000 and for short lists, worked out by hand.
//!
//! Table 1 and its matching M5, 4 5 6 3 1 2 0. Table 3 says which repair is the nearer: M2 for men 0 and 5, M1 for man
//! 1, M6 for men 2 and 6, M7 for man 3, M8 for man 4; for man 0 both are as near, and for man 1, so that up is taken.
//! Table 2 has their closed subsets. Rotation 2, which M2 lacks, moves men 0 and 5 from women 2 and 4 to 4 and 2;
//! rotation 1, which M1 lacks too, moves men 1, 6 and 5 from 4, 5 and 0 to 5, 0 and 4. Rotation 4 moves men 2 and 6
//! from 6 and 0 to 0 and 6, rotation 5 then men 1 and 3 from 5 and 3 to 3 and 5, and rotation 3 men 0 and 4 from 4 and 1
//! to 1 and 4. So, beside M5:
//!
//! - M2: man 0 goes from 4 to 2, from place 4 to 3 of his list 0652413; man 5 from 2 to 4, from 6 to 5 of 6103542.
//! - M1: man 0 as there; man 1 from 5 to 4, from 3 to 2 of 6145023; man 5 from 2 to 0, from 6 to 2; man 6 from 0 to 5,
//!   from 2 to 1 of 2506431.
//! - M6: man 2 from 6 to 0, from 0 to 1 of 6031542; man 6 from 0 to 6, from 2 to 3.
//! - M7: both as there; man 1 from 5 to 3, from 3 to 6; man 3 from 3 to 5, from 0 to 6 of 3201465.
//! - M8: man 0 from 4 to 1, from 4 to 5; man 4 from 1 to 4, from 0 to 4 of 1203456.

use independent::reply::Reply;
use independent::{calls, moves, samples, short_samples};

const TABLE_1: &str = "7 6 0 3\n\
    0 4 U 2\n 0 4 2 +1\n 5 2 4 +1\n\
    1 5 U 4\n 0 4 2 +1\n 1 5 4 +1\n 5 2 0 +4\n 6 0 5 +1\n\
    2 6 D 2\n 2 6 0 -1\n 6 0 6 -1\n\
    3 3 D 4\n 1 5 3 -3\n 2 6 0 -1\n 3 3 5 -6\n 6 0 6 -1\n\
    4 1 D 2\n 0 4 1 -1\n 4 1 4 -4\n\
    5 2 U 2\n 0 4 2 +1\n 5 2 4 +1\n\
    6 0 D 2\n 2 6 0 -1\n 6 0 6 -1\n";

/// Table 1 with M5 after it.
fn table_1() -> Vec<u8> {
    [&samples::book(7, &samples::digits(&samples::TABLE_1))[..], &[4, 5, 6, 3, 1, 2, 0]].concat()
}

fn text_of(input: &[u8]) -> String {
    String::from_utf8(moves::text(input)).unwrap()
}

#[test]
fn table_1_with_moves() {
    assert_eq!(text_of(&table_1()), TABLE_1);
}

/// The lists of examples/short-lists. Men 0 and 1 can exchange women 0 and 1, each one place down his list of two; the
/// pairs of men 2 and 3 are fixed, and men 4 and 5 are alone. In the other stable matching the two go back.
#[test]
fn short_lists_with_moves() {
    let lists: [&[u8]; 12] =
        [&[0, 1], &[1, 0], &[2, 4, 3], &[3, 2], &[1], &[], &[1, 0], &[0, 1, 4], &[3, 2], &[2, 3], &[2], &[]];
    let book = short_samples::book(&lists.map(<[u8]>::to_vec));
    let rest = "2 2 F 0\n3 3 F 0\n4 - N 0\n5 - N 0\n";
    let (down, up) = (" 0 0 1 -1\n 1 1 0 -1\n", " 0 1 0 +1\n 1 0 1 +1\n");
    let of = |matching: [u8; 6]| text_of(&[&book[..], &matching].concat());
    assert_eq!(of([0, 1, 2, 3, 255, 255]), format!("6 1 2 1\n0 0 D 2\n{down}1 1 D 2\n{down}{rest}"));
    assert_eq!(of([1, 0, 2, 3, 255, 255]), format!("6 1 2 1\n0 1 U 2\n{up}1 0 U 2\n{up}{rest}"));
}

/// Nobody to move, and refusals of the book and of the matching.
#[test]
fn no_moves_and_refusals() {
    assert_eq!(text_of(&[1, 0]), "0 0 0 -\n");
    assert_eq!(text_of(&[&samples::book(1, &[0, 0])[..], &[0]].concat()), "1 0 1 -\n0 0 F 0\n");
    assert_eq!(text_of(&[]), "refused 1\n");
    assert_eq!(text_of(&[1, 65]), "refused 3\n");
    assert_eq!(text_of(&table_1()[..162]), "refused 8\n");
    let same = samples::book(2, &[0, 1, 0, 1, 0, 1, 0, 1]);
    assert_eq!(text_of(&[&same[..], &[1, 0]].concat()), "refused 10\n");
}

/// 14 and nothing written where the buffer is a byte too short; nothing past the text where it is longer.
#[test]
fn buffers() {
    let length = TABLE_1.len();
    let mut out = vec![7; length + 2];
    for room in [0, 1, 64, length - 1] {
        let refused = Reply { number: 14, ..Reply::default() };
        assert_eq!(calls::moves(&table_1(), &mut out[..room]), refused, "room {room}");
        assert!(out.iter().all(|&byte| byte == 7));
    }
    assert_eq!(calls::moves(&table_1(), &mut out[..length]), Reply::value(length));
    assert_eq!(out, [TABLE_1.as_bytes(), &[7, 7]].concat());
    assert_eq!(calls::moves(&table_1(), &mut out), Reply::value(length));
    assert_eq!(out, [TABLE_1.as_bytes(), &[7, 7]].concat());
}

/// n = 64, each man with his first woman. Every repair is the next rotation, of all 64: 64 lines under each of 64, each
/// man one place down. The longest text over all books has a sheet of 718 bytes and 14 in each of these lines.
#[test]
fn largest() {
    let same: Vec<u8> = (0..64).collect();
    let text = text_of(&[&samples::book(64, &samples::cyclic(64))[..], &same].concat());
    assert_eq!(text.lines().count(), 1 + 64 + 64 * 64);
    assert!(text.lines().filter(|line| line.starts_with(' ')).all(|line| line.ends_with(" -1")));
    assert!(text.len() < 718 + 64 * 64 * 14);
}
