//! Short lists (W-203) worked out by hand: a book in which somebody is alone on each side, and the rules in their
//! order.
//!
//! Student 0 lists 0 1, student 1 lists 1 2 0, student 2 lists 0; mentor 0 lists 1 0 2, mentor 1 lists 0 1, mentor 2
//! lists 1. Students 0 and 1 rank mentors 0 and 1 first, and mentor 0 prefers student 0 to student 2. So 0 1 255 is the
//! student-best matching, in which student 2 and mentor 2 are alone. In 1 0 255 mentors 0 and 1 would have their first
//! students; but student 1 prefers mentor 2, who is alone, to mentor 0, and these two block it. Mentor 2 stands before
//! mentor 0 on student 1's list and ends his search for a next mentor.

use independent::reply::{Reply, NO_GRADE};
use independent::{calls, sheet, short_samples};

const LISTS: [&[u8]; 6] = [&[0, 1], &[1, 2, 0], &[0], &[1, 0, 2], &[0, 1], &[1]];

/// The same with mentor 2 at the end of student 1's list: she no longer ends his search before mentor 0.
const OTHER_LISTS: [&[u8]; 6] = [&[0, 1], &[1, 0, 2], &[0], &[1, 0, 2], &[0, 1], &[1]];

fn book<const LISTS: usize>(lists: [&[u8]; LISTS]) -> Vec<u8> {
    short_samples::book(&lists.map(<[u8]>::to_vec))
}

fn refused(number: usize, place: usize, second: usize) -> Reply {
    Reply { number, place, second, ..Reply::default() }
}

fn sheet_of(book: &[u8], matching: &[u8]) -> String {
    String::from_utf8(sheet::text(&[book, matching].concat())).unwrap()
}

/// The bytes of a book, written out.
#[test]
fn as_bytes() {
    let directory = [26, 0, 2, 0, 28, 0, 3, 0, 31, 0, 1, 0, 32, 0, 3, 0, 35, 0, 2, 0, 37, 0, 1, 0];
    let due = [&[2, 3], &directory[..], &[0, 1, 1, 2, 0, 0, 1, 0, 2, 0, 1, 1]].concat();
    assert_eq!(book(LISTS), due);
    assert_eq!(calls::check_book(&due), Reply::value(3));
    assert_eq!(calls::check_book(&due[..37]), refused(1, 37, 0));
    assert_eq!(calls::check_book(&[&due[..], &[0]].concat()), refused(4, 38, 0));
    assert_eq!(calls::check_book(&due[..25]), refused(1, 25, 0));
    assert_eq!(calls::check_book(&[2, 0]), Reply::value(0));
    assert_eq!(calls::check_book(&[3, 0]), refused(2, 0, 0));
}

/// One stable matching: the pairs are fixed, and student 2 is no pair.
#[test]
fn a_mentor_who_is_alone_ends_the_search() {
    let mut out = [9; 3];
    for call in [calls::student_best, calls::mentor_best] {
        assert_eq!(call(&book(LISTS), &mut out), Reply::value(3));
        assert_eq!(out, [0, 1, 255]);
    }
    assert_eq!(calls::rotation_count(&book(LISTS)), Reply::value(0));
    assert_eq!(calls::check_matching(&book(LISTS), &[1, 0, 255]), refused(10, 1, 2));
    assert_eq!(sheet_of(&book(LISTS), &[0, 1, 255]), "3 0 2 -\n0 0 F 0\n1 1 F 0\n2 - N 0\n");
}

/// With mentor 2 last there is one rotation, of students 0 and 1. Student 2 counts neither in the grade nor as fixed.
#[test]
fn one_rotation_beside_those_who_are_alone() {
    let book = book(OTHER_LISTS);
    let mut out = [9; 5];
    assert_eq!(calls::rotations(&book, &mut out), Reply::value(1));
    assert_eq!(out, [2, 0, 0, 1, 1]);
    assert_eq!(calls::mentor_best(&book, &mut out), Reply::value(3));
    assert_eq!(out[..3], [1, 0, 255]);
    assert_eq!(sheet_of(&book, &[0, 1, 255]), "3 1 0 1\n0 0 D 2\n1 1 D 2\n2 - N 0\n");
    assert_eq!(sheet_of(&book, &[1, 0, 255]), "3 1 0 1\n0 1 U 2\n1 0 U 2\n2 - N 0\n");
    let mut gains = [99; 3];
    let reply = calls::repair(&book, &[0, 1, 255], &[0, 0], &mut out, &mut gains);
    assert_eq!((reply.letter, reply.value), (b'D' as usize, 2));
    assert_eq!((&out[..3], gains), (&[1, 0, 255][..], [-1, -1, 0]));
    let request = |pair: [u8; 2]| calls::repair(&book, &[0, 1, 255], &pair, &mut [0; 3], &mut [0; 3]).number;
    assert_eq!([[2, 0], [2, 2], [2, 255], [0, 255], [0, 1]].map(request), [12, 12, 11, 11, 12]);
}

/// W-204: a line with N is no fixed pair. Both students list mentor 0 alone, who prefers student 0, and mentor 1 lists
/// nobody; where all lists are empty there is no pair. Then two by two of document 01 beside a student and a mentor who
/// list each other alone, a fixed pair, and two who list nobody: the first two pairs can be repaired.
#[test]
fn number_of_fixed_pairs() {
    let graded = |lists: [&[u8]; 4], matching: &[u8]| {
        assert_eq!(calls::grade(&book(lists), matching), Reply::value(NO_GRADE));
        sheet_of(&book(lists), matching)
    };
    assert_eq!(graded([&[0], &[0], &[0, 1], &[]], &[0, 255]), "2 0 1 -\n0 0 F 0\n1 - N 0\n");
    assert_eq!(graded([&[]; 4], &[255, 255]), "2 0 0 -\n0 - N 0\n1 - N 0\n");
    let book = book([&[0, 1], &[1, 0], &[2], &[], &[1, 0], &[0, 1], &[2], &[]]);
    let lines = "0 0 D 2\n1 1 D 2\n2 2 F 0\n3 - N 0\n";
    assert_eq!(sheet_of(&book, &[0, 1, 2, 255]), format!("4 1 1 1\n{lines}"));
    assert_eq!(calls::grade(&book, &[0, 1, 2, 255]), Reply::value(1));
}

/// 8, 9, 19, 10 in their order; 255 does not clash with 255.
#[test]
fn rules_on_matchings() {
    let book = book(LISTS);
    let check = |matching: &[u8]| calls::check_matching(&book, matching);
    assert_eq!(check(&[0, 1]), refused(8, 0, 0));
    assert_eq!(check(&[2, 1, 1]), refused(9, 2, 0));
    assert_eq!(check(&[2, 1, 3]), refused(9, 2, 0));
    assert_eq!(check(&[2, 1, 0]), refused(19, 0, 0));
    assert_eq!(check(&[255, 255, 255]), refused(10, 0, 0));
    assert_eq!(check(&[255, 1, 255]), refused(10, 0, 0));
    assert_eq!(check(&[0, 255, 255]), refused(10, 1, 1));
    assert_eq!(check(&[0, 1, 255]), Reply::value(0));
    let full = independent::samples::book(1, &[0, 0]);
    assert_eq!(calls::check_matching(&full, &[255]), refused(9, 0, 0));
}

/// 18 after all 6 and 7: a student's entry that the mentor does not return, and a mentor's.
#[test]
fn one_sided() {
    let check = |lists: [&[u8]; 2]| calls::check_book(&short_samples::book(&lists.map(<[u8]>::to_vec)));
    assert_eq!(check([&[0], &[]]), refused(18, 0, 0));
    assert_eq!(check([&[], &[0]]), refused(18, 0, 0));
    assert_eq!(check([&[], &[]]), Reply::value(1));
    let mut lists = LISTS;
    lists[0] = &[0, 2];
    assert_eq!(calls::check_book(&book(lists)), refused(18, 0, 0));
    lists[5] = &[1, 1];
    assert_eq!(calls::check_book(&book(lists)), refused(7, 38, 0));
    lists[5] = &[1, 3];
    assert_eq!(calls::check_book(&book(lists)), refused(6, 38, 0));
}

/// Rule 5 at the pair, before 1 and 4 against the end of the last list.
#[test]
fn damaged_directories() {
    let whole = book(LISTS);
    for (at, byte, place) in [(2, 27, 2), (3, 1, 2), (8, 4, 6), (6, 29, 6), (22, 36, 22), (24, 4, 22), (25, 1, 22)] {
        let mut damaged = whole.clone();
        damaged[at] = byte;
        assert_eq!(calls::check_book(&damaged), refused(5, place, 0), "byte {at}");
        assert_eq!(calls::check_book(&[&damaged[..], &[0]].concat()), refused(5, place, 0), "byte {at}");
        assert_eq!(calls::check_book(&damaged[..26]), refused(5, place, 0), "byte {at}");
    }
    let mut longer = whole.clone();
    longer[24] = 2;
    assert_eq!(calls::check_book(&longer), refused(1, 38, 0));
    longer[24] = 0;
    assert_eq!(calls::check_book(&longer), refused(4, 37, 0));
}

/// In a sheet's input the matching begins where the last list ends; the bytes of the directory are the book's always.
#[test]
fn inputs_of_sheets() {
    let (book, due) = (book(LISTS), "3 0 2 -\n0 0 F 0\n1 1 F 0\n2 - N 0\n");
    let input = [&book[..], &[0, 1, 255]].concat();
    assert_eq!(String::from_utf8(sheet::weighted_text(&[&input[..], &[7, 0, 1]].concat())).unwrap(), due);
    assert_eq!(sheet_of(&input, &[0]), "refused 8\n");
    assert_eq!(sheet_of(&input[..40], &[]), "refused 8\n");
    assert_eq!(sheet_of(&input[..37], &[]), "refused 1\n");
    assert_eq!(sheet_of(&input[..24], &[]), "refused 1\n");
    let mut damaged = input.clone();
    damaged[22..26].fill(0);
    assert_eq!(sheet_of(&damaged, &[]), "refused 5\n");
    assert_eq!(sheet_of(&[2, 0], &[]), "0 0 0 -\n");
    assert_eq!(sheet_of(&[2, 0], &[255]), "refused 8\n");
}
