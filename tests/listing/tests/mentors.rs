//! Mentors who ask for a repair by their own numbers (document 02, W-205): "A new call takes a mentor's number and
//! answers as the two-byte request for her pair does. A number of n or more gets 11, a mentor who is alone 12."

mod books;

use books::{book_of, short_book_of, table_1, MATCHING_5};
use listing::asked::Asked;
use listing::reply::{refused, Granted, Refusal, Reply};

/// Two by two of document 01 with a third student and a third mentor, whom the others list last: they stay alone.
const TWO_BY_TWO_AND_ONE: &str = "012 102 01 102 012 01";

/// The reply of a repair.
fn repaired(letter: char, value: usize) -> Reply {
    Ok(Granted { letter: Some(letter), value, ..Granted::default() })
}

/// The repair of a mentor's pair where nothing is to be written to buffers of these lengths.
fn unwritten(book: &[u8], matching: &[u8], weights: &[u8], mentor: u8, rooms: [usize; 2]) -> Reply {
    let (mut out, mut gains) = (vec![99; rooms[0]], vec![99; rooms[1]]);
    let reply = Asked::new(book).weighted_repair_mentor(matching, weights, mentor, &mut out, &mut gains);
    assert!(out.iter().all(|&byte| byte == 99) && gains.iter().all(|&gain| gain == 99));
    reply
}

/// The pairs of M5 by their mentors 0 to 6: the letters and distances of the sheet in document 01.
#[test]
fn table_1_by_each_mentor() {
    let asked = Asked::new(table_1());
    let due = [('D', 2), ('D', 2), ('U', 2), ('D', 4), ('U', 2), ('U', 4), ('D', 2)];
    for (mentor, (letter, distance)) in (0..).zip(due) {
        let (mut out, mut gains) = ([0; 7], [0; 7]);
        assert_eq!(asked.repair_mentor(&MATCHING_5, mentor, &mut out, &mut gains), repaired(letter, distance));
        let student = MATCHING_5.iter().position(|&other| other == mentor).expect("each mentor has a student");
        let (mut same, mut same_gains) = ([9; 7], [9; 7]);
        let request = [student as u8, mentor];
        assert_eq!(asked.repair(&MATCHING_5, &request, &mut same, &mut same_gains), repaired(letter, distance));
        assert_eq!((out, gains), (same, same_gains));
    }
}

/// Mentor 4 has student 0, whose repair up (Table 2) exchanges mentors with student 5; mentor 0 has student 6, whose
/// repair, D 2 on the sheet, is up where student 2 weighs much.
#[test]
fn repairs_by_hand() {
    let asked = Asked::new(table_1());
    let (mut out, mut gains) = ([9; 8], [99; 8]);
    assert_eq!(asked.repair_mentor(&MATCHING_5, 4, &mut out, &mut gains), repaired('U', 2));
    assert_eq!((out, gains), ([2, 5, 6, 3, 1, 4, 0, 9], [1, 0, 0, 0, 0, 1, 0, 99]));
    let weights = [10, 20, 200, 40, 5, 30, 50];
    let reply = asked.weighted_repair_mentor(&MATCHING_5, &weights, 0, &mut out, &mut gains);
    assert_eq!(reply, repaired('U', 110));
    assert_eq!((out, gains), ([2, 4, 6, 3, 1, 0, 5, 9], [1, 1, 0, 0, 0, 4, 1, 99]));
}

/// A mentor who is alone gets 12. 255 is the byte of a student without a mentor, and no mentor's number.
#[test]
fn mentors_who_are_alone() {
    let book = short_book_of(TWO_BY_TWO_AND_ONE);
    let (mut out, mut gains) = ([9; 3], [99; 3]);
    let reply = Asked::new(&book).repair_mentor(&[0, 1, 255], 1, &mut out, &mut gains);
    assert_eq!((reply, out, gains), (repaired('D', 2), [1, 0, 255], [-1, -1, 0]));
    let numbers = [2, 3, 255].map(|mentor| unwritten(&book, &[0, 1, 255], &[1; 3], mentor, [3, 3]));
    assert_eq!(numbers, [refused(12, 0), refused(11, 0), refused(11, 0)]);
    assert_eq!(unwritten(&short_book_of("- -"), &[255], &[1], 0, [1, 1]), refused(12, 0));
    assert_eq!(unwritten(&book_of(1, "0 0"), &[0], &[1], 0, [1, 1]), repaired('F', 0));
}

/// The book, 8, 9, 19, 10, then 17, then 11 and 12, then 14.
#[test]
fn order_of_the_rules() {
    let book = short_book_of(TWO_BY_TWO_AND_ONE);
    let numbers = |matching: &[u8], weights: &[u8]| {
        [0, 2, 3, 255].map(|mentor| unwritten(&book, matching, weights, mentor, [2, 3]))
    };
    assert_eq!(unwritten(&book[..2], &[], &[], 255, [0, 0]), refused(1, 2));
    assert_eq!(numbers(&[0, 1], &[]), [refused(8, 0); 4]);
    assert_eq!(numbers(&[0, 0, 2], &[]), [refused(9, 1); 4]);
    assert_eq!(numbers(&[0, 1, 2], &[]), [refused(19, 0); 4]);
    assert_eq!(numbers(&[0, 255, 1], &[]), [Err(Refusal { number: 10, place: 1, second: 1 }); 4]);
    assert_eq!(numbers(&[0, 1, 255], &[1; 2]), [refused(17, 0); 4]);
    assert_eq!(numbers(&[0, 1, 255], &[1; 3]), [refused(14, 0), refused(12, 0), refused(11, 0), refused(11, 0)]);
}
