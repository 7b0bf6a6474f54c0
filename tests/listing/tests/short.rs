//! Short lists (document 02, W-203): books written out, and answers that are worked out by hand. Where no pair can be
//! repaired there is no grade (W-204).

mod books;

use books::{book_of, sheet_of, short_book_of};
use listing::asked::{weighted_sheet, Asked};
use listing::people::{Man, Woman};
use listing::reply::{granted, refused, Granted, Refusal, Reply};

/// Mentor 0 has her first student, 1, who ranks her first, and so it is with mentor 1 and student 2. Student 0 lists
/// these two mentors only, mentor 2 lists student 1 only: both are alone, and 255 0 1 is the only stable matching.
const ONE_ALONE_ON_EACH_SIDE: &str = "01 012 10 120 210 1";

/// Two by two of document 01 with a third student and a third mentor, whom the others list last: they stay alone.
const TWO_BY_TWO_AND_ONE: &str = "012 102 01 102 012 01";

/// The same, but that student 0 ranks mentor 2 before mentor 1.
const SEARCH_ENDED: &str = "021 102 01 102 012 01";

/// The reply by rule 10.
fn blocked(student: usize, mentor: usize) -> Reply {
    Err(Refusal { number: 10, place: student, second: mentor })
}

/// Edition 2 as bytes: each list has its own length, 0 too, and n = 0 has 2 bytes.
#[test]
fn books_as_bytes() {
    let directory = [18, 0, 1, 0, 19, 0, 0, 0, 19, 0, 0, 0, 19, 0, 1, 0];
    let book = short_book_of("1 - - 0");
    assert_eq!(book, [&[2, 2], &directory[..], &[1, 0]].concat());
    let asked = Asked::new(&book);
    assert_eq!(asked.check_book(), granted(2));
    let stretch = |place, value| Ok(Granted { place, value, ..Granted::default() });
    assert_eq!([asked.student_list(0), asked.student_list(1)], [stretch(18, 1), stretch(19, 0)]);
    assert_eq!([asked.mentor_list(0), asked.mentor_list(1)], [stretch(19, 0), stretch(19, 1)]);
    assert_eq!(Asked::new(&[2, 0]).check_book(), granted(0));
    assert_eq!(Asked::new(&[0, 0]).check_book(), refused(2, 0));
    assert_eq!(Asked::new(&[3, 0]).check_book(), refused(2, 0));
}

/// "For edition 2 the size is the end of the last list; 1 is given first if the directory does not fit, then 5, then 1
/// and 4 for the lists."
#[test]
fn sizes_and_directories() {
    let book = short_book_of(ONE_ALONE_ON_EACH_SIDE);
    let check = |bytes: &[u8]| Asked::new(bytes).check_book();
    assert_eq!((book.len(), check(&book)), (40, granted(3)));
    assert_eq!(check(&book[..39]), refused(1, 39));
    assert_eq!(check(&book[..26]), refused(1, 26));
    assert_eq!(check(&book[..25]), refused(1, 25));
    assert_eq!(check(&[&book[..], &[0]].concat()), refused(4, 40));
    for (at, byte, place) in [(2, 25, 2), (8, 4, 6), (10, 32, 10), (9, 1, 6), (22, 40, 22), (24, 4, 22)] {
        let mut damaged = book.clone();
        damaged[at] = byte;
        assert_eq!(check(&damaged), refused(5, place), "byte {at}");
        assert_eq!(check(&damaged[..30]), refused(5, place), "byte {at}");
        assert_eq!(check(&damaged[..25]), refused(1, 25), "byte {at}");
    }
    let mut last = book.clone();
    last[24] = 0;
    assert_eq!(check(&last), refused(4, 39));
    last[24] = 3;
    assert_eq!(check(&last), refused(1, 40));
}

/// "18 one-sided, an entry not returned by the other, after all 6 and 7".
#[test]
fn rule_18() {
    let check = |lists: &str| Asked::new(&short_book_of(lists)).check_book();
    assert_eq!(check("0 -"), refused(18, 0));
    assert_eq!(check("- 0"), refused(18, 0));
    assert_eq!([check("0 0"), check("- -")], [granted(1), granted(1)]);
    assert_eq!(check("0 1 1 0"), refused(18, 0));
    assert_eq!(check("01 1 0 10"), granted(2));
    assert_eq!(check("01 1 0 1"), refused(18, 0));
    assert_eq!(check("01 1 0 11"), refused(7, 23));
    assert_eq!(check("01 1 0 12"), refused(6, 23));
}

/// The only stable matching; "A student without a mentor has byte 255 in the matching."
#[test]
fn one_alone_on_each_side() {
    let book = short_book_of(ONE_ALONE_ON_EACH_SIDE);
    let asked = Asked::new(&book);
    let all: Vec<Vec<u8>> = asked.listing().stable().iter().map(|x| x.bytes()).collect();
    assert_eq!(all, [[255, 0, 1]]);
    assert!(asked.listing().same_are_placed());
    assert_eq!(sheet_of(&book, &[255, 0, 1]), "3 0 2 -\n0 - N 0\n1 0 F 0\n2 1 F 0\n");
}

/// "A pair blocks if each lists the other and each is alone or prefers the other": student, mentor, both or neither of
/// the blocking pair are alone.
#[test]
fn blocking_pairs() {
    let book = short_book_of(ONE_ALONE_ON_EACH_SIDE);
    let asked = Asked::new(&book);
    assert_eq!(asked.check_matching(&[0, 255, 1]), blocked(1, 0));
    assert_eq!(asked.check_matching(&[1, 2, 255]), blocked(0, 0));
    assert_eq!(asked.check_matching(&[255, 255, 255]), blocked(0, 0));
    assert_eq!(asked.check_matching(&[255, 1, 0]), blocked(1, 0));
    assert_eq!(asked.check_matching(&[255, 2, 1]), blocked(0, 0));
    assert_eq!(asked.check_matching(&[255, 0, 255]), blocked(0, 1));
    assert_eq!(asked.check_matching(&[255, 0, 1]), granted(0));
}

/// 8, 9, 19, 10: "19 unlisted, a given pair does not list each other, after 9". 255 clashes in edition 1 alone.
#[test]
fn rules_on_matchings() {
    let book = short_book_of(ONE_ALONE_ON_EACH_SIDE);
    let asked = Asked::new(&book);
    assert_eq!(asked.check_matching(&[255, 255]), refused(8, 0));
    assert_eq!(asked.check_matching(&[2, 255, 255]), refused(19, 0));
    assert_eq!(asked.check_matching(&[2, 0, 0]), refused(9, 2));
    assert_eq!(asked.check_matching(&[2, 3, 0]), refused(9, 1));
    assert_eq!(asked.check_matching(&[0, 1, 2]), refused(19, 0));
    let full = book_of(2, "01 01 01 01");
    assert_eq!(Asked::new(&full).check_matching(&[0, 255]), refused(9, 1));
    assert_eq!(Asked::new(&full).check_matching(&[255, 255]), refused(9, 0));
}

/// One rotation, in which those who are alone are not. The third student gains nothing and is no pair.
#[test]
fn a_rotation_beside_those_who_are_alone() {
    let book = short_book_of(TWO_BY_TWO_AND_ONE);
    let asked = Asked::new(&book);
    assert_eq!(sheet_of(&book, &[0, 1, 255]), "3 1 0 1\n0 0 D 2\n1 1 D 2\n2 - N 0\n");
    assert_eq!(sheet_of(&book, &[1, 0, 255]), "3 1 0 1\n0 1 U 2\n1 0 U 2\n2 - N 0\n");
    let mut out = [9; 5];
    assert_eq!(asked.rotations(&mut out), granted(1));
    assert_eq!(out, [2, 0, 0, 1, 1]);
    let mut gains = [99; 3];
    let reply = asked.repair(&[0, 1, 255], &[1, 1], &mut out, &mut gains);
    assert_eq!(reply, Ok(Granted { letter: Some('D'), value: 2, ..Granted::default() }));
    assert_eq!((&out[..3], gains), (&[1, 0, 255][..], [-1, -1, 0]));
}

/// "A mentor who is alone ends the search for a next mentor: there is none."
#[test]
fn a_search_that_ends() {
    let (long, short) = (short_book_of(TWO_BY_TWO_AND_ONE), short_book_of(SEARCH_ENDED));
    for (book, next) in [(&long, Some(Woman(1))), (&short, None)] {
        let asked = Asked::new(book);
        let best = asked.listing().student_best();
        assert_eq!(best.bytes(), [0, 1, 255]);
        assert_eq!(asked.listing().lists.next_woman(best, Man(0)), next);
        assert_eq!(asked.listing().lists.next_woman(best, Man(2)), None);
        assert_eq!(asked.rotation_count(), granted(next.is_some() as usize));
    }
    assert_eq!(Asked::new(&short).check_matching(&[1, 0, 255]), blocked(0, 2));
}

/// A request for a student without a mentor gets 12; mentor byte 255 gets 11.
#[test]
fn requests() {
    let book = short_book_of(TWO_BY_TWO_AND_ONE);
    let asked = Asked::new(&book);
    let repair = |request: &[u8]| asked.repair(&[0, 1, 255], request, &mut [0; 3], &mut [0; 3]);
    assert_eq!([repair(&[2, 0]), repair(&[2, 2])], [refused(12, 0), refused(12, 0)]);
    assert_eq!([repair(&[2, 255]), repair(&[0, 255])], [refused(11, 0), refused(11, 0)]);
}

/// W-204: a student without a mentor has a line with N and is no fixed pair. Both students list mentor 0 alone, who
/// prefers student 0, and mentor 1 lists nobody; where all lists are empty there is no pair at all.
#[test]
fn no_pair_can_be_repaired() {
    for (lists, matching, due) in
        [("0 0 01 -", [0, 255], "2 0 1 -\n0 0 F 0\n1 - N 0\n"), ("- - - -", [255, 255], "2 0 0 -\n0 - N 0\n1 - N 0\n")]
    {
        let book = short_book_of(lists);
        assert_eq!(sheet_of(&book, &matching), due);
        assert_eq!(Asked::new(&book).grade(&matching), Ok(None));
        assert_eq!(Asked::new(&book).weighted_grade(&matching, &[0, 7]), Ok(None));
    }
}

/// Two by two of document 01 beside two who list each other alone, a fixed pair, and two who list nobody: the first two
/// pairs can be repaired.
#[test]
fn a_fixed_pair_beside_a_grade() {
    let book = short_book_of("01 10 2 - 10 01 2 -");
    let lines = "0 0 D 2\n1 1 D 2\n2 2 F 0\n3 - N 0\n";
    assert_eq!(sheet_of(&book, &[0, 1, 2, 255]), format!("4 1 1 1\n{lines}"));
    assert_eq!(Asked::new(&book).grade(&[0, 1, 2, 255]), Ok(Some(1)));
}

/// The weights follow the matching; that of a student without a mentor counts nowhere.
#[test]
fn weights() {
    let book = short_book_of(TWO_BY_TWO_AND_ONE);
    let sheet = |weights: &[u8]| {
        let mut out = [0; 64];
        let input = [&book[..], &[0, 1, 255], weights].concat();
        let length = weighted_sheet(&input, &mut out).expect("a long buffer").value;
        String::from_utf8(out[..length].to_vec()).expect("text")
    };
    assert_eq!(sheet(&[3, 4, 250]), "3 1 0 4\n0 0 D 7\n1 1 D 7\n2 - N 0\n");
    assert_eq!(sheet(&[3, 4]), "refused 17\n");
}

/// The matching begins where the last list ends, and not within the directory, whatever that says.
#[test]
fn inputs_of_sheets() {
    let input = [&short_book_of(ONE_ALONE_ON_EACH_SIDE)[..], &[255, 0, 1]].concat();
    for length in 0..=input.len() {
        let due = match length {
            0..40 => "refused 1\n",
            40..43 => "refused 8\n",
            _ => "3 0 2 -\n0 - N 0\n1 0 F 0\n2 1 F 0\n",
        };
        assert_eq!(sheet_of(&input[..length], &[]), due, "{length} bytes");
    }
    let mut damaged = input;
    damaged[22] = 0;
    assert_eq!(sheet_of(&damaged, &[]), "refused 5\n");
    assert_eq!(sheet_of(&[2, 0], &[]), "0 0 0 -\n");
    assert_eq!(sheet_of(&[2, 1], &[]), "refused 1\n");
    assert_eq!(sheet_of(&short_book_of("- -"), &[255]), "1 0 0 -\n0 - N 0\n");
}
