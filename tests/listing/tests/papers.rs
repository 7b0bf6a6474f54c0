//! The listing against the papers: the cases of document 01 that are checked by hand, with W-204's first lines, and
//! Tables 1 to 3 of document 000. Every expected value stands in one of them.

mod books;

use books::{book_of, matching_5, sheet_of, table_1, MATCHING_5, TABLE_1_AND_MATCHING_5};
use listing::asked::{book_size, write_book, Asked};
use listing::people::{Man, Woman};
use listing::repair::Answer;
use listing::reply::{granted, refused, Refusal, Reply};
use listing::weights::Weights;

/// The preference lists of Table 1: men, then women.
const TABLE_1: &str = "0652413 6145023 6031542 3201465 1203456 6103542 2506431 \
                       2164530 0435261 2504316 6123405 4605312 3126540 4621305";

/// "2 for n = 0, 12 for n = 1, 156 for n = 7, 8,706 for n = 64"; 65 is over 64.
#[test]
fn sizes_of_books() {
    assert_eq!([0, 1, 7, 64].map(book_size), [2, 12, 156, 8706].map(granted));
    assert_eq!(book_size(65), refused(3, 1));
}

/// Books written out by hand from the section "The book".
#[test]
fn books_as_bytes() {
    assert_eq!(book_of(0, ""), [1, 0]);
    assert_eq!(book_of(1, "0 0"), [1, 1, 10, 0, 1, 0, 11, 0, 1, 0, 0, 0]);
    let directory = [18, 0, 2, 0, 20, 0, 2, 0, 22, 0, 2, 0, 24, 0, 2, 0];
    assert_eq!(book_of(2, "01 10 10 01"), [&[1, 2][..], &directory, &[0, 1, 1, 0, 1, 0, 0, 1]].concat());
    assert_eq!(book_of(7, TABLE_1), table_1());
    assert_eq!(TABLE_1_AND_MATCHING_5[156..], MATCHING_5);
}

/// "A 156-byte book is read for n = 7; 155 gives 1, 157 gives 4"; "n = 64 is read; byte 1 = 65 is refused 3".
#[test]
fn books_that_are_too_short_too_long_or_too_large() {
    assert_eq!(Asked::new(table_1()).check_book(), granted(7));
    assert_eq!(Asked::new(&table_1()[..155]).check_book(), refused(1, 155));
    assert_eq!(Asked::new(&TABLE_1_AND_MATCHING_5[..157]).check_book(), refused(4, 156));
    let lists: Vec<u8> = (0..128).flat_map(|_| 0..64).collect();
    let mut book = vec![0; 8706];
    assert_eq!(write_book(64, &lists, &mut book), granted(8706));
    assert_eq!(Asked::new(&book).check_book(), granted(64));
    book[1] = 65;
    assert_eq!(Asked::new(&book).check_book(), refused(3, 1));
}

/// The cases n = 0 and n = 1, in which no pair can be repaired.
#[test]
fn nobody_and_one_pair() {
    assert_eq!(sheet_of(&book_of(0, ""), &[]), "0 0 0 -\n");
    assert_eq!(Asked::new(&book_of(0, "")).grade(&[]), Ok(None));
    assert_eq!(sheet_of(&book_of(1, "0 0"), &[0]), "1 0 1 -\n0 0 F 0\n");
    assert_eq!(Asked::new(&book_of(1, "0 0")).grade(&[0]), Ok(None));
}

/// "Two by two: students 0 1 and 1 0, mentors 1 0 and 0 1."
#[test]
fn two_by_two() {
    let book = book_of(2, "01 10 10 01");
    assert_eq!(sheet_of(&book, &[0, 1]), "2 1 0 1\n0 0 D 2\n1 1 D 2\n");
    assert_eq!(sheet_of(&book, &[1, 0]), "2 1 0 1\n0 1 U 2\n1 0 U 2\n");
}

/// "students 0 1 and 0 1, mentors 0 1 and 0 1, matching 1 0: refused 10, student 0, mentor 0".
#[test]
fn a_blocking_pair() {
    let book = book_of(2, "01 01 01 01");
    let due: Reply = Err(Refusal { number: 10, place: 0, second: 0 });
    assert_eq!(Asked::new(&book).check_matching(&[1, 0]), due);
    assert_eq!(sheet_of(&book, &[1, 0]), "refused 10\n");
}

/// "student-best: 5 4 6 3 1 0 2", "mentor-best: 1 3 0 5 4 2 6", "eleven stable matchings".
#[test]
fn table_1_stable_matchings_and_extremes() {
    let asked = Asked::new(table_1());
    assert_eq!(asked.listing().stable().len(), 11);
    let mut out = [0; 7];
    assert_eq!(asked.student_best(&mut out), granted(7));
    assert_eq!(out, [5, 4, 6, 3, 1, 0, 2]);
    assert_eq!(asked.mentor_best(&mut out), granted(7));
    assert_eq!(out, [1, 3, 0, 5, 4, 2, 6]);
}

/// "rotation 1 is (1,4) (6,5) (5,0)", "set 0, 1, 2 gives 4 5 6 3 1 2 0", "set 2 alone is refused 16".
#[test]
fn table_1_rotations_and_sets() {
    let asked = Asked::new(table_1());
    let rotations = &asked.runs().rotations;
    assert_eq!(rotations.len(), 6);
    assert_eq!(asked.rotation_count(), granted(6));
    assert_eq!(rotations[1].bytes(), [3, 1, 4, 6, 5, 5, 0]);
    let (mut out, mut set) = ([9; 7], [9; 6]);
    assert_eq!(asked.set_to_matching(&[1, 1, 1, 0, 0, 0], &mut out), granted(7));
    assert_eq!(out, MATCHING_5);
    assert_eq!(asked.matching_to_set(&MATCHING_5, &mut set), granted(6));
    assert_eq!(set, [1, 1, 1, 0, 0, 0]);
    assert_eq!(asked.set_to_matching(&[0, 0, 1, 0, 0, 0], &mut out), refused(16, 0));
}

/// Theorem 1 of document 000: the closed subsets answer to the stable matchings one to one.
#[test]
fn table_1_has_as_many_closed_sets_as_stable_matchings() {
    let asked = Asked::new(table_1());
    let sets = (0..64u8).map(|bits| [0, 1, 2, 3, 4, 5].map(|k| bits >> k & 1));
    assert_eq!(sets.filter(|set| asked.runs().is_closed(set)).count(), 11);
}

/// A row of Table 2: the pair, the rotations that produce and eliminate it, and the closed subsets of its repairs.
type Row2 = ((u8, u8), Option<usize>, Option<usize>, Option<&'static str>, Option<&'static str>);

const TABLE_2: [Row2; 7] = [
    ((0, 4), Some(2), Some(3), Some("01"), Some("0123")),
    ((1, 5), Some(1), Some(5), Some("0"), Some("01245")),
    ((2, 6), None, Some(4), None, Some("0124")),
    ((3, 3), None, Some(5), None, Some("01245")),
    ((4, 1), None, Some(3), None, Some("0123")),
    ((5, 2), Some(2), None, Some("01"), None),
    ((6, 0), Some(1), Some(4), Some("0"), Some("0124")),
];

/// The rotations that produce and eliminate each pair of M5.
#[test]
fn table_2_rotations_of_each_pair() {
    let asked = Asked::new(table_1());
    let rotations = &asked.runs().rotations;
    for ((man, woman), produces, eliminates, _, _) in TABLE_2 {
        let pair = (Man(man), Woman(woman));
        assert_eq!(rotations.iter().position(|r| r.0.contains(&pair)), eliminates, "{pair:?}");
        let gives = |k: usize| {
            let pairs = &rotations[k].0;
            (0..pairs.len()).any(|p| (pairs[p].0, pairs[(p + 1) % pairs.len()].1) == pair)
        };
        assert_eq!((0..6).find(|&k| gives(k)), produces, "{pair:?}");
    }
}

/// Table 3 without its names of matchings: the distances of repair up and down, and b.
const TABLE_3: [(Option<usize>, Option<usize>, usize); 7] = [
    (Some(2), Some(2), 1),
    (Some(4), Some(4), 3),
    (None, Some(2), 1),
    (None, Some(4), 3),
    (None, Some(2), 1),
    (Some(2), None, 1),
    (Some(4), Some(2), 1),
];

/// The repairs of each pair of M5 are those of Table 2's sets and have Table 3's distances.
#[test]
fn tables_2_and_3_repairs_of_each_pair() {
    let asked = Asked::new(table_1());
    let (listing, given) = (asked.listing(), matching_5());
    let ones = Weights::read(7, &[1; 7]).expect("seven weights");
    let of_set = |set: &str| {
        let marks = [0, 1, 2, 3, 4, 5].map(|k: u8| set.contains((b'0' + k) as char) as u8);
        asked.runs().matching_of(&marks)
    };
    for ((pair, _, _, up, down), (up_distance, down_distance, b)) in TABLE_2.into_iter().zip(TABLE_3) {
        let man = Man(pair.0);
        assert_eq!(listing.repair_up(&given, man), up.map(of_set), "{man:?}");
        assert_eq!(listing.repair_down(&given, man), down.map(of_set), "{man:?}");
        assert_eq!(listing.repair_up(&given, man).map(|x| x.distance(&given)), up_distance, "{man:?}");
        assert_eq!(listing.repair_down(&given, man).map(|x| x.distance(&given)), down_distance, "{man:?}");
        assert_eq!(listing.answer(&given, man, ones).total(), b + 1, "{man:?}");
        assert_eq!(listing.least_total(&given, man, ones), Some(b + 1), "{man:?}");
        assert_ne!(listing.answer(&given, man, ones), Answer::Fixed);
    }
}

/// The sheet that stands in the section "The sheet", which "now begins `7 6 0 3`", and the grade of "a
/// (1,3)-supermatch".
#[test]
fn table_1_sheet() {
    let due = "7 6 0 3\n0 4 U 2\n1 5 U 4\n2 6 D 2\n3 3 D 4\n4 1 D 2\n5 2 U 2\n6 0 D 2\n";
    assert_eq!(sheet_of(table_1(), &MATCHING_5), due);
    assert_eq!(Asked::new(table_1()).grade(&MATCHING_5), Ok(Some(3)));
}

/// The repair up of man 0 is the set 0, 1 (Table 2), without rotation 2, which gave 4 to man 0 and 2 to man 5; by their
/// lists in Table 1 each gains a place when they exchange.
#[test]
fn table_1_places_gained() {
    let (mut out, mut gains) = ([0; 7], [9; 7]);
    let reply = Asked::new(table_1()).repair(&MATCHING_5, &[0, 4], &mut out, &mut gains).expect("a pair of M5");
    assert_eq!((reply.letter, reply.value), (Some('U'), 2));
    assert_eq!(out, [2, 5, 6, 3, 1, 4, 0]);
    assert_eq!(gains, [1, 0, 0, 0, 0, 1, 0]);
}
