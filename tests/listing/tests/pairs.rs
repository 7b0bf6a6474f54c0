//! Two pairs at one go (document 02, W-207) against the papers and against books worked out by hand.

mod books;

use books::{book_of, matching_5, short_book_of, table_1, MATCHING_5};
use listing::asked::Asked;
use listing::matching::Matching;
use listing::pairs::{PairsAnswer, Sort, SORTS};
use listing::people::Man;
use listing::reply::{refused, Granted, Reply};
use listing::weights::Weights;

/// Two groups, and somebody alone on each side: students 0 and 1 can exchange mentors 0 and 1, students 2 and 3 mentors
/// 2 and 3. Student 4 stands last on the list of mentor 0, and mentor 4 on that of student 2.
const TWO_GROUPS: &str = "01 10 234 32 0 104 01 32 23 2";

/// The answer for two students' pairs, the first below the second, of M5: the set 0, 1, 2. By Table 2 and document 01
/// the pairs of 0 and 5 were produced by rotation 2, those of 1 and 6 by 1, which precedes 2 and 4; 3 eliminates the
/// pairs of 0 and 4, 4 those of 2 and 6, and 5 those of 1 and 3; 2 precedes 3, and 4 precedes 5. Without 2, students 0
/// and 5 are moved, without 1 and 2 students 0, 1, 5 and 6; with 3 students 0 and 4, with 4 students 2 and 6, with 4
/// and 5 students 1, 2, 3 and 6. 3 cannot be added without 2, nor 4 or 5 without 1.
const TABLE_1_PAIRS: [(usize, usize, &str, usize); 21] = [
    (0, 1, "UU", 4),
    (0, 2, "UD", 4),
    (0, 3, "UD", 6),
    (0, 4, "DD", 2),
    (0, 5, "UU", 2),
    (0, 6, "UU", 4),
    (1, 2, "DD", 4),
    (1, 3, "DD", 4),
    (1, 4, "DD", 6),
    (1, 5, "UU", 4),
    (1, 6, "UU", 4),
    (2, 3, "DD", 4),
    (2, 4, "DD", 4),
    (2, 5, "DU", 4),
    (2, 6, "DD", 2),
    (3, 4, "DD", 6),
    (3, 5, "DU", 6),
    (3, 6, "DD", 4),
    (4, 5, "F", 0),
    (4, 6, "DD", 4),
    (5, 6, "UU", 4),
];

/// The reply to a request, by its letters.
fn answered(letters: &str, value: usize) -> Reply {
    let mut letters = letters.chars();
    Ok(Granted { letter: letters.next(), second_letter: letters.next(), value, place: 0 })
}

/// Reply, matching and gains for the pairs of students of a matching with weights; 9 and 99 where nothing is written.
fn asked_for(book: &[u8], matching: &[u8], weights: &[u8], students: &[usize]) -> (Reply, Vec<u8>, Vec<i8>) {
    let (mut out, mut gains) = (vec![9; matching.len()], vec![99; matching.len()]);
    let request: Vec<u8> = students.iter().flat_map(|&student| [student as u8, matching[student]]).collect();
    let reply = Asked::new(book).weighted_repair(matching, weights, &request, &mut out, &mut gains);
    (reply, out, gains)
}

/// The reply alone for two students' pairs where every weight is 1.
fn plain(book: &[u8], matching: &[u8], first: usize, second: usize) -> Reply {
    asked_for(book, matching, &vec![1; matching.len()], &[first, second]).0
}

/// All 49 ordered pairs of pairs of M5. The students in the other order have the letters in the other order, also where
/// candidates are equally near: no pairs here have both UD and DU.
#[test]
fn pairs_of_matching_5() {
    for (first, second, letters, distance) in TABLE_1_PAIRS {
        let turned: String = letters.chars().rev().collect();
        assert_eq!(plain(table_1(), &MATCHING_5, first, second), answered(letters, distance), "{first} {second}");
        assert_eq!(plain(table_1(), &MATCHING_5, second, first), answered(&turned, distance), "{second} {first}");
    }
    for student in 0..7 {
        let twice = asked_for(table_1(), &MATCHING_5, &[1; 7], &[student, student]);
        assert_eq!(twice, asked_for(table_1(), &MATCHING_5, &[1; 7], &[student]));
        assert_ne!(twice.0, answered("F", 0));
    }
}

/// The answer for each two pairs of M5 against the eleven stable matchings: F where none lacks both pairs; else none
/// that does moves fewer. Each sort has a candidate where one of these is of the sort; whomever the candidate moves
/// each of the sort moves, and so it moves no more and weighs no more.
#[test]
fn pairs_of_matching_5_against_all_stable_matchings() {
    let asked = Asked::new(table_1());
    let (listing, given) = (asked.listing(), matching_5());
    assert_eq!(listing.stable().len(), 11);
    let [ones, weights] = [&[1; 7], &[10, 20, 200, 40, 5, 30, 50]].map(|table| Weights::read(7, table).expect("seven"));
    for [first, second] in Man::all(7).flat_map(|first| Man::all(7).map(move |second| [first, second])) {
        let lacks = |x: &Matching, man| x.woman_of(man) != given.woman_of(man);
        let lacking: Vec<&Matching> = listing.stable().iter().filter(|x| lacks(x, first) && lacks(x, second)).collect();
        let answer = listing.answer_for_two(&given, [first, second], ones);
        assert_eq!(answer == PairsAnswer::Fixed, lacking.is_empty());
        assert_eq!(answer.total(), lacking.iter().map(|x| x.distance(&given)).min().unwrap_or(0));
        let total = listing.answer_for_two(&given, [first, second], weights).total();
        assert_eq!(total, lacking.iter().map(|x| weights.of_moved(x, &given)).min().unwrap_or(0));
        let mut of_a_sort = 0;
        for sort in SORTS {
            let those = listing.of_sort(sort, &given, [first, second]);
            of_a_sort += those.len();
            let Some(candidate) = listing.candidate(sort, &given, [first, second]) else {
                assert!(those.is_empty());
                continue;
            };
            for x in those {
                let moved: Vec<Man> = x.moved(&given).collect();
                assert!(lacking.contains(&x) && listing.each_between(&given, candidate, x));
                assert!(candidate.moved(&given).all(|man| moved.contains(&man)));
                assert!(candidate.distance(&given) <= x.distance(&given));
                assert!(weights.of_moved(candidate, &given) <= weights.of_moved(x, &given));
            }
        }
        assert_eq!(of_a_sort, lacking.len());
    }
}

/// Student 0 without rotation 2 has mentor 2 again and student 5 mentor 4 (Table 3); with rotation 4 students 2 and 6
/// exchange mentors 6 and 0. They gain 1, 1, -1 and -1 places.
#[test]
fn a_candidate_of_matching_5() {
    let due = (answered("UD", 4), vec![2, 5, 0, 3, 1, 4, 6], vec![1, 0, -1, 0, 0, 1, -1]);
    assert_eq!(asked_for(table_1(), &MATCHING_5, &[1; 7], &[0, 2]), due);
    let due = (answered("F", 0), vec![9; 7], vec![99; 7]);
    assert_eq!(asked_for(table_1(), &MATCHING_5, &[1; 7], &[4, 5]), due);
}

/// The pairs of 0 and 6: UU moves students 0, 1, 5 and 6, UD 0, 2, 5 and 6, DD 0, 2, 4 and 6. Ties go to UU, then UD
/// or, in the other order, DU, then DD.
#[test]
fn weights_choose_the_sort() {
    let sorts =
        |weights: [u8; 7]| [[0, 6], [6, 0]].map(|students| asked_for(table_1(), &MATCHING_5, &weights, &students).0);
    assert_eq!(sorts([0; 7]), [answered("UU", 0), answered("UU", 0)]);
    assert_eq!(sorts([1, 2, 2, 9, 9, 9, 1]), [answered("UU", 13), answered("UU", 13)]);
    assert_eq!(sorts([1, 3, 2, 9, 9, 9, 1]), [answered("UD", 13), answered("DU", 13)]);
    assert_eq!(sorts([1, 3, 2, 9, 8, 9, 1]), [answered("DD", 12), answered("DD", 12)]);
    assert_eq!(sorts([255; 7]), [answered("UU", 1020), answered("UU", 1020)]);
}

/// Of two groups, one can go up and one down, and so there is nothing but UD, or DU in the other order. Two of one
/// group are moved together. A student who is alone is in no pair.
#[test]
fn two_groups() {
    let book = short_book_of(TWO_GROUPS);
    let matching = [1, 0, 2, 3, 255];
    let due = (vec![0, 1, 3, 2, 255], vec![1, 1, -1, -1, 0]);
    for (students, letters) in [([0, 2], "UD"), ([1, 3], "UD"), ([2, 1], "DU"), ([3, 0], "DU")] {
        let (reply, out, gains) = asked_for(&book, &matching, &[1; 5], &students);
        assert_eq!((reply, (out, gains)), (answered(letters, 4), due.clone()));
    }
    assert_eq!(plain(&book, &matching, 0, 1), answered("UU", 2));
    assert_eq!(plain(&book, &matching, 3, 2), answered("DD", 2));
    assert_eq!(plain(&book, &[0, 1, 2, 3, 255], 0, 2), answered("DD", 4));
    assert_eq!(plain(&book, &matching, 0, 4), refused(11, 0));
    let sorts: Vec<Sort> = {
        let asked = Asked::new(&book);
        let given = asked.stable_matching(&matching).expect("a stable matching");
        let has_one = |sort: &Sort| !asked.listing().of_sort(*sort, &given, [Man(0), Man(2)]).is_empty();
        SORTS.into_iter().filter(has_one).collect()
    };
    assert_eq!(sorts, [SORTS[1]]);
}

/// Each pair has a repair, but no stable matching lacks both. Of 0 1 2 student 0 ends better off in 1 0 2 alone, in
/// which student 2 keeps mentor 2, and student 2 worse off in 0 2 1 alone. Of 2 3 0 1 students 0 and 2 exchange mentors
/// in 0 3 2 1, students 1 and 3 in 2 1 0 3; both exchanges together are no stable matching.
#[test]
fn fixed_only_together() {
    let book = book_of(3, "102 012 201 021 210 120");
    assert_eq!(asked_for(&book, &[0, 1, 2], &[1; 3], &[0]).0, answered("U", 2));
    assert_eq!(asked_for(&book, &[0, 1, 2], &[1; 3], &[2]).0, answered("D", 2));
    assert_eq!([plain(&book, &[0, 1, 2], 0, 2), plain(&book, &[0, 1, 2], 2, 0)], [answered("F", 0), answered("F", 0)]);
    let book = book_of(4, "0213 3210 3201 1032 2130 0213 3021 3012");
    let repaired = |student| asked_for(&book, &[2, 3, 0, 1], &[1; 4], &[student]);
    assert_eq!(repaired(0), (answered("U", 2), vec![0, 3, 2, 1], vec![1, 0, 1, 0]));
    assert_eq!(repaired(1), (answered("D", 2), vec![2, 1, 0, 3], vec![0, -2, 0, -2]));
    assert_eq!(plain(&book, &[2, 3, 0, 1], 0, 1), answered("F", 0));
    assert_eq!(Asked::new(&book).check_matching(&[0, 1, 2, 3]).map_err(|refusal| refusal.number), Err(10));
}

/// "13 stays for other lengths; 11 and then 12 are tried on the first pair, then the second"; then 14. All have place 0
/// and write nothing.
#[test]
fn rules_of_two_pairs_and_their_order() {
    let book = book_of(2, "01 10 10 01");
    let asked = |request: &[u8], rooms: [usize; 2]| {
        let (mut out, mut gains) = (vec![9; rooms[0]], vec![99; rooms[1]]);
        let reply = Asked::new(&book).repair(&[0, 1], request, &mut out, &mut gains);
        assert!(reply.is_ok() || (out.iter().all(|&byte| byte == 9) && gains.iter().all(|&gain| gain == 99)));
        reply
    };
    for length in [0, 1, 3, 5, 6, 8] {
        assert_eq!(asked(&vec![7; length], [0, 0]), refused(13, 0), "{length} bytes");
    }
    for first in [[2, 0], [0, 2], [255, 255]] {
        assert_eq!(asked(&[first, [0, 1]].concat(), [0, 0]), refused(11, 0));
        assert_eq!(asked(&[[0, 0], first].concat(), [0, 0]), refused(11, 0));
        assert_eq!(asked(&[[0, 1], first].concat(), [0, 0]), refused(12, 0));
    }
    for request in [[0, 0, 0, 1], [0, 0, 1, 0], [1, 0, 1, 1]] {
        assert_eq!(asked(&request, [0, 0]), refused(12, 0));
    }
    for rooms in [[1, 2], [2, 1], [0, 0]] {
        assert_eq!(asked(&[0, 0, 1, 1], rooms), refused(14, 0));
        assert_eq!(asked(&[1, 1, 1, 1], rooms), refused(14, 0));
    }
    assert_eq!(asked(&[0, 0, 1, 1], [2, 2]), answered("DD", 2));
    assert_eq!(asked(&[1, 1, 1, 1], [2, 2]), answered("D", 2));
}
