//! The weighted answers (document 02, W-201) against the papers. The expected values are worked out by hand from
//! Tables 2 and 3 of document 000 and from the cases of document 01 that are checked by hand. "The grade is `-` when no
//! pair can be repaired, in weighted sheets too" (W-204).

mod books;

use books::{book_of, matching_5, sheet_of, table_1, MATCHING_5};
use listing::asked::{weighted_sheet, write_book, Asked};
use listing::people::Man;
use listing::reply::{granted, refused, Refusal};
use listing::weights::Weights;

/// Some men by number.
type Men = &'static [u8];

/// Whom repair up and repair down of each pair of M5 move. M5 is the set 0, 1, 2. By Table 2 rotation 2 produces (0,4)
/// and (5,2), rotation 3 eliminates (0,4) and (4,1), rotation 4 (2,6) and (6,0), rotation 5 (1,5) and (3,3). Rotation
/// 1 moves 1, 6 and 5 (document 01). By the distances in Table 3 nobody else is moved.
const MOVED: [(Option<Men>, Option<Men>); 7] = [
    (Some(&[0, 5]), Some(&[0, 4])),
    (Some(&[0, 1, 5, 6]), Some(&[1, 2, 3, 6])),
    (None, Some(&[2, 6])),
    (None, Some(&[1, 2, 3, 6])),
    (None, Some(&[0, 4])),
    (Some(&[0, 5]), None),
    (Some(&[0, 1, 5, 6]), Some(&[2, 6])),
];

/// Weights by which the pair of 0, plain U, is D: 10 + 5 is less than 10 + 30; and the pair of 6, plain D, is U:
/// 10 + 20 + 30 + 50 is less than 200 + 50.
const TURNED: [u8; 7] = [10, 20, 200, 40, 5, 30, 50];

/// The weighted sheet of a book, a matching and weights.
fn weighted_sheet_of(book: &[u8], matching: &[u8], weights: &[u8]) -> String {
    let mut out = vec![0; 1024];
    let input = [book, matching, weights].concat();
    let written = weighted_sheet(&input, &mut out).expect("1,024 bytes are always enough");
    out.truncate(written.value);
    String::from_utf8(out).expect("digits, letters and spaces")
}

/// The weighted repair of a pair of M5: letter, total, matching and places gained.
fn repair_of(weights: &[u8; 7], request: [u8; 2]) -> (char, usize, [u8; 7], [i8; 7]) {
    let (mut out, mut gains) = ([9; 7], [99; 7]);
    let reply = Asked::new(table_1()).weighted_repair(&MATCHING_5, weights, &request, &mut out, &mut gains);
    let granted = reply.expect("a pair of M5");
    (granted.letter.expect("a letter"), granted.value, out, gains)
}

/// The repairs of each pair of M5 move those of the table above.
#[test]
fn whom_the_repairs_of_m5_move() {
    let asked = Asked::new(table_1());
    let (listing, given) = (asked.listing(), matching_5());
    for (man, (up, down)) in Man::all(7).zip(MOVED) {
        let moved = |x: &listing::matching::Matching| x.moved(&given).map(|man| man.0).collect::<Vec<_>>();
        assert_eq!(listing.repair_up(&given, man).map(moved), up.map(<[u8]>::to_vec), "{man:?}");
        assert_eq!(listing.repair_down(&given, man).map(moved), down.map(<[u8]>::to_vec), "{man:?}");
    }
}

/// One U becomes D and one D becomes U. The totals less the asking man's weight are 5, 90, 50, 270, 10, 10 and 60.
#[test]
fn weights_turn_up_into_down_and_down_into_up() {
    let due = "7 6 0 270\n0 4 D 15\n1 5 U 110\n2 6 D 250\n3 3 D 310\n4 1 D 15\n5 2 U 40\n6 0 U 110\n";
    assert_eq!(weighted_sheet_of(table_1(), &MATCHING_5, &TURNED), due);
    assert_eq!(Asked::new(table_1()).weighted_grade(&MATCHING_5, &TURNED), Ok(Some(270)));
}

/// The two repairs that have turned. 0 and 4 exchange their women 4 and 1: from place 4 to 5 for 0, from 0 to 4 for 4.
/// Without rotation 2 man 0 has 2 again, and without rotation 1 the men 1, 6 and 5 have 4, 5 and 0: from place 4 to 3
/// for 0, from 3 to 2 for 1, from 6 to 2 for 5, from 2 to 1 for 6.
#[test]
fn repairs_that_weights_have_turned() {
    assert_eq!(repair_of(&TURNED, [0, 4]), ('D', 15, [1, 5, 6, 3, 4, 2, 0], [-1, 0, 0, 0, -4, 0, 0]));
    assert_eq!(repair_of(&TURNED, [6, 0]), ('U', 110, [2, 4, 6, 3, 1, 0, 5], [1, 1, 0, 0, 0, 4, 1]));
}

/// The pair of 6: up weighs as much as down where 2 weighs as much as 0, 1 and 5 together, and up is taken.
#[test]
fn up_is_taken_when_equal() {
    let letter_and_total = |second| {
        let (letter, total, ..) = repair_of(&[1, 2, second, 0, 1, 3, 9], [6, 0]);
        (letter, total)
    };
    assert_eq!([5, 6, 7].map(letter_and_total), [('D', 14), ('U', 15), ('U', 15)]);
}

/// The totals less the asking man's weight are 0, 200, 0, 0, 100, 100 and 0: the largest is neither that of the
/// largest total, 255 less 255, nor a total less 1.
#[test]
fn the_grade_leaves_out_the_asking_man() {
    let due = "7 6 0 200\n0 4 D 100\n1 5 U 200\n2 6 D 0\n3 3 D 255\n4 1 D 100\n5 2 U 200\n6 0 D 0\n";
    assert_eq!(weighted_sheet_of(table_1(), &MATCHING_5, &[100, 0, 0, 255, 0, 100, 0]), due);
}

/// All weigh 0: no pair is fixed, and up is taken where there is a repair up.
#[test]
fn weights_of_0() {
    let due = "7 6 0 0\n0 4 U 0\n1 5 U 0\n2 6 D 0\n3 3 D 0\n4 1 D 0\n5 2 U 0\n6 0 U 0\n";
    assert_eq!(weighted_sheet_of(table_1(), &MATCHING_5, &[0; 7]), due);
}

/// "With every weight 1 it equals the plain sheet", that of document 01 and those of all stable matchings of Table 1;
/// each total is the distance then.
#[test]
fn weights_of_1() {
    let due = "7 6 0 3\n0 4 U 2\n1 5 U 4\n2 6 D 2\n3 3 D 4\n4 1 D 2\n5 2 U 2\n6 0 D 2\n";
    assert_eq!(weighted_sheet_of(table_1(), &MATCHING_5, &[1; 7]), due);
    let asked = Asked::new(table_1());
    let ones = Weights::read(7, &[1; 7]).expect("seven weights");
    for given in asked.listing().stable() {
        let matching = given.bytes();
        assert_eq!(weighted_sheet_of(table_1(), &matching, &[1; 7]), sheet_of(table_1(), &matching));
        for stable in asked.listing().stable() {
            assert_eq!(ones.of_moved(stable, given), stable.distance(given));
        }
    }
}

/// No stable matching without the pair weighs less than the answer, for each stable matching of Table 1.
#[test]
fn no_stable_matching_without_the_pair_weighs_less() {
    let asked = Asked::new(table_1());
    let listing = asked.listing();
    for weights in [[0; 7], [1; 7], [255; 7], TURNED, [0, 1, 2, 3, 4, 5, 6]] {
        let weights = Weights::read(7, &weights).expect("seven weights");
        for given in listing.stable() {
            for man in Man::all(7).filter(|&man| !listing.is_fixed(given, man)) {
                let least = listing.least_total(given, man, weights);
                assert_eq!(Some(listing.answer(given, man, weights).total()), least);
            }
        }
    }
}

/// The small cases of document 01: a fixed pair weighs nothing, and two who are moved together weigh what they weigh.
#[test]
fn small_books() {
    assert_eq!(weighted_sheet_of(&book_of(0, ""), &[], &[]), "0 0 0 -\n");
    for weight in [0, 1, 255] {
        assert_eq!(weighted_sheet_of(&book_of(1, "0 0"), &[0], &[weight]), "1 0 1 -\n0 0 F 0\n");
        assert_eq!(Asked::new(&book_of(1, "0 0")).weighted_grade(&[0], &[weight]), Ok(None));
    }
    let book = book_of(2, "01 10 10 01");
    assert_eq!(weighted_sheet_of(&book, &[0, 1], &[255, 7]), "2 1 0 255\n0 0 D 262\n1 1 D 262\n");
    assert_eq!(weighted_sheet_of(&book, &[1, 0], &[0, 7]), "2 1 0 7\n0 1 U 7\n1 0 U 7\n");
}

/// The grade 0, though one repair has distance 1: of 0 1 2 and of 0 2 1 only 1 2 0 is without the pair (0,0). It moves
/// man 0, who weighs 1, and others, who weigh 0: less his own weight that is 0. The other pairs of each of the two are
/// repaired by the other, which moves men 1 and 2: total 0.
///
/// A search with this listing went through all books of edition 1 for n up to 3 by n and then by their bytes, with all
/// weights 0, 1 and 2; this is the first book that it found.
#[test]
fn the_grade_0_beside_a_repair_of_distance_1() {
    let book = book_of(3, "012 012 210 201 021 012");
    let asked = Asked::new(&book);
    let stable: Vec<Vec<u8>> = asked.listing().stable().iter().map(|x| x.bytes()).collect();
    assert_eq!(stable, [[0, 1, 2], [0, 2, 1], [1, 2, 0]]);
    let due = ["3 2 0 0\n0 0 D 1\n1 1 D 0\n2 2 D 0\n", "3 2 0 0\n0 0 D 1\n1 2 U 0\n2 1 U 0\n"];
    for (matching, due) in stable.iter().zip(due) {
        assert_eq!(weighted_sheet_of(&book, matching, &[1, 0, 0]), due);
        assert_eq!(asked.weighted_grade(matching, &[1, 0, 0]), Ok(Some(0)));
    }
}

/// "17 weights, not n bytes, after 10", and before 13 to 14; its place is 0.
#[test]
fn rule_17_and_its_order() {
    let book = book_of(2, "01 01 01 01");
    let asked = Asked::new(&book);
    let repair = |matching: &[u8], weights: &[u8], request: &[u8]| {
        let (mut out, mut gains) = ([0; 1], [0; 1]);
        asked.weighted_repair(matching, weights, request, &mut out, &mut gains)
    };
    let unstable = Refusal { number: 10, place: 0, second: 0 };
    assert_eq!(repair(&[1, 0], &[1], &[]), Err(unstable));
    assert_eq!(asked.weighted_grade(&[1, 0], &[1]), Err(unstable));
    for weights in [&[][..], &[1], &[1, 1, 1]] {
        assert_eq!(repair(&[0, 1], weights, &[]), refused(17, 0));
        assert_eq!(asked.weighted_grade(&[0, 1], weights), refused(17, 0));
    }
    assert_eq!(repair(&[0, 1], &[1, 1], &[]), refused(13, 0));
    assert_eq!(repair(&[0, 1], &[1, 1], &[2, 0]), refused(11, 0));
    assert_eq!(repair(&[0, 1], &[1, 1], &[0, 1]), refused(12, 0));
    assert_eq!(repair(&[0, 1], &[1, 1], &[0, 0]), refused(14, 0));
}

/// The first n bytes after the book are the matching, what follows are the weights: under n bytes give 8, and other
/// than n bytes after the matching 17.
#[test]
fn parts_of_the_input() {
    let whole = [table_1(), &MATCHING_5, &[1; 8]].concat();
    for length in 156..=171 {
        let due = match length {
            156..=162 => "refused 8\n",
            170 => "7 6 0 3\n0 4 U 2\n1 5 U 4\n2 6 D 2\n3 3 D 4\n4 1 D 2\n5 2 U 2\n6 0 D 2\n",
            _ => "refused 17\n",
        };
        assert_eq!(weighted_sheet_of(&whole[..length], &[], &[]), due, "{length} bytes");
    }
    assert_eq!(weighted_sheet_of(&book_of(0, ""), &[], &[0]), "refused 17\n");
    assert_eq!(weighted_sheet_of(&whole[..155], &[], &[]), "refused 1\n");
    assert_eq!(weighted_sheet_of(&book_of(2, "01 01 01 01"), &[1, 0], &[]), "refused 10\n");
}

/// "it reads at most 8,835 bytes": one more than book, matching and weights have for n = 64. All lists are alike, so
/// that the matching of each man to the woman of his number is stable.
#[test]
fn the_longest_input() {
    let lists: Vec<u8> = (0..128).flat_map(|_| 0..64).collect();
    let mut book = vec![0; 8706];
    assert_eq!(write_book(64, &lists, &mut book), granted(8706));
    let matching: Vec<u8> = (0..64).collect();
    assert_eq!(weighted_sheet_of(&book, &matching, &[1; 65]), "refused 17\n");
    assert_eq!(weighted_sheet_of(&book, &matching, &[1; 63]), "refused 17\n");
}
