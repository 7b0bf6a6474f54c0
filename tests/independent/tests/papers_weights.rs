//! Weighted sheets of Table 1 of document 000 that are worked out by hand from its Tables 2 and 3; the grade 0 and none
//! (W-204); rule 17.
//!
//! The matching M5 is 4 5 6 3 1 2 0, its set {0, 1, 2}. Rotation 1 moves the men 1 6 5 (document 01); by the pairs that
//! each produces or eliminates in Table 2, rotation 2 moves 0 5, rotation 3 0 4, rotation 4 2 6, rotation 5 1 3. Table 2
//! gives the set of each repair, so the rotations that it takes out of M5's set or into it, and their men are moved:
//!
//! | pair  | repair up takes out | it moves | repair down takes in | it moves |
//! |-------|---------------------|----------|----------------------|----------|
//! | (0,4) | 2                   | 0 5      | 3                    | 0 4      |
//! | (1,5) | 1, 2                | 0 1 5 6  | 4, 5                 | 1 2 3 6  |
//! | (2,6) | none                |          | 4                    | 2 6      |
//! | (3,3) | none                |          | 4, 5                 | 1 2 3 6  |
//! | (4,1) | none                |          | 3                    | 0 4      |
//! | (5,2) | 2                   | 0 5      | none                 |          |
//! | (6,0) | 1, 2                | 0 1 5 6  | 4                    | 2 6      |
//!
//! They are as many as Table 3 says. With weights w0 to w6:
//! - (0,4), plainly U, is D where w5 > w4;
//! - (1,5), plainly U, is D where w0 + w5 > w2 + w3;
//! - (6,0), plainly D, is U where w0 + w1 + w5 <= w2.

use independent::reply::{Reply, NO_GRADE};
use independent::{calls, samples, sheet};

const MATCHING_5: [u8; 7] = [4, 5, 6, 3, 1, 2, 0];

fn table_1() -> Vec<u8> {
    samples::book(7, &samples::digits(&samples::TABLE_1))
}

fn refused(number: usize, place: usize) -> Reply {
    Reply { number, place, ..Reply::default() }
}

fn sheet_of(book: &[u8], matching: &[u8], weights: &[u8]) -> String {
    String::from_utf8(sheet::weighted_text(&[book, matching, weights].concat())).unwrap()
}

/// The sheet of M5 with these weights has this grade and, for each man, this letter and total.
fn answers(weights: [u8; 7], grade: usize, due: [&str; 7]) {
    let lines: String = due.iter().enumerate().map(|(m, end)| format!("{m} {} {end}\n", MATCHING_5[m])).collect();
    assert_eq!(sheet_of(&table_1(), &MATCHING_5, &weights), format!("7 6 0 {grade}\n{lines}"));
    assert_eq!(calls::weighted_grade(&table_1(), &MATCHING_5, &weights), Reply::value(grade));
    for man in 0..7u8 {
        let (letter, total) = due[man as usize].split_once(' ').unwrap();
        let request = [man, MATCHING_5[man as usize]];
        let reply = calls::weighted_repair(&table_1(), &MATCHING_5, &weights, &request, &mut [0; 7], &mut [0; 7]);
        assert_eq!(reply, Reply { letter: letter.as_bytes()[0] as usize, ..Reply::value(total.parse().unwrap()) });
    }
}

/// Man 5 weighs 3: (0,4) up 1 + 3, down 1 + 1; (1,5) up 1 + 1 + 3 + 1, down 4. Both turn from U to D. Less the own
/// weight: 1, 3, 1, 3, 1, 4 - 3, 1.
#[test]
fn up_turns_down() {
    answers([1, 1, 1, 1, 1, 3, 1], 3, ["D 2", "D 4", "D 2", "D 4", "D 2", "U 4", "D 2"]);
}

/// Man 2 weighs 4: (6,0) up 4, down 4 + 1 turns from D to U. Less the own weight: 1, 3, 5 - 4, 7 - 1, 1, 1, 3.
#[test]
fn down_turns_up() {
    answers([1, 1, 4, 1, 1, 1, 1], 6, ["U 2", "U 4", "D 5", "D 7", "D 2", "U 2", "U 4"]);
}

/// Where man 2 weighs 3 both repairs of (6,0) weigh 4, and up is taken; where he weighs 2 it is up 4, down 3.
#[test]
fn equal_totals() {
    answers([1, 1, 3, 1, 1, 1, 1], 5, ["U 2", "U 4", "D 4", "D 6", "D 2", "U 2", "U 4"]);
    answers([1, 1, 2, 1, 1, 1, 1], 4, ["U 2", "U 4", "D 3", "D 5", "D 2", "U 2", "D 3"]);
}

/// Both at once: (0,4) up 4, down 2; (1,5) up 6, down 12; (6,0) up 6, down 10.
#[test]
fn both_turn() {
    answers([1, 1, 9, 1, 1, 3, 1], 11, ["D 2", "U 6", "D 10", "D 12", "D 2", "U 4", "U 6"]);
}

/// Powers of two, so that a total tells who is moved. Up: (0,4) 1 + 32, (1,5) and (6,0) 1 + 2 + 32 + 64. The largest
/// total less the own weight is that of (1,5), 2 + 4 + 8 + 64 - 2; the other way round that of (4,1) and (5,2).
#[test]
fn powers_of_two() {
    answers([1, 2, 4, 8, 16, 32, 64], 76, ["D 17", "D 78", "D 68", "D 78", "D 17", "U 33", "D 68"]);
    answers([64, 32, 16, 8, 4, 2, 1], 64, ["U 66", "D 57", "D 17", "D 57", "D 68", "U 66", "D 17"]);
}

/// Nobody weighs anything: U wherever there is a repair up. All weigh the most.
#[test]
fn all_equal() {
    answers([0; 7], 0, ["U 0", "U 0", "D 0", "D 0", "D 0", "U 0", "U 0"]);
    answers([1; 7], 3, ["U 2", "U 4", "D 2", "D 4", "D 2", "U 2", "D 2"]);
    answers([255; 7], 765, ["U 510", "U 1020", "D 510", "D 1020", "D 510", "U 510", "D 510"]);
}

#[test]
fn small() {
    let (one, two) = (samples::book(1, &[0, 0]), samples::book(2, &[0, 1, 1, 0, 1, 0, 0, 1]));
    assert_eq!(sheet_of(&[1, 0], &[], &[]), "0 0 0 -\n");
    assert_eq!(calls::weighted_grade(&[1, 0], &[], &[]), Reply::value(NO_GRADE));
    for weight in [0, 1, 255] {
        assert_eq!(sheet_of(&one, &[0], &[weight]), "1 0 1 -\n0 0 F 0\n");
        assert_eq!(calls::weighted_grade(&one, &[0], &[weight]), Reply::value(NO_GRADE));
    }
    assert_eq!(sheet_of(&two, &[0, 1], &[7, 30]), "2 1 0 30\n0 0 D 37\n1 1 D 37\n");
    assert_eq!(sheet_of(&two, &[1, 0], &[0, 30]), "2 1 0 30\n0 1 U 30\n1 0 U 30\n");
}

/// The grade 0, though one repair has distance 1: only the asking man weighs anything. The stable matchings are 0 1 2,
/// 0 2 1 and 1 2 0; man 0 blocks 1 0 2 and 2 0 1 with woman 0, and 2 1 0 with woman 1.
/// - Of 0 1 2: only 1 2 0 is without (0,0). It moves all, total 1, and less the weight of man 0 that is 0.
///   (1,1) and (2,2) are repaired by 0 2 1, which moves men 1 and 2: total 0.
/// - Of 0 2 1: only 1 2 0 is without (0,0). It moves men 0 and 2, total 1, and less the weight of man 0 that is 0.
///   (1,2) and (2,1) are repaired by 0 1 2, which moves men 1 and 2: total 0.
///
/// Two men cannot have it: the only other matching moves both. They weigh 1 and 0, and for the latter 1 is left. Of the
/// books of edition 1 with three men this is the first by its bytes.
#[test]
fn the_grade_0_beside_a_repair_of_distance_1() {
    let book = samples::book(3, &samples::digits(&["012", "012", "210", "201", "021", "012"]));
    for matching in [[1, 0, 2], [2, 0, 1], [2, 1, 0]] {
        assert_eq!(calls::check_matching(&book, &matching).number, 10);
    }
    assert_eq!(sheet_of(&book, &[0, 1, 2], &[1, 0, 0]), "3 2 0 0\n0 0 D 1\n1 1 D 0\n2 2 D 0\n");
    assert_eq!(sheet_of(&book, &[0, 2, 1], &[1, 0, 0]), "3 2 0 0\n0 0 D 1\n1 2 U 0\n2 1 U 0\n");
    for matching in [[0, 1, 2], [0, 2, 1]] {
        assert_eq!(calls::weighted_grade(&book, &matching, &[1, 0, 0]), Reply::value(0));
    }
}

/// Rule 17: after 8, 9 and 10, before 13.
#[test]
fn refused_17() {
    let (book, unstable, clash) = (table_1(), [5, 4, 6, 1, 3, 0, 2], [4, 5, 6, 3, 1, 2, 4]);
    for length in [0, 6, 8, 14] {
        let weights = vec![1; length];
        assert_eq!(calls::weighted_grade(&book, &MATCHING_5, &weights), refused(17, 0));
        for request in [&[][..], &[0, 4], &[7, 7], &[0, 5]] {
            let reply = calls::weighted_repair(&book, &MATCHING_5, &weights, request, &mut [0; 7], &mut []);
            assert_eq!(reply, refused(17, 0));
        }
        assert_eq!(sheet_of(&book, &MATCHING_5, &weights), "refused 17\n");
        assert_eq!(calls::weighted_grade(&book, &unstable, &weights), Reply { second: 3, ..refused(10, 3) });
        assert_eq!(calls::weighted_grade(&book, &clash, &weights), refused(9, 6));
        assert_eq!(calls::weighted_grade(&book, &clash[1..], &weights), refused(8, 0));
        assert_eq!(sheet_of(&book, &unstable, &weights), "refused 10\n");
        assert_eq!(sheet_of(&book, &clash, &weights), "refused 9\n");
    }
    assert_eq!(sheet_of(&book, &MATCHING_5[1..], &[]), "refused 8\n");
    assert_eq!(sheet_of(&[1], &[], &[]), "refused 1\n");
    assert_eq!(sheet_of(&[1, 0], &[], &[1]), "refused 17\n");
    let request = calls::weighted_repair(&book, &MATCHING_5, &[1; 7], &[0], &mut [], &mut []);
    assert_eq!(request, refused(13, 0));
}
