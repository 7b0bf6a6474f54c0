//! Two pairs at one go (W-207) on Table 1 of document 000, worked out by hand from its Tables 2 and 3; and the order
//! of the rules on requests of four bytes.
//!
//! The matching M5 is 4 5 6 3 1 2 0, its set {0, 1, 2}. Each man's repairs take these rotations out of the set or into
//! it, which moves these men (see `papers_weights`):
//!
//! | men  | up takes out | it moves | down takes in | it moves |
//! |------|--------------|----------|---------------|----------|
//! | 0    | 2            | 0 5      | 3             | 0 4      |
//! | 1    | 1, 2         | 0 1 5 6  | 4, 5          | 1 2 3 6  |
//! | 2    | none         |          | 4             | 2 6      |
//! | 3    | none         |          | 4, 5          | 1 2 3 6  |
//! | 4    | none         |          | 3             | 0 4      |
//! | 5    | 2            | 0 5      | none          |          |
//! | 6    | 1, 2         | 0 1 5 6  | 4             | 2 6      |
//!
//! UU and DD take out, or in, what both men need, and move all of these men. UD and DU are not empty where nothing
//! that is taken out precedes what is taken in. Rotation 1 precedes 3, 4 and 5, and rotation 2 precedes 3. It precedes
//! neither 4 nor 5: 2 3 0 5 1 4 6, of the set {0, 1, 4, 5}, is stable. So to take out 2 alone goes with taking in 4, or
//! 4 and 5, and nothing else goes together. Man 4 can only end worse off, by 3, and man 5 only better off, by 2: their
//! pairs are fixed, though neither is so alone.

mod definitions;

use definitions::pairs::letter;
use definitions::Market;
use independent::reply::Reply;
use independent::{calls, samples, short_samples};

const MATCHING_5: [u8; 7] = [4, 5, 6, 3, 1, 2, 0];

/// The answer for the pairs of each man, down, and of each, across. The same pair twice is that pair alone.
const ANSWERS: [[&str; 7]; 7] = [
    ["U 2", "UU 4", "UD 4", "UD 6", "DD 2", "UU 2", "UU 4"],
    ["UU 4", "U 4", "DD 4", "DD 4", "DD 6", "UU 4", "UU 4"],
    ["DU 4", "DD 4", "D 2", "DD 4", "DD 4", "DU 4", "DD 2"],
    ["DU 6", "DD 4", "DD 4", "D 4", "DD 6", "DU 6", "DD 4"],
    ["DD 2", "DD 6", "DD 4", "DD 6", "D 2", "F 0", "DD 4"],
    ["UU 2", "UU 4", "UD 4", "UD 6", "F 0", "U 2", "UU 4"],
    ["UU 4", "UU 4", "DD 2", "DD 4", "DD 4", "UU 4", "D 2"],
];

fn table_1() -> Vec<u8> {
    samples::book(7, &samples::digits(&samples::TABLE_1))
}

/// The request for the pairs of these men.
fn request(men: &[usize]) -> Vec<u8> {
    men.iter().flat_map(|&man| [man as u8, MATCHING_5[man]]).collect()
}

/// Reply, matching and gains of a request with these weights; the buffers hold 99 before.
fn asked(weights: &[u8], request: &[u8]) -> (Reply, Vec<u8>, Vec<i8>) {
    let (mut out, mut gains) = (vec![99; 7], vec![99; 7]);
    let reply = calls::weighted_repair(&table_1(), &MATCHING_5, weights, request, &mut out, &mut gains);
    (reply, out, gains)
}

/// The reply of letters and a total, such as `UD 4`.
fn reply(text: &str) -> Reply {
    let (letters, total) = text.split_once(' ').unwrap();
    Reply { letter: letter(letters.as_bytes()), ..Reply::value(total.parse().unwrap()) }
}

/// All 49 by hand and, with what is written, by the definition over all eleven stable matchings.
#[test]
fn all_pairs_of_pairs() {
    let market = Market::new(false, &short_samples::full(7, &samples::digits(&samples::TABLE_1)));
    let (stable, given) = (market.stable_matchings(), market.matching(&MATCHING_5).unwrap());
    assert_eq!(stable.len(), 11);
    for first in 0..7 {
        for second in 0..7 {
            let (mut out, mut gains) = (vec![99; 7], vec![99; 7]);
            let request = request(&[first, second]);
            let plain = calls::repair(&table_1(), &MATCHING_5, &request, &mut out, &mut gains);
            assert_eq!(plain, reply(ANSWERS[first][second]), "men {first} and {second}");
            assert_eq!((plain, out, gains), market.due_two(&stable, &given, &[1; 7], [first, second]));
        }
    }
}

#[test]
fn the_same_pair_twice() {
    for man in 0..7 {
        for weights in [[1; 7], [1, 1, 9, 1, 1, 3, 1], [0; 7]] {
            assert_eq!(asked(&weights, &request(&[man, man])), asked(&weights, &request(&[man])));
        }
    }
}

/// Men 0 and 6: UU moves 0 1 5 6, UD 0 2 5 6, DD 0 2 4 6, and DU would take out 1 and take in 3.
#[test]
fn weights() {
    let answers = |weights: [u8; 7], men: [usize; 2], due: &str, out: [u8; 7]| {
        let (given, written, _) = asked(&weights, &request(&men));
        assert_eq!((given, written), (reply(due), out.to_vec()));
    };
    let [up, up_and_down, down] = [[2, 4, 6, 3, 1, 0, 5], [2, 5, 0, 3, 1, 4, 6], [1, 5, 0, 3, 4, 2, 6]];
    answers([1; 7], [0, 6], "UU 4", up);
    answers([1, 3, 1, 1, 1, 1, 1], [0, 6], "UD 4", up_and_down);
    answers([1, 3, 1, 1, 1, 1, 1], [6, 0], "DU 4", up_and_down);
    answers([1, 3, 1, 1, 1, 2, 1], [0, 6], "DD 4", down);
    answers([0; 7], [0, 6], "UU 0", up);
    answers([0; 7], [4, 2], "DD 0", down);
    answers([255; 7], [3, 5], "DU 1530", [2, 3, 0, 5, 1, 4, 6]);
    assert_eq!(asked(&[0; 7], &request(&[4, 5])).0, reply("F 0"));
}

/// 17, then 13, then 11 and 12 on the first pair, then on the second, all before 14; nothing is written.
#[test]
fn order_of_rules() {
    let refused = |weights: &[u8], request: &[u8], number: usize| {
        for room in [7, 6] {
            let (mut out, mut gains) = (vec![99; 7], vec![99; room]);
            let given = calls::weighted_repair(&table_1(), &MATCHING_5, weights, request, &mut out, &mut gains);
            assert_eq!(given, Reply { number, ..Reply::default() }, "{request:?}");
            assert!(out.iter().all(|&b| b == 99) && gains.iter().all(|&g| g == 99));
        }
    };
    refused(&[1; 6], &[0, 4, 7, 7, 7], 17);
    refused(&[1; 6], &[7, 7, 7, 7], 17);
    for length in [0, 1, 3, 5, 6, 8] {
        refused(&[1; 7], &[0, 4, 1, 5, 2, 6, 3, 3][..length], 13);
        refused(&[1; 7], &[7; 8][..length], 13);
    }
    for (pairs, number) in [
        ([7, 4, 1, 5], 11),
        ([0, 7, 1, 4], 11),
        ([255, 255, 0, 5], 11),
        ([0, 5, 1, 5], 12),
        ([0, 5, 7, 5], 12),
        ([0, 4, 1, 7], 11),
        ([0, 4, 7, 5], 11),
        ([0, 4, 1, 6], 12),
        ([0, 4, 0, 5], 12),
        ([0, 4, 1, 4], 12),
    ] {
        refused(&[1; 7], &pairs, number);
    }
}

#[test]
fn short_buffers() {
    for pairs in [[0, 4, 1, 5], [0, 4, 0, 4], [4, 1, 5, 2]] {
        for [room, gains_room] in [[6, 7], [7, 6], [0, 0]] {
            let (mut out, mut gains) = (vec![99; room], vec![99; gains_room]);
            let given = calls::repair(&table_1(), &MATCHING_5, &pairs, &mut out, &mut gains);
            assert_eq!(given, Reply { number: 14, ..Reply::default() });
            assert!(out.iter().all(|&b| b == 99) && gains.iter().all(|&g| g == 99));
        }
    }
}
