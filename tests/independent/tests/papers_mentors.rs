//! Repairs that are asked for by a mentor's number (W-205): Table 1 of document 000 against requests of two bytes and
//! against repairs worked out by hand; mentors who are alone; the rules in their order. Result buffers are preset, and
//! what is not part of a result stays as it was.

use independent::reply::Reply;
use independent::{calls, samples, short_samples};

const MATCHING_5: [u8; 7] = [4, 5, 6, 3, 1, 2, 0];

/// Student 0 lists 0 1, student 1 lists 1 0 2, student 2 lists 0; mentor 0 lists 1 0 2, mentor 1 lists 0 1, mentor 2
/// lists 1. Students 0 and 1 exchange mentors 0 and 1 in a rotation, student 2 and mentor 2 are alone.
const LISTS: [&[u8]; 6] = [&[0, 1], &[1, 0, 2], &[0], &[1, 0, 2], &[0, 1], &[1]];

/// The same with mentor 2 before mentor 0 on student 1's list: she ends his search, and both pairs are fixed.
const FIXED_LISTS: [&[u8]; 6] = [&[0, 1], &[1, 2, 0], &[0], &[1, 0, 2], &[0, 1], &[1]];

fn table_1() -> Vec<u8> {
    samples::book(7, &samples::digits(&samples::TABLE_1))
}

fn short_book<const LISTS: usize>(lists: [&[u8]; LISTS]) -> Vec<u8> {
    short_samples::book(&lists.map(<[u8]>::to_vec))
}

/// The stable matchings of Table 1, by the closed sets of its six rotations.
fn stable_matchings() -> Vec<Vec<u8>> {
    let sets = (0..64u8).map(|set| [0, 1, 2, 3, 4, 5].map(|k| set >> k & 1));
    let matching = |set: [u8; 6]| {
        let mut out = vec![0; 7];
        (calls::set_to_matching(&table_1(), &set, &mut out).number == 0).then_some(out)
    };
    sets.filter_map(matching).collect()
}

/// What a call leaves: its reply and both buffers.
type Left = (Reply, Vec<u8>, Vec<i8>);

/// Preset buffers of these lengths.
fn preset((room, gains_room): (usize, usize)) -> (Vec<u8>, Vec<i8>) {
    ((100..).take(room).collect(), (-100..).take(gains_room).collect())
}

/// Makes a call with preset buffers of these lengths.
fn lending(rooms: (usize, usize), call: impl FnOnce(&mut [u8], &mut [i8]) -> Reply) -> Left {
    let (mut out, mut gains) = preset(rooms);
    (call(&mut out, &mut gains), out, gains)
}

fn by_mentor(book: &[u8], matching: &[u8], mentor: u8, rooms: (usize, usize)) -> Left {
    lending(rooms, |out, gains| calls::repair_mentor(book, matching, mentor, out, gains))
}

fn weighted(book: &[u8], matching: &[u8], weights: &[u8], mentor: u8, rooms: (usize, usize)) -> Left {
    lending(rooms, |out, gains| calls::weighted_repair_mentor(book, matching, weights, mentor, out, gains))
}

/// The refusal by a rule that has no place, or the answer that a pair is fixed: nothing is written.
fn unwritten(reply: Reply, rooms: (usize, usize)) -> Left {
    let (out, gains) = preset(rooms);
    (reply, out, gains)
}

fn refused(number: usize, rooms: (usize, usize)) -> Left {
    unwritten(Reply { number, ..Reply::default() }, rooms)
}

/// Every mentor in each of the eleven stable matchings, with weights too: the same as the request for her pair.
#[test]
fn table_1_as_requests() {
    let (book, rooms) = (table_1(), (9, 8));
    let stable = stable_matchings();
    assert_eq!(stable.len(), 11);
    for matching in stable {
        for mentor in 0..7 {
            let student = (0..7).find(|&student| matching[student as usize] == mentor).unwrap();
            let request = [student, mentor];
            let due = lending(rooms, |out, gains| calls::repair(&book, &matching, &request, out, gains));
            assert_eq!(by_mentor(&book, &matching, mentor, rooms), due);
            for weights in [[0; 7], [1; 7], [10, 20, 200, 40, 5, 30, 50], [1, 2, 4, 8, 16, 32, 64]] {
                let call = |out: &mut [u8], gains: &mut [i8]| {
                    calls::weighted_repair(&book, &matching, &weights, &request, out, gains)
                };
                assert_eq!(weighted(&book, &matching, &weights, mentor, rooms), lending(rooms, call));
            }
        }
    }
}

/// The sheet of M5 in document 01 has, for the mentors 0 to 6 in turn, the lines of students 6, 4, 5, 3, 0, 1 and 2.
#[test]
fn table_1_by_the_sheet() {
    let due = [('D', 2), ('D', 2), ('U', 2), ('D', 4), ('U', 2), ('U', 4), ('D', 2)];
    for (mentor, (letter, distance)) in (0..).zip(due) {
        let (reply, ..) = by_mentor(&table_1(), &MATCHING_5, mentor, (7, 7));
        assert_eq!(reply, Reply { letter: letter as usize, ..Reply::value(distance) }, "mentor {mentor}");
    }
}

/// Mentor 4 has student 0, whose repair up exchanges mentors 4 and 2 between students 0 and 5. Where 0 and 4 weigh less
/// than 0 and 5, repair down exchanges 4 and 1 between students 0 and 4.
#[test]
fn table_1_by_hand() {
    let (reply, out, gains) = by_mentor(&table_1(), &MATCHING_5, 4, (8, 8));
    assert_eq!(reply, Reply { letter: 'U' as usize, ..Reply::value(2) });
    assert_eq!((&out[..], &gains[..]), (&[2, 5, 6, 3, 1, 4, 0, 107][..], &[1, 0, 0, 0, 0, 1, 0, -93][..]));
    let (reply, out, gains) = weighted(&table_1(), &MATCHING_5, &[10, 20, 200, 40, 5, 30, 50], 4, (8, 8));
    assert_eq!(reply, Reply { letter: 'D' as usize, ..Reply::value(15) });
    assert_eq!((&out[..], &gains[..]), (&[1, 5, 6, 3, 4, 2, 0, 107][..], &[-1, 0, 0, 0, -4, 0, 0, -93][..]));
}

/// Student 2 has no mentor and byte 255, which is no mentor's number; mentor 2 has no student.
#[test]
fn mentors_who_are_alone() {
    let (book, rooms) = (short_book(LISTS), (3, 3));
    let down = Reply { letter: 'D' as usize, ..Reply::value(2) };
    for mentor in [0, 1] {
        assert_eq!(by_mentor(&book, &[0, 1, 255], mentor, rooms), (down, vec![1, 0, 255], vec![-1, -1, 0]));
    }
    assert_eq!(by_mentor(&book, &[0, 1, 255], 2, rooms), refused(12, rooms));
    assert_eq!(weighted(&book, &[0, 1, 255], &[3, 4, 5], 2, rooms), refused(12, rooms));
    for mentor in [3, 64, 255] {
        assert_eq!(by_mentor(&book, &[0, 1, 255], mentor, rooms), refused(11, rooms));
    }
    for mentor in [0, 1] {
        assert_eq!(by_mentor(&short_book([&[]; 4]), &[255, 255], mentor, (2, 2)), refused(12, (2, 2)));
    }
}

/// Of a fixed pair nothing is written, and both buffers must hold n entries all the same.
#[test]
fn fixed_pairs() {
    let book = short_book(FIXED_LISTS);
    for mentor in [0, 1] {
        let fixed = Reply { letter: 'F' as usize, ..Reply::default() };
        assert_eq!(by_mentor(&book, &[0, 1, 255], mentor, (4, 3)), unwritten(fixed, (4, 3)));
        assert_eq!(weighted(&book, &[0, 1, 255], &[7, 0, 9], mentor, (4, 3)), unwritten(fixed, (4, 3)));
        for rooms in [(2, 3), (3, 2), (0, 0)] {
            assert_eq!(by_mentor(&book, &[0, 1, 255], mentor, rooms), refused(14, rooms));
        }
    }
}

/// 11 for n and more, before 14; then 14 for either buffer. Where n is 0 no mentor has a number.
#[test]
fn numbers_and_buffers() {
    let book = table_1();
    for rooms in [(7, 7), (6, 7), (7, 6), (0, 0)] {
        for mentor in [7, 8, 63, 64, 127, 128, 255] {
            assert_eq!(by_mentor(&book, &MATCHING_5, mentor, rooms), refused(11, rooms));
            assert_eq!(weighted(&book, &MATCHING_5, &[1; 7], mentor, rooms), refused(11, rooms));
        }
        for mentor in (0..7).filter(|_| rooms != (7, 7)) {
            assert_eq!(by_mentor(&book, &MATCHING_5, mentor, rooms), refused(14, rooms));
            assert_eq!(weighted(&book, &MATCHING_5, &[1; 7], mentor, rooms), refused(14, rooms));
        }
    }
    for mentor in [0, 255] {
        assert_eq!(by_mentor(&[1, 0], &[], mentor, (0, 0)), refused(11, (0, 0)));
        assert_eq!(weighted(&[2, 0], &[], &[], mentor, (1, 1)), refused(11, (1, 1)));
    }
}

/// The book, 8, 9, 19 and 10 come before 17, 11 and 14; 17 before 11 and 12; 12 before 14.
#[test]
fn order_of_the_rules() {
    let (book, rooms) = (short_book(LISTS), (1, 0));
    let first = |book: &[u8], matching: &[u8], weights: &[u8], mentor| {
        let left = weighted(book, matching, weights, mentor, rooms);
        assert_eq!((&left.1, &left.2), (&preset(rooms).0, &preset(rooms).1));
        left.0
    };
    for mentor in [2, 3, 255] {
        assert_eq!(first(&book[..37], &[], &[], mentor), Reply { number: 1, place: 37, ..Reply::default() });
        assert_eq!(first(&[3, 3], &[], &[], mentor).number, 2);
        for (matching, due) in [(&[0, 1][..], 8), (&[0, 0, 255], 9), (&[2, 1, 0], 19), (&[0, 255, 255], 10)] {
            assert_eq!(first(&book, matching, &[], mentor).number, due);
            assert_eq!(by_mentor(&book, matching, mentor, rooms).0.number, due);
        }
        for weights in [&[][..], &[1, 1], &[1; 4]] {
            assert_eq!(first(&book, &[0, 1, 255], weights, mentor).number, 17);
        }
    }
    assert_eq!(
        [0, 1, 2, 3, 255].map(|mentor| first(&book, &[0, 1, 255], &[1; 3], mentor).number),
        [14, 14, 12, 11, 11]
    );
    assert_eq!(
        [0, 1, 2, 3, 255].map(|mentor| by_mentor(&book, &[0, 1, 255], mentor, rooms).0.number),
        [14, 14, 12, 11, 11]
    );
}
