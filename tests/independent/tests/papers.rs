//! The cases of document 01 that are checked by hand, their first lines as W-204 gives them, and Tables 1 to 3 of
//! document 000.

mod definitions;

use definitions::{Market, Matching};
use independent::instance;
use independent::poset::Poset;
use independent::reply::{Reply, NO_GRADE};
use independent::{book, calls, samples, sheet, short_samples};

const MATCHING_5: [u8; 7] = [4, 5, 6, 3, 1, 2, 0];

fn table_1() -> Vec<u8> {
    samples::book(7, &samples::digits(&samples::TABLE_1))
}

fn table_1_market() -> Market {
    Market::new(false, &short_samples::full(7, &samples::digits(&samples::TABLE_1)))
}

fn sheet_of(book: &[u8], matching: &[u8]) -> String {
    String::from_utf8(sheet::text(&[book, matching].concat())).unwrap()
}

fn refused(number: usize, place: usize) -> Reply {
    Reply { number, place, ..Reply::default() }
}

#[test]
fn empty_and_single() {
    assert_eq!(sheet_of(&[1, 0], &[]), "0 0 0 -\n");
    assert_eq!(calls::grade(&[1, 0], &[]), Reply::value(NO_GRADE));
    let one = samples::book(1, &[0, 0]);
    assert_eq!(sheet_of(&one, &[0]), "1 0 1 -\n0 0 F 0\n");
    assert_eq!(calls::grade(&one, &[0]), Reply::value(NO_GRADE));
}

#[test]
fn two_by_two() {
    let book = samples::book(2, &[0, 1, 1, 0, 1, 0, 0, 1]);
    assert_eq!(sheet_of(&book, &[0, 1]), "2 1 0 1\n0 0 D 2\n1 1 D 2\n");
    assert_eq!(sheet_of(&book, &[1, 0]), "2 1 0 1\n0 1 U 2\n1 0 U 2\n");
}

#[test]
fn refused_10() {
    let book = samples::book(2, &[0, 1, 0, 1, 0, 1, 0, 1]);
    assert_eq!(calls::check_matching(&book, &[1, 0]), refused(10, 0));
    assert_eq!(sheet_of(&book, &[1, 0]), "refused 10\n");
    assert_eq!(sheet_of(&book, &[0, 1]), "2 0 2 -\n0 0 F 0\n1 1 F 0\n");
}

#[test]
fn table_1_extremes_and_rotations() {
    let mut out = [0; 7];
    assert_eq!(calls::student_best(&table_1(), &mut out), Reply::value(7));
    assert_eq!(out, [5, 4, 6, 3, 1, 0, 2]);
    assert_eq!(calls::mentor_best(&table_1(), &mut out), Reply::value(7));
    assert_eq!(out, [1, 3, 0, 5, 4, 2, 6]);
    let poset = Poset::numbered(&instance::read(&table_1()).unwrap());
    assert_eq!(poset.count(), 6);
    assert_eq!(calls::rotation_count(&table_1()), Reply::value(6));
    let pairs: Vec<(u8, u8)> = poset.rotation(1).iter().map(|p| (p.man, p.woman)).collect();
    assert_eq!(pairs, [(1, 4), (6, 5), (5, 0)]);
}

#[test]
fn table_1_sets() {
    let mut out = [0; 7];
    assert_eq!(calls::set_to_matching(&table_1(), &[1, 1, 1, 0, 0, 0], &mut out), Reply::value(7));
    assert_eq!(out, MATCHING_5);
    let mut set = [9; 6];
    assert_eq!(calls::matching_to_set(&table_1(), &MATCHING_5, &mut set), Reply::value(6));
    assert_eq!(set, [1, 1, 1, 0, 0, 0]);
    assert_eq!(calls::set_to_matching(&table_1(), &[0, 0, 1, 0, 0, 0], &mut out), refused(16, 0));
    let market = table_1_market();
    assert_eq!(market.stable_matchings().len(), 11);
    let sets = (0..64u8).map(|s| [0, 1, 2, 3, 4, 5].map(|k| s >> k & 1));
    assert_eq!(sets.filter(|s| calls::set_to_matching(&table_1(), s, &mut out).number == 0).count(), 11);
}

/// Table 2: for each man the closed subsets of repair up and down, by the numbers of their rotations.
const TABLE_2: [(Option<&str>, Option<&str>); 7] = [
    (Some("01"), Some("0123")),
    (Some("0"), Some("01245")),
    (None, Some("0124")),
    (None, Some("01245")),
    (None, Some("0123")),
    (Some("01"), None),
    (Some("0"), Some("0124")),
];

/// Table 3: for each man the distances of repair up and down.
const TABLE_3: [(Option<usize>, Option<usize>); 7] = [
    (Some(2), Some(2)),
    (Some(4), Some(4)),
    (None, Some(2)),
    (None, Some(4)),
    (None, Some(2)),
    (Some(2), None),
    (Some(4), Some(2)),
];

#[test]
fn tables_2_and_3() {
    let market = table_1_market();
    let stable = market.stable_matchings();
    let given = market.matching(&MATCHING_5).unwrap();
    let of_set = |set: &str| {
        let marks: Vec<u8> = ('0'..'6').map(|r| set.contains(r) as u8).collect();
        let mut out = vec![0; 7];
        assert_eq!(calls::set_to_matching(&table_1(), &marks, &mut out), Reply::value(7));
        market.matching(&out).unwrap()
    };
    let distance = |m: &Matching| definitions::distance(m, &given);
    for man in 0..7 {
        let (up, down) = (TABLE_2[man].0.map(of_set), TABLE_2[man].1.map(of_set));
        assert_eq!((up.as_ref().map(distance), down.as_ref().map(distance)), TABLE_3[man]);
        assert_eq!(market.repair_up(&stable, &given, man), up);
        assert_eq!(market.repair_down(&stable, &given, man), down);
        let nearer = if TABLE_3[man].0.unwrap_or(99) <= TABLE_3[man].1.unwrap_or(99) { up } else { down };
        let (mut out, mut gains) = (vec![0; 7], vec![0; 7]);
        calls::repair(&table_1(), &MATCHING_5, &[man as u8, MATCHING_5[man]], &mut out, &mut gains);
        assert_eq!(Some(out), nearer.map(|m| definitions::bytes(&m)));
    }
}

#[test]
fn table_1_sheet() {
    let due = "7 6 0 3\n0 4 U 2\n1 5 U 4\n2 6 D 2\n3 3 D 4\n4 1 D 2\n5 2 U 2\n6 0 D 2\n";
    assert_eq!(sheet_of(&table_1(), &MATCHING_5), due);
    assert_eq!(calls::grade(&table_1(), &MATCHING_5), Reply::value(3));
}

#[test]
fn sizes() {
    assert_eq!([0, 1, 7, 64].map(book::size), [2, 12, 156, 8706]);
    let table_1 = table_1();
    assert_eq!(calls::check_book(&table_1), Reply::value(7));
    assert_eq!(calls::check_book(&table_1[..155]), refused(1, 155));
    assert_eq!(calls::check_book(&[&table_1[..], &[0]].concat()), refused(4, 156));
    let mut large = samples::book(64, &samples::xor(64));
    assert_eq!(calls::check_book(&large), Reply::value(64));
    large[1] = 65;
    assert_eq!(calls::check_book(&large), refused(3, 1));
}

/// The xor lists of 64 have the largest number of rotations that there can be, n(n - 1) / 2.
#[test]
fn most_rotations() {
    let book = samples::book(64, &samples::xor(64));
    let mut out = vec![0; 2016 * 5];
    assert_eq!(calls::rotations(&book, &mut out), Reply::value(2016));
    assert_eq!(calls::rotation_count(&book), Reply::value(2016));
    assert!(out.chunks(5).all(|r| r[0] == 2));
    assert_eq!(calls::rotations(&book, &mut out[1..]), refused(14, 0));
}

/// The most proposals there can be (Knuth 1976): n(n - 1) + 1, so the men's places add up to that less n.
#[test]
fn hardest_lists() {
    for n in [2, 3, 8, 64] {
        let lists = samples::hardest(n);
        let mut best = vec![0; n];
        assert_eq!(calls::student_best(&samples::book(n, &lists), &mut best).number, 0);
        let place = |i: usize| lists[i * n..][..n].iter().position(|&w| w == best[i]).unwrap();
        assert_eq!((0..n).map(place).sum::<usize>(), (n - 1) * (n - 1));
    }
}
