//! Whom repairs move (document 02, W-206) against the papers: M5 of document 000, whose repairs stand in its Table 3,
//! beside the eleven stable matchings of Table 1; and two groups of people with short lists.

mod books;

use books::{matching_5, short_book_of, table_1, MATCHING_5};
use listing::asked::Asked;
use listing::between::Side;
use listing::matching::Matching;
use listing::people::Man;
use listing::stable::Listing;

/// Two groups, and somebody alone on each side: students 0 and 1 can exchange mentors 0 and 1, students 2 and 3 mentors
/// 2 and 3. Student 4 stands last on the list of mentor 0, and mentor 4 on that of student 2.
const TWO_GROUPS: &str = "01 10 234 32 0 104 01 32 23 2";

/// How many stable matchings part each student's pair of a matching on a side.
fn partings(listing: &Listing, given: &Matching, side: Side) -> Vec<usize> {
    given.pairs().map(|(man, _)| listing.parting_on(side, given, man).len()).collect()
}

/// Table 1's stable matchings are the closed sets of 0 before 1, 1 before 2 and 4, 2 before 3, 4 before 5. By Table 2
/// student 0 is better off in the five without rotation 2 and worse off in the three with 3, student 1 in the two
/// without 1 and the three with 5, and so on; without the rotation named, or with it.
#[test]
fn sides_of_matching_5() {
    let asked = Asked::new(table_1());
    let (listing, given) = (asked.listing(), matching_5());
    assert_eq!(partings(listing, &given, Side::Up), [5, 2, 0, 0, 0, 5, 2]);
    assert_eq!(partings(listing, &given, Side::Down), [3, 3, 6, 3, 3, 0, 6]);
}

/// Both repairs of each pair of M5 lie between it and whatever parts the pair on their side; there is none where
/// nothing does, as in Table 3.
#[test]
fn repairs_of_matching_5() {
    let asked = Asked::new(table_1());
    let (listing, given) = (asked.listing(), matching_5());
    for (man, _) in given.pairs() {
        for side in [Side::Up, Side::Down] {
            let others = listing.parting_on(side, &given, man);
            let Some(repaired) = listing.repair_on(side, &given, man) else {
                assert!(others.is_empty());
                continue;
            };
            assert!(others.contains(&repaired));
            assert!(others.iter().all(|other| listing.each_between(&given, repaired, other)));
        }
    }
}

/// The repair up of student 0's pair is 2 5 6 3 1 4 0 (Table 3). Beside 2 5 0 3 1 4 6, in which students 2 and 6 are
/// worse off, it leaves these two. The student-best matching does not lie between: it moves students 1 and 6 in vain
/// and students 0 and 5 too far. Nor does the repair down, which moves student 0 the other way and student 4 in vain.
#[test]
fn who_stands_outside() {
    let asked = Asked::new(table_1());
    let (listing, given) = (asked.listing(), matching_5());
    let read = |bytes: [u8; 7]| Matching::read(&listing.lists, &bytes).expect("a matching");
    let (up, other) = (read([2, 5, 6, 3, 1, 4, 0]), read([2, 5, 0, 3, 1, 4, 6]));
    assert_eq!(listing.repair_on(Side::Up, &given, Man(0)), Some(&up));
    assert!(listing.each_between(&given, &up, &other));
    let places = Man::all(7).map(|man| listing.lists.places(man, [&given, &up, &other]).map(Option::unwrap));
    let due = [[4, 3, 3], [3, 3, 3], [0, 0, 1], [0, 0, 0], [0, 0, 0], [6, 5, 5], [2, 2, 3]];
    assert_eq!(places.collect::<Vec<_>>(), due);
    let best = read([5, 4, 6, 3, 1, 0, 2]);
    let outside = |repaired: &Matching| {
        let outside = Man::all(7).filter(|&man| !listing.lists.stands_between(man, &given, repaired, &other));
        outside.map(|man| man.0).collect::<Vec<_>>()
    };
    assert_eq!(outside(&best), [0, 1, 5, 6]);
    assert_eq!(outside(&read([1, 5, 6, 3, 4, 2, 0])), [0, 4]);
    assert_eq!(outside(&read(MATCHING_5)), []);
}

/// The pair of student 0 is parted by an exchange in his own group. In one of the two matchings that part it the other
/// group exchanges too, in vain. Student 4, who is alone, stays so.
#[test]
fn two_groups() {
    let book = short_book_of(TWO_GROUPS);
    let asked = Asked::new(&book);
    let listing = asked.listing();
    let read = |bytes: [u8; 5]| Matching::read(&listing.lists, &bytes).expect("a matching");
    let (given, repaired, both) = (read([0, 1, 2, 3, 255]), read([1, 0, 2, 3, 255]), read([1, 0, 3, 2, 255]));
    assert_eq!(partings(listing, &given, Side::Down), [2, 2, 2, 2]);
    assert_eq!(listing.parting_on(Side::Down, &given, Man(0)), [&repaired, &both]);
    assert_eq!(listing.repair_on(Side::Down, &given, Man(0)), Some(&repaired));
    assert!(listing.each_between(&given, &repaired, &both));
    assert!(!listing.each_between(&given, &both, &repaired));
    assert!(!listing.each_between(&given, &read([1, 0, 2, 255, 255]), &both));
}
