//! Prints both repairs of each pair of a stable matching, as the archive writes them, beside every stable matching
//! without the pair, and for each student the place of his mentor in the repair and the interval in which it stands
//! (W-206): for Table 1 of document 000 and for a book with short lists. Exits with 1 where a place lies outside, or
//! where the archive does not give a repair. What it has to print is in `expected`.

mod asked;

use asked::{Asking, Repair};
use listing::asked::Asked;
use listing::between::Side;
use listing::matching::Matching;
use listing::people::Man;
use std::process::ExitCode;

/// Table 1 of document 000 as a book, with the matching 4 5 6 3 1 2 0 after it.
const TABLE_1: &[u8] = include_bytes!("../../../examples/table-1");

/// A book of edition 2, one digit an entry, six students and then six mentors; and a stable matching of it. Student 0
/// and mentor 1 are alone, and the pair of student 1 is fixed.
const SHORT_LISTS: [&str; 12] =
    ["45", "312405", "50423", "05243", "425013", "240531", "14523", "541", "13245", "24351", "132540", "154320"];
const SHORT_MATCHING: [u8; 6] = [255, 3, 0, 5, 2, 4];

/// The book of edition 2 of these lists.
fn short_book(lists: &[&str]) -> Vec<u8> {
    let mut book = vec![2, (lists.len() / 2) as u8];
    let mut offset = 2 + 4 * lists.len();
    for list in lists {
        book.extend([offset as u8, 0, list.len() as u8, 0]);
        offset += list.len();
    }
    book.extend(lists.concat().bytes().map(|digit| digit - b'0'));
    book
}

/// Numbers in a row; a dash for none.
fn row(numbers: impl Iterator<Item = Option<usize>>) -> String {
    numbers.map(|number| number.map_or("-".to_string(), |number| number.to_string())).collect::<Vec<_>>().join(" ")
}

/// The mentors of a matching in a row.
fn mentors(matching: &Matching, n: usize) -> String {
    row(Man::all(n).map(|man| matching.woman_of(man).map(|woman| woman.index())))
}

/// Prints a repair beside each stable matching that parts the pair on its side; whether each student's place lies
/// within his interval.
fn print_beside(asking: &Asking, side: Side, repaired: &Matching) -> bool {
    let (listing, given, n) = (asking.book.listing(), &asking.given, asking.given_bytes.len());
    let mut within = true;
    for other in listing.parting_on(side, given, asking.man) {
        let cell = |man| match listing.lists.places(man, [given, repaired, other]) {
            [Some(old), Some(new), Some(far)] => format!("{new} in {}..{}", old.min(far), old.max(far)),
            _ => "-".to_string(),
        };
        let cells: Vec<String> = Man::all(n).map(cell).collect();
        println!("  {}: {}", mentors(other, n), cells.join(" | "));
        within &= listing.each_between(given, repaired, other);
    }
    within
}

/// Prints both repairs of a pair with what stands beside them; whether all is as it has to be.
fn print_pair(asking: &Asking) -> bool {
    let n = asking.given_bytes.len();
    let pair = format!("pair {} {}", asking.man.0, asking.given_bytes[asking.man.index()]);
    [Side::Up, Side::Down].into_iter().all(|side| {
        let word = if side == Side::Up { "up" } else { "down" };
        match asking.repair(side) {
            Repair::Written(repaired) => {
                let moved = row(repaired.moved(&asking.given).map(|man| Some(man.index())));
                println!("{pair}, repair {word}: {}, moves {moved}", mentors(&repaired, n));
                print_beside(asking, side, &repaired)
            }
            Repair::Absent => {
                println!("{pair}, repair {word}: none");
                asking.book.listing().parting_on(side, &asking.given, asking.man).is_empty()
            }
            Repair::Wrong(reply) => {
                println!("{pair}, repair {word}: the archive answers {reply:?}");
                false
            }
        }
    })
}

/// Prints the repairs of all pairs of a matching.
fn print_book(name: &str, book: &[u8], given_bytes: &[u8]) -> bool {
    let book = Asked::new(book);
    let given = book.stable_matching(given_bytes).expect("a stable matching");
    let (listing, n) = (book.listing(), given_bytes.len());
    let places = row(Man::all(n).map(|man| listing.lists.places(man, [&given; 3])[0]));
    println!("{name}: {} stable matchings, given {} at places {places}", listing.stable().len(), mentors(&given, n));
    let asking = |(man, _)| Asking { book: &book, given: given.clone(), given_bytes, man };
    given.pairs().map(asking).filter(|asking| !print_pair(asking)).count() == 0
}

fn main() -> ExitCode {
    let (table_1, matching_5) = TABLE_1.split_at(156);
    let full = print_book("Table 1", table_1, matching_5);
    let short = print_book("short lists", &short_book(&SHORT_LISTS), &SHORT_MATCHING);
    ExitCode::from(!(full && short) as u8)
}
