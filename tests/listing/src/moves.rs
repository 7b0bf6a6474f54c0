//! The sheet with moves, as the moves program prints it: the sheet's first line; then for each student the sheet's
//! line, and under it one line for each student whom the taken repair moves.

use crate::asked::Asked;
use crate::matching::Matching;
use crate::people::Man;
use crate::repair::Answer;
use crate::sheet;
use crate::stable::Listing;
use crate::weights::Weights;
use std::fmt::Write;

/// The sheet of a book with a matching after it, and the sheet with moves. A refusal prints as in the sheet.
pub fn texts(input: &[u8]) -> [String; 2] {
    let (book, matching) = sheet::parts(input);
    let asked = Asked::new(book);
    let ones = asked.ones();
    let sheet = sheet::printed(&asked, matching, &ones);
    let with_moves = match asked.weighed(matching, &ones) {
        Ok((given, ones)) => with_moves(asked.listing(), &given, ones, &sheet),
        Err(_) => sheet.clone(),
    };
    [sheet, with_moves]
}

/// The lines of a sheet, and under each student's those of the students whom the answer for his pair moves. A student
/// without a mentor is in no pair.
fn with_moves(listing: &Listing, given: &Matching, ones: Weights, sheet: &str) -> String {
    let mut lines = sheet.lines();
    let mut text = String::new();
    let mut put = |line: Option<&str>| writeln!(text, "{}", line.expect("a line")).expect("a string takes every line");
    put(lines.next());
    for man in Man::all(listing.lists.n()) {
        put(lines.next());
        if given.woman_of(man).is_some() {
            if let Answer::Up(repaired, _) | Answer::Down(repaired, _) = listing.answer(given, man, ones) {
                moves(listing, given, repaired).iter().for_each(|line| put(Some(line)));
            }
        }
    }
    text
}

/// The lines of those who have another mentor in the repaired matching, the lowest number first: a space, the student,
/// his old mentor, his new mentor and the places gained with a sign, with one space between fields.
fn moves(listing: &Listing, given: &Matching, repaired: &Matching) -> Vec<String> {
    let gains = listing.gains(given, repaired);
    let line = |man: Man| {
        let (old, new) = (given.woman_of(man)?, repaired.woman_of(man)?);
        (old != new).then(|| format!(" {} {} {} {:+}", man.0, old.0, new.0, gains[man.index()]))
    };
    Man::all(listing.lists.n()).filter_map(line).collect()
}
