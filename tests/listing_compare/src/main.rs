//! Holds the archive against the listing of all matchings, in two parts for each edition of the book: every book for
//! n up to 3, or 2 with short lists, and drawn ones up to n = 6 with sound questions; and, on fewer books, whatever
//! breaks a rule. A third part holds the archive against itself, on books of both editions with the same full lists.
//! Prints how much was compared and how often each rule was met. Exits with 1 on any difference, or where a call
//! never gave a result or never met one of its rules, or no sheet printed a refusal that it can or was of a kind that
//! it can be, or no repair moved students and left others, or none left a student whom a stable matching on its side
//! moves, or something never came of requests for two pairs or was never shown by a sheet with moves, in each edition.

mod between;
mod beyond;
mod books;
mod both;
mod by_mentor;
mod calls;
mod damage;
mod directories;
mod draw;
mod editions;
mod lent;
mod lists;
mod marks;
mod moves;
mod numbers;
mod pairs;
mod print;
mod printed;
mod questions;
mod recount;
mod requests;
mod rooms;
mod short_lists;
mod strings;
mod tally;
mod two_pairs;
mod weighted;
mod weights;
mod writer;

use both::Both;
use listing::book::Edition;
use std::process::ExitCode;
use tally::Tally;

/// Runs all parts and prints their counts.
fn main() -> ExitCode {
    let (mut full, mut short) = (Both::default(), Both::default());
    short.ask_small_short_books();
    short.ask_drawn_short_books();
    full.ask_small_books();
    full.ask_drawn_books();
    print::sound(&full.tally);
    print::short(&short.tally);
    print::sound(&short.tally);
    let (mut full_beyond, mut short_beyond, mut editions) = (Both::default(), Both::default(), Both::default());
    full_beyond.ask_beyond();
    print::beyond("beyond these", &full_beyond.tally);
    short_beyond.ask_beyond_short();
    print::beyond("beyond these of edition 2", &short_beyond.tally);
    editions.ask_editions();
    print::editions(&editions.tally);
    let [mut full, short] = [[full, full_beyond], [short, short_beyond]].map(together);
    let missing =
        [(Edition::One, &full), (Edition::Two, &short)].map(|(edition, tally)| print::missing(edition, tally));
    full.add(&short);
    print::rules(&full);
    let differences = full.differences + editions.tally.differences;
    ExitCode::from((differences > 0 || missing.contains(&true)) as u8)
}

/// The calls and differences of both parts.
fn together([sound, beyond]: [Both; 2]) -> Tally {
    let mut all = sound.tally;
    all.add(&beyond.tally);
    all
}
