//! The counts as they are printed.

use crate::calls::{Call, REPAIRS, RULES};
use crate::pairs::{Came, ANSWERS};
use crate::tally::Tally;
use archive::moves::KINDS as MOVES_KINDS;
use archive::printed::KINDS;
use listing::book::Edition;

/// What is counted of books of edition 2 alone.
pub fn short(tally: &Tally) {
    println!("edition 2: books refused as one-sided {}", tally.one_sided_books);
    println!("books with rotations {}", tally.rotating_books);
    println!("books with somebody alone on each side {}", tally.lonely_books);
    println!("books with both {}", tally.rotating_lonely_books);
    println!("students alone {}", tally.alone);
    println!("mentors alone {}", tally.mentors_alone);
    println!("searches that a mentor who is alone ends before a willing one {}", tally.ended_searches);
}

/// The counts of the first part.
pub fn sound(tally: &Tally) {
    println!("books {}", tally.books);
    println!("matchings {}", tally.matchings);
    println!("stable matchings {}", tally.stable_matchings);
    letters("answers", tally.letters);
    letters("answers by mentor", tally.letters_by_mentor);
    for (repair, beside) in ["repair up", "repair down"].iter().zip(tally.beside) {
        println!("stable matchings beside {repair} {}", beside.matchings);
        println!("students whom {repair} leaves and these move {}", beside.left);
        println!("students whom {repair} moves less far {}", beside.inside);
    }
    pairs("answers", Call::Repair, tally);
    println!("stable matchings beside candidates {}", tally.beside_candidates);
    println!("refusals {}", tally.refusals());
    println!("rotations {}", tally.rotations);
    println!("sets {}", tally.sets);
    println!("sheets {}", tally.sheets);
    shown("sheets", Call::Sheet, tally);
    with_moves(tally);
    println!("weighted matchings {}", tally.weighted_matchings);
    letters("weighted answers", tally.weighted_letters);
    letters("weighted answers by mentor", tally.weighted_letters_by_mentor);
    println!("weighted totals {}", tally.weighted_totals);
    println!("weighted grades {}", tally.weighted_grades);
    pairs("weighted answers", Call::WeightedRepair, tally);
    println!("weighted totals of two pairs {}", tally.weighted_totals_of_two);
    shown("weighted sheets", Call::WeightedSheet, tally);
    println!("differences {}", tally.differences);
}

/// How many answers have each letter.
fn letters(words: &str, letters: [usize; 3]) {
    for (letter, times) in ['U', 'D', 'F'].iter().zip(letters) {
        println!("{words} {letter} {times}");
    }
}

/// How many answers of a call to two pairs have which letters, and how many are to the same pair twice.
fn pairs(words: &str, call: Call, tally: &Tally) {
    for (letters, came) in ["UU", "UD", "DU", "DD", "F"].iter().zip(ANSWERS) {
        println!("{words} to two pairs {letters} {}", tally.pairs.came(call, came));
    }
    println!("{words} to the same pair twice {}", tally.pairs.came(call, Came::Twice));
    println!("{words} to the same fixed pair twice {}", tally.pairs.came(call, Came::TwiceFixed));
}

/// How many sheets of each kind a call has printed.
fn shown(words: &str, call: Call, tally: &Tally) {
    for kind in KINDS {
        println!("{words} with {} {}", kind.words(), tally.shown(call, kind));
    }
}

/// How many sheets with moves are of each kind, and the lines under pairs.
fn with_moves(tally: &Tally) {
    for kind in MOVES_KINDS {
        println!("sheets with moves and {} {}", kind.words(), tally.moves.of(kind));
    }
    println!("moves for the better {}", tally.moves.better);
    println!("moves for the worse {}", tally.moves.worse);
    println!("bytes of lines with moves {}", tally.moves.bytes);
}

/// The counts of the second part.
pub fn beyond(words: &str, tally: &Tally) {
    println!("{words}: books {}", tally.books);
    println!("damaged copies {}", tally.damaged_books);
    println!("calls {}", tally.calls());
    println!("refusals {}", tally.refusals());
    println!("differences {}", tally.differences);
}

/// The counts of the third part.
pub fn editions(tally: &Tally) {
    println!("books in both editions {}", tally.books);
    println!("calls with each {}", tally.calls());
    println!("differences {}", tally.differences);
}

/// How often each rule was met in the first two parts, how many repairs moved students and left others, and how many
/// stable matchings stood beside what the archive wrote, for one pair and for two.
pub fn rules(tally: &Tally) {
    println!("calls of both parts {}", tally.calls());
    for rule in 1..RULES {
        println!("rule {rule} {}", tally.met(rule));
    }
    println!("sheets that print a refusal {}", tally.printed(Call::Sheet));
    println!("weighted sheets that print a refusal {}", tally.printed(Call::WeightedSheet));
    println!("sheets with moves that print a refusal {}", tally.printed(Call::Moves));
    for (words, call) in
        ["repairs", "weighted repairs", "repairs by mentor", "weighted repairs by mentor"].iter().zip(REPAIRS)
    {
        let [beside, leaving] = tally.written_beside(call);
        println!("{words} that move students and leave others {}", tally.mixed(call));
        println!("stable matchings beside {words} {beside}");
        println!("stable matchings beside {words} that move students whom these leave {leaving}");
    }
    for (words, call) in ["repairs of two pairs", "weighted repairs of two pairs"].iter().zip(REPAIRS) {
        let [beside, leaving] = tally.pairs.beside(call);
        println!("{words} that move students and leave others {}", tally.pairs.mixed(call));
        println!("stable matchings beside {words} {beside}");
        println!("stable matchings beside {words} that move students whom these leave {leaving}");
    }
}

/// What was never met in an edition; whether there is such.
pub fn missing(edition: Edition, tally: &Tally) -> bool {
    let missing = tally.missing(edition);
    for what in &missing {
        println!("never met in edition {edition:?}: {what}");
    }
    !missing.is_empty()
}
