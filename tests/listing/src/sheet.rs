//! The sheet of a book and a matching, as the sheet program prints it, and the weighted sheet.

use crate::asked::Asked;
use crate::book;
use crate::matching::Matching;
use crate::people::Man;
use crate::weights::Weights;
use std::fmt::Write;

/// The book of a sheet's input and what follows: "Bytes past the book's size are the matching."
pub fn parts(input: &[u8]) -> (&[u8], &[u8]) {
    match input {
        [_, n, ..] if usize::from(*n) <= book::LARGEST => {
            input.split_at(book::bytes_of_the_book(usize::from(*n), input).min(input.len()))
        }
        _ => (input, &[]),
    }
}

/// The book, the matching and the weights of a weighted sheet's input: "its weights follow the matching". The first n
/// bytes past the book are the matching, or all where there are fewer.
pub fn weighted_parts(input: &[u8]) -> (&[u8], &[u8], &[u8]) {
    let (book, rest) = parts(input);
    let n = book.get(1).map_or(0, |&n| usize::from(n));
    let (matching, weights) = rest.split_at(n.min(rest.len()));
    (book, matching, weights)
}

/// The sheet: every weight is 1.
pub fn text(input: &[u8]) -> String {
    let (book, matching) = parts(input);
    let asked = Asked::new(book);
    printed(&asked, matching, &asked.ones())
}

/// The weighted sheet.
pub fn weighted_text(input: &[u8]) -> String {
    let (book, matching, weights) = weighted_parts(input);
    printed(&Asked::new(book), matching, weights)
}

/// What is printed of a matching with weights: "A refusal prints `refused`, a space and its number alone."
pub(crate) fn printed(asked: &Asked, matching: &[u8], weights: &[u8]) -> String {
    match asked.weighed(matching, weights) {
        Ok((given, weights)) => lines(asked, &given, weights),
        Err(refusal) => format!("refused {}\n", refusal.number),
    }
}

/// The lines: "The first line becomes n, rotations, number of fixed pairs, grade. The grade is `-` when no pair can be
/// repaired" (W-204). "Then student, mentor, letter (U up, D down, F fixed) and distance, 0 for F. One space parts
/// fields; a line feed ends a line." For a student without a mentor the "line shows `-`, `N` and 0".
fn lines(asked: &Asked, given: &Matching, weights: Weights) -> String {
    let listing = asked.listing();
    let n = listing.lists.n();
    let grade = listing.grade(given, weights).map_or("-".to_string(), |grade| grade.to_string());
    let mut text = format!("{n} {} {} {grade}\n", listing.rotations().len(), listing.fixed_count(given));
    for man in Man::all(n) {
        let line = match given.woman_of(man) {
            Some(woman) => {
                let answer = listing.answer(given, man, weights);
                format!("{} {} {}", woman.0, answer.letter(), answer.total())
            }
            None => "- N 0".to_string(),
        };
        writeln!(text, "{} {line}", man.0).expect("a string takes every line");
    }
    text
}
