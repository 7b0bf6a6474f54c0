//! The sheet: n, rotations, fixed pairs, grade; then a line for each man. A refusal is printed by its number. The plain
//! sheet is the weighted one with weights of 1.

use crate::book;
use crate::instance;
use crate::matching;
use crate::poset::Poset;
use crate::repair;
use crate::reply::Checked;
use crate::weights::{self, Weights};

/// The text of the sheet of a book with a matching after it.
pub fn text(input: &[u8]) -> Vec<u8> {
    let (book, matching) = book::and_rest(input);
    printed(book, matching, weights::ones(book))
}

/// The text of the weighted sheet of a book with a matching of n bytes and then weights after it.
pub fn weighted_text(input: &[u8]) -> Vec<u8> {
    let (book, matching, weights) = weighted_parts(input);
    printed(book, matching, weights)
}

/// The book, the matching and the weights of a weighted sheet's input.
pub fn weighted_parts(input: &[u8]) -> (&[u8], &[u8], &[u8]) {
    let (book, rest) = book::and_rest(input);
    let n = book.get(1).map_or(0, |&n| n as usize);
    let (matching, weights) = rest.split_at(n.min(rest.len()));
    (book, matching, weights)
}

/// The sheet, or the line of the refusal.
fn printed(book: &[u8], given: &[u8], weights: &[u8]) -> Vec<u8> {
    let mut sheet = Vec::with_capacity(1024);
    if let Err(refusal) = write(book, given, weights, &mut sheet) {
        sheet.clear();
        sheet.extend_from_slice(b"refused ");
        number(&mut sheet, refusal.number as usize, b'\n');
    }
    sheet
}

/// Writes the sheet, or refuses.
fn write(book: &[u8], given: &[u8], weights: &[u8], sheet: &mut Vec<u8>) -> Checked<()> {
    let instance = instance::read(book)?;
    let matching = matching::stable(&instance, given)?;
    let weights = Weights::read(instance.n, weights)?;
    let poset = Poset::of(&instance);
    let all = repair::all(&instance, &poset, &matching, &weights);
    number(sheet, instance.n, b' ');
    number(sheet, poset.count(), b' ');
    number(sheet, all.fixed, b' ');
    match all.grade {
        Some(grade) => number(sheet, grade, b'\n'),
        None => sheet.extend_from_slice(b"-\n"),
    }
    for (man, answer) in all.answers.iter().enumerate() {
        number(sheet, man, b' ');
        let Some(answer) = answer else {
            sheet.extend_from_slice(b"- N 0\n");
            continue;
        };
        number(sheet, given[man] as usize, b' ');
        sheet.push(answer.letter() as u8);
        sheet.push(b' ');
        number(sheet, answer.total(), b'\n');
    }
    Ok(())
}

/// Writes a number in base ten, and what comes after it.
pub fn number(sheet: &mut Vec<u8>, value: usize, after: u8) {
    let mut ten = 1;
    while value / ten >= 10 {
        ten *= 10;
    }
    while ten > 0 {
        sheet.push(b'0' + (value / ten % 10) as u8);
        ten /= 10;
    }
    sheet.push(after);
}
