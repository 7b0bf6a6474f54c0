//! The sheet with moves: under the line of each man those whom the taken repair of his pair moves, each with his old
//! woman, his new one and the places gained.

use crate::book;
use crate::instance::{self, Instance};
use crate::matching::{self, Partners};
use crate::poset::Poset;
use crate::repair::Repairs;
use crate::reply::Checked;
use crate::sheet::{self, number};
use crate::weights::{self, Weights};

/// The text for a book with a matching after it. A refusal is printed as in the sheet.
pub fn text(input: &[u8]) -> Vec<u8> {
    let sheet = sheet::text(input);
    if sheet.starts_with(b"refused ") {
        return sheet;
    }
    let (book, given) = book::and_rest(input);
    let moved = moved(book, given).unwrap_or_default();
    let mut lines = sheet.split_inclusive(|&byte| byte == b'\n');
    let mut text = lines.next().unwrap_or(&[]).to_vec();
    for (line, under) in lines.zip(moved) {
        text.extend_from_slice(line);
        text.extend(under);
    }
    text
}

/// The lines under each man's own. Of a man who is alone and of a fixed pair the repaired matching is the given one.
fn moved(book: &[u8], given: &[u8]) -> Checked<Vec<Vec<u8>>> {
    let instance = instance::read(book)?;
    let matching = matching::stable(&instance, given)?;
    let weights = Weights::read(instance.n, weights::ones(book))?;
    let poset = Poset::of(&instance);
    let repairs = Repairs::of(&instance, &poset, &matching, u64::MAX);
    let under = |man: u8| {
        let answer = repairs.answer(man, &weights);
        let women = repairs.matching(&matching, man, answer);
        lines(&instance, given, &women)
    };
    Ok((0..instance.n as u8).map(under).collect())
}

/// A line for each man whom a matching moves.
fn lines(instance: &Instance, given: &[u8], women: &Partners) -> Vec<u8> {
    let mut lines = vec![];
    for man in 0..instance.n {
        let (old, new) = (given[man], women[man]);
        if old == new {
            continue;
        }
        let [old_place, new_place] = [old, new].map(|woman| instance.men.rank(man as u8, woman) as usize);
        lines.push(b' ');
        number(&mut lines, man, b' ');
        number(&mut lines, old.into(), b' ');
        number(&mut lines, new.into(), b' ');
        lines.push(if new_place < old_place { b'+' } else { b'-' });
        number(&mut lines, old_place.abs_diff(new_place), b'\n');
    }
    lines
}
