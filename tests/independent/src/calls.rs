//! The functions of include/placement.h, over slices. Each answers as the header says: rules in its order, nothing
//! written on a refusal, nothing past the result.

use crate::book;
use crate::gale_shapley;
use crate::instance::{self, Instance};
use crate::matching::{self, Matching, Partners, ALONE};
use crate::moves;
use crate::pairs;
use crate::poset::Poset;
use crate::repair::{self, Answer, Repairs};
use crate::reply::{refused, reply, rule, Checked, Reply, NO_GRADE};
use crate::sheet;
use crate::weights::{self, Weights};

pub fn check_book(book: &[u8]) -> Reply {
    reply(|| book::check(book))
}

pub fn book_size(n: usize) -> Reply {
    reply(|| rule(n > book::LARGEST, 3, 1).map(|()| book::size(n)))
}

pub fn write_book(n: usize, lists: &[u8], out: &mut [u8]) -> Reply {
    reply(|| book::write(n, lists, out))
}

pub fn student_list(book: &[u8], student: usize) -> Reply {
    person(book::list_offset(book, false, student))
}

pub fn mentor_list(book: &[u8], mentor: usize) -> Reply {
    person(book::list_offset(book, true, mentor))
}

/// The reply of a list: its offset as the place, its length as the value.
fn person(list: Checked<(usize, usize)>) -> Reply {
    match list {
        Ok((offset, length)) => Reply { place: offset as usize, ..Reply::value(length) },
        Err(refusal) => refusal.into(),
    }
}

pub fn check_matching(book: &[u8], matching: &[u8]) -> Reply {
    reply(|| matching::stable(&instance::read(book)?, matching).map(|_| 0))
}

pub fn student_best(book: &[u8], out: &mut [u8]) -> Reply {
    reply(|| {
        let instance = instance::read(book)?;
        lend(out, instance.n, |out| out.copy_from_slice(&gale_shapley::man_optimal(&instance).woman[..instance.n]))
    })
}

pub fn mentor_best(book: &[u8], out: &mut [u8]) -> Reply {
    reply(|| {
        let instance = instance::read(book)?;
        lend(out, instance.n, |out| out.copy_from_slice(&gale_shapley::woman_optimal(&instance).woman[..instance.n]))
    })
}

/// Rule 14, then the result of `size` bytes; answers with the size.
fn lend(out: &mut [u8], size: usize, write: impl FnOnce(&mut [u8])) -> Checked<usize> {
    rule(out.len() < size, 14, 0)?;
    write(&mut out[..size]);
    Ok(size)
}

pub fn repair(book: &[u8], matching: &[u8], request: &[u8], out: &mut [u8], gains: &mut [i8]) -> Reply {
    weighted_repair(book, matching, weights::ones(book), request, out, gains)
}

pub fn weighted_repair(
    book: &[u8],
    matching: &[u8],
    weights: &[u8],
    request: &[u8],
    out: &mut [u8],
    gains: &mut [i8],
) -> Reply {
    answered(book, matching, weights, Asking::Pairs(request), out, gains)
}

pub fn repair_mentor(book: &[u8], matching: &[u8], mentor: u8, out: &mut [u8], gains: &mut [i8]) -> Reply {
    weighted_repair_mentor(book, matching, weights::ones(book), mentor, out, gains)
}

pub fn weighted_repair_mentor(
    book: &[u8],
    matching: &[u8],
    weights: &[u8],
    mentor: u8,
    out: &mut [u8],
    gains: &mut [i8],
) -> Reply {
    answered(book, matching, weights, Asking::Woman(mentor), out, gains)
}

/// How a pair is asked about: by a request, which may be for two pairs, or by its woman's number.
#[derive(Clone, Copy)]
enum Asking<'a> {
    Pairs(&'a [u8]),
    Woman(u8),
}

impl Asking<'_> {
    /// The men of both pairs, of one pair its man twice: 13 for a request, then 11, 12 on each pair in turn. A woman's
    /// man is looked for among the given bytes.
    fn men(self, n: usize, given: &[u8]) -> Checked<[u8; 2]> {
        match self {
            Asking::Pairs(request) => {
                rule(request.len() != 2 && request.len() != 4, 13, 0)?;
                for pair in request.chunks(2) {
                    let (man, woman) = (pair[0], pair[1]);
                    rule(man as usize >= n || woman as usize >= n, 11, 0)?;
                    rule(given[man as usize] != woman, 12, 0)?;
                }
                Ok([request[0], request[request.len() - 2]])
            }
            Asking::Woman(woman) => {
                rule(woman as usize >= n, 11, 0)?;
                let man = given.iter().position(|&other| other == woman);
                man.map_or(Err(refused(12, 0)), |man| Ok([man as u8; 2]))
            }
        }
    }
}

/// The reply of a repair.
fn answered(book: &[u8], matching: &[u8], weights: &[u8], asking: Asking, out: &mut [u8], gains: &mut [i8]) -> Reply {
    match repaired(book, matching, weights, asking, out, gains) {
        Ok(answer) => Reply { letter: answer.letter(), ..Reply::value(answer.total()) },
        Err(refusal) => refusal.into(),
    }
}

fn repaired(
    book: &[u8],
    given: &[u8],
    weights: &[u8],
    asking: Asking,
    out: &mut [u8],
    gains: &mut [i8],
) -> Checked<Answer> {
    let instance = instance::read(book)?;
    let n = instance.n;
    let matching = matching::stable(&instance, given)?;
    let weights = Weights::read(n, weights)?;
    let men = asking.men(n, given)?;
    rule(out.len() < n || gains.len() < n, 14, 0)?;
    let (answer, women) = found(&instance, &matching, men, &weights);
    if answer != Answer::Fixed {
        out[..n].copy_from_slice(&women[..n]);
        for m in 0..n as u8 {
            let rank = |woman| if woman == ALONE { 0 } else { instance.men.rank(m, woman) as i8 };
            gains[m as usize] = rank(given[m as usize]) - rank(out[m as usize]);
        }
    }
    Ok(answer)
}

/// The answer for the pairs of two men, or for one pair where they are the same, with the repaired matching.
fn found(instance: &Instance, matching: &Matching, men: [u8; 2], weights: &Weights) -> (Answer, Partners) {
    let poset = Poset::of(instance);
    if men[0] != men[1] {
        return pairs::answer(instance, &poset, matching, men, weights);
    }
    let repairs = Repairs::of(instance, &poset, matching, 1 << men[0]);
    let answer = repairs.answer(men[0], weights);
    (answer, repairs.matching(matching, men[0], answer))
}

pub fn grade(book: &[u8], matching: &[u8]) -> Reply {
    weighted_grade(book, matching, weights::ones(book))
}

pub fn weighted_grade(book: &[u8], matching: &[u8], weights: &[u8]) -> Reply {
    reply(|| {
        let instance = instance::read(book)?;
        let matching = matching::stable(&instance, matching)?;
        let weights = Weights::read(instance.n, weights)?;
        let all = repair::all(&instance, &Poset::of(&instance), &matching, &weights);
        Ok(all.grade.unwrap_or(NO_GRADE))
    })
}

pub fn rotation_count(book: &[u8]) -> Reply {
    reply(|| Ok(Poset::of(&instance::read(book)?).count()))
}

pub fn rotations(book: &[u8], out: &mut [u8]) -> Reply {
    reply(|| {
        let poset = Poset::numbered(&instance::read(book)?);
        lend(out, poset.list_size(), |out| poset.write_list(out))?;
        Ok(poset.count())
    })
}

pub fn precedes(book: &[u8], first: usize, second: usize) -> Reply {
    reply(|| {
        let poset = Poset::numbered(&instance::read(book)?);
        rule(first >= poset.count() || second >= poset.count(), 11, 0)?;
        Ok(poset.precedes(first, second) as usize)
    })
}

pub fn set_to_matching(book: &[u8], set: &[u8], out: &mut [u8]) -> Reply {
    reply(|| {
        let instance = instance::read(book)?;
        let poset = Poset::numbered(&instance);
        rule(set.len() != poset.count() || set.iter().any(|&mark| mark > 1), 15, 0)?;
        rule(!poset.is_closed(set), 16, 0)?;
        lend(out, instance.n, |out| out.copy_from_slice(&poset.matching(set)[..instance.n]))
    })
}

pub fn matching_to_set(book: &[u8], matching: &[u8], out: &mut [u8]) -> Reply {
    reply(|| {
        let instance = instance::read(book)?;
        let matching = matching::stable(&instance, matching)?;
        let poset = Poset::numbered(&instance);
        lend(out, poset.count(), |out| {
            let marks = (0..out.len()).map(|r| poset.is_eliminated(&instance, &matching, r) as u8);
            out.iter_mut().zip(marks).for_each(|(byte, mark)| *byte = mark);
        })
    })
}

pub fn sheet(input: &[u8], out: &mut [u8]) -> Reply {
    lend_text(out, &sheet::text(input))
}

pub fn moves(input: &[u8], out: &mut [u8]) -> Reply {
    lend_text(out, &moves::text(input))
}

pub fn weighted_sheet(input: &[u8], out: &mut [u8]) -> Reply {
    lend_text(out, &sheet::weighted_text(input))
}

/// The reply of a sheet, which goes to the buffer.
fn lend_text(out: &mut [u8], text: &[u8]) -> Reply {
    reply(|| lend(out, text.len(), |out| out.copy_from_slice(text)))
}
