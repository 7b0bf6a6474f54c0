//! Repairs of two pairs at one go (W-207), by closed subsets. S is that of the given matching and (m, w) one of its
//! pairs.
//! - Man m ends better off: S without the rotation that produces (m, w) and those that it precedes.
//! - He ends worse off: S with the rotation that eliminates (m, w) and those that precede it.
//!
//! A sort has a letter for each of the two men, U for better off and D for worse off. Its candidate is S with the
//! changes for both men. The sort is empty exactly where one of the two rotations is missing or the changed set is not
//! closed: a stable matching of the sort lacks what is taken out and holds what is taken in, so that nothing taken out
//! precedes anything taken in. Where the set is closed both men end as the sort says, since the rotations of one man
//! precede one another.

use crate::instance::Instance;
use crate::matching::{Matching, Partners};
use crate::poset::Poset;
use crate::repair::Answer;
use crate::weights::Weights;

/// The sorts, each by its letters; at equal totals the first is taken.
const SORTS: [[u8; 2]; 4] = [*b"UU", *b"UD", *b"DU", *b"DD"];

/// The answer for the pairs of two men, who are not the same, with the repaired matching: of the candidates the one
/// that moves the smallest total weight. The pairs are fixed where there is no candidate.
pub fn answer(
    instance: &Instance,
    poset: &Poset,
    given: &Matching,
    men: [u8; 2],
    weights: &Weights,
) -> (Answer, Partners) {
    let inside: Vec<bool> = (0..poset.count()).map(|r| poset.is_eliminated(instance, given, r)).collect();
    let candidate = |sort: [u8; 2]| {
        let women = poset.matching(&changed_set(poset, &inside, men, sort)?);
        let moved = (0..instance.n).filter(|&m| women[m] != given.woman[m]).fold(0, |set, m| set | 1 << m);
        Some((Answer::Two(sort, weights.total(moved)), women))
    };
    let candidates = SORTS.into_iter().filter_map(candidate);
    candidates.min_by_key(|(answer, _)| answer.total()).unwrap_or((Answer::Fixed, given.woman))
}

/// The closed subset with the changes for both men, one byte 0 or 1 a rotation; none where the sort is empty.
fn changed_set(poset: &Poset, inside: &[bool], men: [u8; 2], sort: [u8; 2]) -> Option<Vec<u8>> {
    let first = changes(poset, inside, men[0], sort[0])?;
    let second = changes(poset, inside, men[1], sort[1])?;
    let set: Vec<u8> = (0..poset.count()).map(|r| (inside[r] != (first[r] || second[r])) as u8).collect();
    poset.is_closed(&set).then_some(set)
}

/// The rotations that change sides for a man; none where no rotation produces, or eliminates, his pair.
fn changes(poset: &Poset, inside: &[bool], man: u8, letter: u8) -> Option<Vec<bool>> {
    if letter == b'U' {
        taken_out(poset, inside, man)
    } else {
        taken_in(poset, inside, man)
    }
}

/// The last rotation of a man inside, and those inside that it precedes.
fn taken_out(poset: &Poset, inside: &[bool], man: u8) -> Option<Vec<bool>> {
    let produces = (0..poset.count()).rev().find(|&r| inside[r] && moves(poset, r, man))?;
    let mut taken = vec![false; poset.count()];
    taken[produces] = true;
    for r in (produces + 1..poset.count()).filter(|&r| inside[r]) {
        taken[r] = poset.before(r).iter().any(|&b| taken[b as usize]);
    }
    Some(taken)
}

/// The first rotation of a man outside, and those outside that precede it.
fn taken_in(poset: &Poset, inside: &[bool], man: u8) -> Option<Vec<bool>> {
    let eliminates = (0..poset.count()).find(|&r| !inside[r] && moves(poset, r, man))?;
    let mut taken = vec![false; poset.count()];
    taken[eliminates] = true;
    for r in (0..=eliminates).rev() {
        if taken[r] {
            poset.before(r).iter().for_each(|&b| taken[b as usize] = !inside[b as usize]);
        }
    }
    Some(taken)
}

/// Whether a rotation moves a man.
fn moves(poset: &Poset, r: usize, man: u8) -> bool {
    poset.rotation(r).iter().any(|pair| pair.man == man)
}
