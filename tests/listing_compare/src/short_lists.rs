//! Lists of a book of edition 2, one for each of n men and then for each of n women: every choice of them by number,
//! and drawn ones, in which whoever is listed lists in turn.

use crate::draw::{permutation, Draw};
use crate::lists::{self, Kind};

/// The book of edition 2 of 2 × n lists, whatever they hold.
pub fn book(lists: &[Vec<u8>]) -> Vec<u8> {
    let mut book = vec![2, (lists.len() / 2) as u8];
    let mut offset = 2 + 4 * lists.len();
    for list in lists {
        book.extend((offset as u16).to_le_bytes());
        book.extend((list.len() as u16).to_le_bytes());
        offset += list.len();
    }
    book.extend(lists.concat());
    book
}

/// All lists of numbers below n, of every length, that hold none twice.
fn arrangements(n: usize) -> Vec<Vec<u8>> {
    let mut all = vec![vec![]];
    let mut at = 0;
    while at < all.len() {
        for entry in 0..n as u8 {
            if !all[at].contains(&entry) {
                all.push([&all[at][..], &[entry]].concat());
            }
        }
        at += 1;
    }
    all
}

/// Every choice of a list for each of 2 × n people, with entries that are returned and ones that are not.
pub fn every(n: usize) -> impl Iterator<Item = Vec<Vec<u8>>> {
    let all = arrangements(n);
    let choices = all.len().pow(2 * n as u32);
    let list = move |choice: usize, person: usize| all[choice / all.len().pow(person as u32) % all.len()].clone();
    (0..choices).map(move |choice| (0..2 * n).map(|person| list(choice, person)).collect())
}

/// How short lists are drawn.
#[derive(Clone, Copy)]
pub enum Way {
    /// From full lists, of which each pair stays or goes.
    Sparse,
    /// From full lists: the first mentors on each man's list stay, the same number for all.
    Cut,
    /// From full lists of fewer people, to whom one or two outsiders a side are added.
    Outsiders,
}

/// The ways in turn: in three of five books there are outsiders, since these have both rotations and people alone.
pub const WAYS: [Way; 5] = [Way::Sparse, Way::Cut, Way::Outsiders, Way::Outsiders, Way::Outsiders];

/// Draws lists for n from 3 to 6. In the end people are renumbered, and up to two pairs taken away.
pub fn drawn(kind: Kind, way: Way, n: usize, draw: &mut Draw) -> Vec<Vec<u8>> {
    let lists = match way {
        Way::Sparse => {
            let lists = full(kind, n, draw);
            let stays: Vec<bool> = (0..n * n).map(|_| draw.below(2) == 0).collect();
            with_pairs(&lists, |man, woman| stays[man * n + woman])
        }
        Way::Cut => {
            let lists = full(kind, n, draw);
            let most = 1 + draw.below(n - 1);
            with_pairs(&lists, |man, woman| lists[man][..most].contains(&(woman as u8)))
        }
        Way::Outsiders => with_outsiders(kind, n, draw),
    };
    let mut lists = renumbered(&lists, draw);
    for _ in 0..draw.below(3) {
        take_a_pair(&mut lists, draw);
    }
    lists
}

/// Full lists of a kind, one for each person.
fn full(kind: Kind, n: usize, draw: &mut Draw) -> Vec<Vec<u8>> {
    lists::drawn(kind, n, draw).chunks(n).map(<[u8]>::to_vec).collect()
}

/// The lists without the pairs that do not stay.
fn with_pairs(lists: &[Vec<u8>], stays: impl Fn(usize, usize) -> bool) -> Vec<Vec<u8>> {
    let n = lists.len() / 2;
    let of_man = |man: usize| lists[man].iter().copied().filter(|&woman| stays(man, usize::from(woman))).collect();
    let of_woman =
        |woman: usize| lists[n + woman].iter().copied().filter(|&man| stays(usize::from(man), woman)).collect();
    (0..n).map(of_man).chain((0..n).map(of_woman)).collect()
}

/// Adds outsiders to full lists of fewer people. Each of these and an outsider of the other side list each other or
/// not; he stands anywhere on her list, and mostly at the end, and she anywhere on his.
fn with_outsiders(kind: Kind, n: usize, draw: &mut Draw) -> Vec<Vec<u8>> {
    let core = n - 1 - draw.below(2).min(n - 3);
    let inner = full(kind, core, draw);
    let mut lists = vec![vec![]; 2 * n];
    for person in 0..core {
        lists[person] = inner[person].clone();
        lists[n + person] = inner[core + person].clone();
    }
    for (own, other) in [(0, n), (n, 0)] {
        for outsider in core..n {
            for person in 0..core {
                if draw.below(2) == 0 {
                    let end = lists[other + person].len();
                    let at = if draw.below(4) == 0 { draw.below(end + 1) } else { end };
                    lists[other + person].insert(at, outsider as u8);
                    let at = draw.below(lists[own + outsider].len() + 1);
                    lists[own + outsider].insert(at, person as u8);
                }
            }
        }
    }
    lists
}

/// The same lists where people have other numbers.
fn renumbered(lists: &[Vec<u8>], draw: &mut Draw) -> Vec<Vec<u8>> {
    let n = lists.len() / 2;
    let names = [permutation(n, draw.next()), permutation(n, draw.next())];
    let mut new = vec![vec![]; 2 * n];
    for side in 0..2 {
        for person in 0..n {
            let list = &lists[side * n + person];
            let named = list.iter().map(|&other| names[1 - side][usize::from(other)]).collect();
            new[side * n + usize::from(names[side][person])] = named;
        }
    }
    new
}

/// Takes a pair away, unless the man drawn lists nobody.
fn take_a_pair(lists: &mut [Vec<u8>], draw: &mut Draw) {
    let n = lists.len() / 2;
    let man = draw.below(n);
    if !lists[man].is_empty() {
        let at = draw.below(lists[man].len());
        let woman = lists[man].remove(at);
        lists[n + usize::from(woman)].retain(|&other| usize::from(other) != man);
    }
}

#[cfg(test)]
mod tests {
    use super::*;
    use crate::lists::KINDS;
    use listing::asked::Asked;

    /// How many of the books break no rule, and how many are one-sided.
    fn sound_and_one_sided(books: impl Iterator<Item = Vec<Vec<u8>>>) -> (usize, usize) {
        let mut counts = (0, 0);
        for lists in books {
            match Asked::new(&book(&lists)).check_book() {
                Ok(_) => counts.0 += 1,
                Err(refusal) if refusal.number == 18 => counts.1 += 1,
                Err(refusal) => panic!("{lists:?} breaks rule {}", refusal.number),
            }
        }
        counts
    }

    /// Of pairs on both lists there are 47 choices where n = 2: 1 without any, 4 with one, 10 with two, 16 with three
    /// and 16 with all four, by the orders of the lists.
    #[test]
    fn every_choice_of_lists() {
        let counts = [0, 1, 2].map(|n| sound_and_one_sided(every(n)));
        assert_eq!(counts, [(1, 0), (2, 2), (47, 578)]);
    }

    /// Drawn lists break no rule.
    #[test]
    fn drawn_lists_are_sound() {
        let mut draw = Draw::after(1);
        for n in 3..=6 {
            for kind in KINDS {
                for way in WAYS {
                    let books = (0..50).map(|_| drawn(kind, way, n, &mut draw)).collect::<Vec<_>>();
                    assert_eq!(sound_and_one_sided(books.into_iter()), (50, 0));
                }
            }
        }
    }
}
