//! Books of which the definitions say everything: each book of a small size, and samples of larger ones.

use super::book::first_broken;
use super::rotations::Rotation;
use super::{short_lists, Market, Matching};
use independent::{samples, short_samples};

/// A book with all that the definitions say of it.
pub struct Known {
    pub book: Vec<u8>,
    pub market: Market,
    pub stable: Vec<Matching>,
    pub rotations: Vec<Rotation>,
}

impl Known {
    /// The book of edition 1 of 2n^2 list bytes.
    pub fn new(n: usize, lists: &[u8]) -> Known {
        Known::of(samples::book(n, lists), Market::new(false, &short_samples::full(n, lists)))
    }

    /// The book of edition 2 of 2n lists.
    pub fn short(lists: &[Vec<u8>]) -> Known {
        Known::of(short_samples::book(lists), Market::new(true, lists))
    }

    fn of(book: Vec<u8>, market: Market) -> Known {
        let stable = market.stable_matchings();
        let rotations = market.numbered(market.best_for_men(&stable).unwrap());
        Known { book, market, stable, rotations }
    }

    pub fn optimal(&self) -> &Matching {
        self.market.best_for_men(&self.stable).unwrap()
    }

    /// Whether some man is alone.
    pub fn somebody_alone(&self) -> bool {
        self.optimal().contains(&None)
    }
}

/// Every choice of one of these lists for each of 2n people.
fn every_choice(n: usize, lists: Vec<Vec<u8>>) -> impl Iterator<Item = Vec<Vec<u8>>> {
    let choices = lists.len().pow(2 * n as u32);
    let list = move |k: usize, person: usize| lists[k / lists.len().pow(person as u32) % lists.len()].clone();
    (0..choices).map(move |k| (0..2 * n).map(|person| list(k, person)).collect())
}

/// Every book of edition 1 of n men.
pub fn every_book(n: usize) -> impl Iterator<Item = Known> {
    let full = short_lists(n).into_iter().filter(|list| list.len() == n).collect();
    every_choice(n, full).map(move |lists| Known::new(n, &lists.concat()))
}

/// Every well-formed book of edition 2 of n men.
pub fn every_short_book(n: usize) -> impl Iterator<Item = Known> {
    let two_sided = |lists: &Vec<Vec<u8>>| first_broken(&short_samples::book(lists)).is_none();
    every_choice(n, short_lists(n)).filter(two_sided).map(|lists| Known::short(&lists))
}
