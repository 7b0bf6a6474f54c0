//! The list bytes of a book, 2 × n × n of them, men's lists first: every book by number, and drawn ones.

use crate::draw::{factorial, permutation, Draw};

/// How many books of n there are: n! lists for each of 2 × n people.
pub fn books(n: usize) -> usize {
    factorial(n).pow(2 * n as u32)
}

/// The lists of book number k of n: each digit of k to the base n! is the number of a list.
pub fn numbered(n: usize, k: usize) -> Vec<u8> {
    let mut rest = k;
    let mut lists = Vec::new();
    for _ in 0..2 * n {
        lists.extend(permutation(n, rest % factorial(n)));
        rest /= factorial(n);
    }
    lists
}

/// How lists are drawn.
#[derive(Clone, Copy)]
pub enum Kind {
    /// At random.
    Random,
    /// Man i ranks woman w by w − i modulo n, and she him by the contrary: n stable matchings.
    Cyclic,
    /// Man i ranks woman w by the exclusive or of i and w, and she him by the contrary: 10, 12 and 32 stable
    /// matchings for n = 4, 5 and 6.
    Xor,
}

/// All kinds.
pub const KINDS: [Kind; 3] = [Kind::Random, Kind::Cyclic, Kind::Xor];

impl Kind {
    /// The list of man x before the women have their numbers.
    fn man_list(self, n: usize, x: usize, draw: &mut Draw) -> Vec<u8> {
        match self {
            Kind::Random => permutation(n, draw.next()),
            Kind::Cyclic => cyclic(n, x),
            Kind::Xor => xor(n, x),
        }
    }

    /// The list of woman x before the men have their numbers: that by which she ranks each man by the contrary.
    fn woman_list(self, n: usize, x: usize, draw: &mut Draw) -> Vec<u8> {
        match self {
            Kind::Random => permutation(n, draw.next()),
            Kind::Cyclic => cyclic(n, x + 1),
            Kind::Xor => xor(n, x ^ 7),
        }
    }
}

/// The numbers below n as a cycle, from x on.
fn cyclic(n: usize, x: usize) -> Vec<u8> {
    (0..n).map(|k| ((x + k) % n) as u8).collect()
}

/// The numbers below n, at most 8, in the order of their exclusive or with x.
fn xor(n: usize, x: usize) -> Vec<u8> {
    (0..8).map(|k| x ^ k).filter(|&number| number < n).map(|number| number as u8).collect()
}

/// Draws the lists of a kind for n from 1 to 6: those of the kind, with the people renumbered and some neighbours
/// exchanged.
pub fn drawn(kind: Kind, n: usize, draw: &mut Draw) -> Vec<u8> {
    let men = permutation(n, draw.next());
    let women = permutation(n, draw.next());
    let mut lists = vec![0; 2 * n * n];
    let mut put = |person: usize, list: Vec<u8>, names: &[u8]| {
        for (place, &entry) in list.iter().enumerate() {
            lists[person * n + place] = names[usize::from(entry)];
        }
    };
    for (x, &man) in men.iter().enumerate() {
        put(usize::from(man), kind.man_list(n, x, draw), &women);
    }
    for (x, &woman) in women.iter().enumerate() {
        put(n + usize::from(woman), kind.woman_list(n, x, draw), &men);
    }
    exchange_neighbours(&mut lists, n, draw);
    lists
}

/// Exchanges neighbours in a list up to five times; place 0, which has none before it, stays.
fn exchange_neighbours(lists: &mut [u8], n: usize, draw: &mut Draw) {
    for _ in 0..draw.below(6) {
        let (side, person, place) = (draw.below(2), draw.below(n), draw.below(n));
        if place > 0 {
            let at = (side * n + person) * n + place;
            lists.swap(at, at - 1);
        }
    }
}

#[cfg(test)]
mod tests {
    use super::*;
    use listing::asked::Asked;

    /// How many stable matchings the lists of a kind have before anybody is renumbered.
    fn stable_matchings(kind: Kind, n: usize) -> usize {
        let mut draw = Draw::after(1);
        let mut lists: Vec<u8> = (0..n).flat_map(|x| kind.man_list(n, x, &mut draw)).collect();
        lists.extend((0..n).flat_map(|x| kind.woman_list(n, x, &mut draw)));
        let book = listing::book::write(n, &lists, 122).expect("lists that break no rule");
        Asked::new(&book).listing().stable().len()
    }

    /// The kinds have the stable matchings that are said of them.
    #[test]
    fn kinds_have_many_stable_matchings() {
        assert_eq!([4, 5, 6].map(|n| stable_matchings(Kind::Cyclic, n)), [4, 5, 6]);
        assert_eq!([4, 5, 6].map(|n| stable_matchings(Kind::Xor, n)), [10, 12, 32]);
    }
}
