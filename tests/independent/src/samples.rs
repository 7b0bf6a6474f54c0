//! Books to try. Lists are 2n^2 bytes, the men's lists and then the women's. Random lists have few stable matchings;
//! where women rank men in the order opposed to the men's own there are many.

use crate::book;
use crate::random::Random;

/// Table 1 of document 000.
pub const TABLE_1: [&str; 14] = [
    "0652413", "6145023", "6031542", "3201465", "1203456", "6103542", "2506431", "2164530", "0435261", "2504316",
    "6123405", "4605312", "3126540", "4621305",
];

/// Lists written as one digit an entry.
pub fn digits(rows: &[&str]) -> Vec<u8> {
    rows.iter().flat_map(|row| row.bytes().map(|digit| digit - b'0')).collect()
}

/// The book of lists that are well formed.
pub fn book(n: usize, lists: &[u8]) -> Vec<u8> {
    let mut book = vec![0; book::size(n)];
    book::write(n, lists, &mut book).expect("lists that name everyone once");
    book
}

/// Every list in random order.
pub fn random(n: usize, random: &mut Random) -> Vec<u8> {
    (0..2 * n).flat_map(|_| random.order(n)).collect()
}

/// Man i ranks woman w at `level(i, w)`, and she ranks him at n - 1 less that. `level` has to be a latin square.
/// Each level is a stable matching.
pub fn opposed(n: usize, level: impl Fn(usize, usize) -> usize) -> Vec<u8> {
    let mut lists = vec![0; 2 * n * n];
    for i in 0..n {
        for w in 0..n {
            lists[i * n + level(i, w)] = w as u8;
            lists[n * n + w * n + n - 1 - level(i, w)] = i as u8;
        }
    }
    lists
}

/// Man i lists i, i + 1, and so on round; n - 1 rotations of n pairs, one after the other.
pub fn cyclic(n: usize) -> Vec<u8> {
    opposed(n, |i, w| (w + n - i) % n)
}

/// Man i lists i xor 0, i xor 1, and so on, woman w lists w xor (n - 1) down to w; n is a power of two.
/// Each of the n - 1 steps takes n / 2 rotations of two pairs: n(n - 1) / 2 in all, the largest number there can be.
pub fn xor(n: usize) -> Vec<u8> {
    opposed(n, |i, w| i ^ w)
}

/// Lists that take the most proposals there can be, n(n - 1) + 1: man i lists i, i + 1, and so on round among the women
/// below n - 1, man n - 1 as man 0, and each ends with woman n - 1; woman w lists w + 1, w + 2, and so on round all men.
/// One man ends at the last place of his list and each other at the last but one. n is at least 2.
pub fn hardest(n: usize) -> Vec<u8> {
    let men = (0..n).flat_map(|i| (0..n - 1).map(move |j| (i % (n - 1) + j) % (n - 1)).chain([n - 1]));
    let women = (0..n).flat_map(|w| (0..n).map(move |j| (w + 1 + j) % n));
    men.chain(women).map(|person| person as u8).collect()
}

/// The cyclic or the xor lists with the levels in random order.
pub fn latin(n: usize, random: &mut Random) -> Vec<u8> {
    let levels = random.order(n);
    if n.is_power_of_two() && random.once_in(2) {
        opposed(n, |i, w| levels[i ^ w] as usize)
    } else {
        opposed(n, |i, w| levels[(w + n - i) % n] as usize)
    }
}

/// Several markets in one: people are in groups of up to `width`, and each ranks the own group first, by cyclic
/// lists, and then the others in random order.
pub fn groups(n: usize, width: usize, random: &mut Random) -> Vec<u8> {
    let mut lists = Vec::with_capacity(2 * n * n);
    for side in 0..2 {
        for i in 0..n {
            let start = i - i % width;
            let size = width.min(n - start);
            let own = (0..size).map(|k| start + (i - start + k + side) % size);
            let mut others: Vec<u8> =
                (0..n as u8).filter(|&j| (j as usize) < start || start + size <= j as usize).collect();
            random.shuffle(&mut others);
            lists.extend(own.map(|j| j as u8).chain(others));
        }
    }
    lists
}

/// Exchanges two neighbours on some list, `times` times.
pub fn perturb(n: usize, lists: &mut [u8], times: usize, random: &mut Random) {
    for _ in 0..if n < 2 { 0 } else { times } {
        let at = random.below(2 * n) * n + random.below(n - 1);
        lists.swap(at, at + 1);
    }
}

/// The same market with men and women numbered in another way.
pub fn renamed(n: usize, lists: &[u8], random: &mut Random) -> Vec<u8> {
    let names = [random.order(n), random.order(n)];
    let mut new = vec![0; 2 * n * n];
    for side in 0..2 {
        for i in 0..n {
            let (from, to) = (side * n * n + i * n, side * n * n + names[side][i] as usize * n);
            for k in 0..n {
                new[to + k] = names[1 - side][lists[from + k] as usize];
            }
        }
    }
    new
}

/// Lists of some kind: about a sixth random, the others with many stable matchings, many of them perturbed and renamed.
pub fn any(n: usize, source: &mut Random) -> Vec<u8> {
    let mut lists = match source.below(6) {
        0 => random(n, source),
        1 => cyclic(n),
        2 if n.is_power_of_two() => xor(n),
        3 => {
            let width = 2 + source.below(n.max(3) - 1);
            groups(n, width, source)
        }
        _ => latin(n, source),
    };
    if source.once_in(2) {
        let times = 1 + source.below(2 * n + 1);
        perturb(n, &mut lists, times, source);
    }
    if source.once_in(2) {
        lists = renamed(n, &lists, source);
    }
    lists
}
