//! Questions to books of edition 2 alone: matchings whose pairs do not list each other, lists of which one entry is
//! not returned, and directories that are wrong.

use crate::both::Both;
use crate::damage;
use crate::sound::{with, Sound};
use independent::matching::ALONE;
use independent::random::Random;
use independent::short_samples::{self, Lists};

impl Sound {
    /// Matchings that break 19, 10 or nothing: two who are alone, who do not list each other, put together, also
    /// where a later byte is a clash; a pair parted; nobody placed; mentors in any order, with some students alone.
    pub fn ask_unlisted(&self, both: &mut Both) {
        let stable = &self.poset.optimal[..self.n];
        let mut bad = vec![vec![ALONE; self.n]];
        if let Some(man) = self.alone().next() {
            let woman = (0..self.n as u8).find(|woman| !stable.contains(woman)).expect("as many women are alone");
            let unlisted = with(stable, man, woman);
            bad.extend([with(&unlisted, self.n - 1, self.n as u8), unlisted]);
        }
        if self.n > 0 {
            let (man, other) = (both.random.below(self.n), both.random.below(self.n));
            bad.push(with(stable, man, ALONE));
            let mut exchanged = stable.to_vec();
            exchanged.swap(man, other);
            bad.push(exchanged);
        }
        let order = both.random.order(self.n);
        bad.push(order.into_iter().map(|woman| if both.random.once_in(3) { ALONE } else { woman }).collect());
        for matching in bad {
            self.ask_bad_matching(both, &matching);
        }
    }
}

/// Books of the lists with some change that makes them one-sided, too long or wrongly divided, one or two of these.
pub fn ask_damaged(both: &mut Both, sound: &Sound, lists: &Lists) {
    let optimal = sound.poset.optimal[..sound.n].to_vec();
    for _ in 0..if sound.n > 0 { 6 } else { 0 } {
        let mut changed = lists.clone();
        for _ in 0..1 + both.random.below(2) {
            change(&mut changed, &mut both.random);
        }
        let book = short_samples::book(&changed);
        damage::ask_all(both, sound, &book, &optimal);
        let moved = moved(&book, &mut both.random);
        damage::ask_all(both, sound, &moved, &optimal);
    }
}

/// Changes one list: an entry less, one more, another one, one twice, or n + 1 entries.
fn change(lists: &mut Lists, random: &mut Random) {
    let (n, person) = (lists.len() / 2, random.below(lists.len()));
    let list = &mut lists[person];
    let (at, entry) = (random.below(list.len() + 1), random.below(n) as u8);
    match random.below(5) {
        0 => list.truncate(at),
        1 => list.insert(at, entry),
        2 if at < list.len() => list[at] = entry,
        3 if !list.is_empty() => list.push(list[0]),
        4 => list.resize(n + 1, entry),
        _ => {}
    }
}

/// A book in which, from some directory pair on, every offset is one more or one less, or one length is another.
fn moved(book: &[u8], random: &mut Random) -> Vec<u8> {
    let mut moved = book.to_vec();
    let pairs = 2 * book[1] as usize;
    let first = random.below(pairs);
    let last = if random.once_in(2) { pairs } else { first + 1 };
    let (field, more) = (2 * random.below(2), [1, u16::MAX][random.below(2)]);
    for pair in first..if field == 0 { last } else { first + 1 } {
        let at = 2 + 4 * pair + field;
        let word = u16::from_le_bytes([book[at], book[at + 1]]).wrapping_add(more);
        moved[at..at + 2].copy_from_slice(&word.to_le_bytes());
    }
    moved
}
