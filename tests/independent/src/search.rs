//! All rotations, found by following next women from the man-optimal matching, and the edges of the rotation poset
//! (Gusfield and Irving, sections 2.5 and 3.3). Both together take a number of steps of the order of n squared.
//!
//! The edges come from labels. When a rotation moves woman w up from man a to man b, she from then on refuses a and
//! every man between b and a on her list: these pairs get the rotation as their label. A rotation that moves man m
//! from one woman to another comes right after
//! - the rotation that moved m to the first of the two, and
//! - the label of each pair of m and a woman between the two: had she not moved, she would be his next woman.

use crate::groups::Groups;
use crate::instance::{Instance, UNLISTED};
use crate::matching::{Matching, Partners, ALONE};

/// No rotation.
const NONE: u16 = u16::MAX;

/// One pair of a rotation, the rank of the woman on the man's list, and the woman of the following pair.
#[repr(C, align(4))]
#[derive(Clone, Copy, Debug, PartialEq, Eq)]
pub struct Pair {
    pub man: u8,
    pub woman: u8,
    pub rank: u8,
    pub next: u8,
}

/// The rotations, each written from its lowest man, in an order in which they can be eliminated; and for each
/// the rotations that come right before it in the poset.
pub struct Found {
    pub rotations: Groups<Pair>,
    pub before: Groups<u16>,
}

/// A man on a path, and his next woman.
#[derive(Clone, Copy)]
struct Step {
    man: u8,
    next: u8,
}

/// The state of the search: a stable matching between the man-optimal and the woman-optimal one.
struct Search<'a> {
    instance: &'a Instance<'a>,
    /// The man of each woman, and his rank on her list; whoever a woman who is alone lists ranks above that.
    man: Partners,
    man_rank: [u8; 64],
    /// The rank of each man's woman, and the rank at which the search for his next woman goes on.
    rank: [u8; 64],
    next_rank: [u8; 64],
    /// The rotation that moved each man last.
    moved_by: [u16; 64],
    /// The rotation after which woman w refuses man m, at 64m + w.
    label: Vec<u16>,
    /// The rotation for which each was last recorded as coming right before it.
    recorded_for: Vec<u16>,
    /// The men who have reached their last woman, and those who are alone.
    done: u64,
    found: Found,
}

/// All rotations of an instance, from its man-optimal matching.
pub fn all(instance: &Instance, optimal: &Matching) -> Found {
    let mut search = Search::new(instance, optimal);
    for man in 0..instance.n as u8 {
        if search.done >> man & 1 == 0 {
            search.walk(man);
        }
    }
    search.found
}

impl<'a> Search<'a> {
    fn new(instance: &'a Instance<'a>, optimal: &Matching) -> Search<'a> {
        let n = instance.n;
        let found = Found { rotations: Groups::new(n * n, n * n / 2), before: Groups::new(n * n, n * n / 2) };
        let mut search = Search {
            instance,
            man: optimal.man,
            man_rank: [UNLISTED; 64],
            rank: [0; 64],
            next_rank: [0; 64],
            moved_by: [NONE; 64],
            label: vec![NONE; 64 * n],
            recorded_for: vec![NONE; n * n / 2],
            done: 0,
            found,
        };
        for m in 0..n as u8 {
            let w = optimal.woman[m as usize];
            if w == ALONE {
                search.done |= 1 << m;
                continue;
            }
            search.man_rank[w as usize] = instance.women.rank(w, m);
            search.rank[m as usize] = instance.men.rank(m, w);
            search.next_rank[m as usize] = instance.men.rank(m, w) + 1;
        }
        search
    }

    /// The first woman below the man's own who ranks him above her man, or is alone. A woman who has refused him
    /// refuses him for ever, so each search goes on where the last one ended.
    #[inline(always)]
    fn first_willing(&mut self, m: u8) -> Option<u8> {
        let list = self.instance.men.list(m);
        let next_rank = &mut self.next_rank[m as usize & 63];
        while let Some(&w) = list.get(*next_rank as usize) {
            if self.instance.women.rank(w, m) < self.man_rank[w as usize & 63] {
                return Some(w);
            }
            *next_rank += 1;
        }
        None
    }

    /// The man's next woman, if it is not known that he stays with his own. A woman who is alone ends the search:
    /// there is none. A man moves on only together with the man of his next woman.
    #[inline(always)]
    fn next_woman(&mut self, m: u8) -> Option<u8> {
        let w = self.first_willing(m)?;
        let follower = self.man[w as usize & 63];
        (follower != ALONE && self.done >> follower & 1 == 0).then_some(w)
    }

    /// Follows next women from a man until it is known that he has reached his last woman. A path that meets itself
    /// has found a rotation; it is eliminated, and the path goes on from the man before it. A path that ends ends for
    /// all men on it.
    fn walk(&mut self, start: u8) {
        let mut path = [Step { man: start, next: 0 }; 64];
        let mut place = [0u8; 64];
        let mut on_path = 0u64;
        let mut length = 0;
        let mut man = start;
        loop {
            on_path |= 1 << man;
            let Some(next) = self.next_woman(man) else {
                self.done |= on_path;
                return;
            };
            path[length & 63] = Step { man, next };
            place[man as usize & 63] = length as u8;
            length += 1;
            man = self.man[next as usize & 63];
            if on_path >> man & 1 == 1 {
                let from = place[man as usize & 63] as usize;
                self.eliminate(&path[from..length]);
                path[from..length].iter().for_each(|step| on_path &= !(1 << step.man));
                length = from.saturating_sub(1);
                man = path[length & 63].man;
            }
        }
    }

    /// Records and eliminates the rotation of these men, each of whom goes to the woman of the following one.
    fn eliminate(&mut self, cycle: &[Step]) {
        let number = self.found.rotations.count() as u16;
        let lowest = (0..cycle.len()).min_by_key(|&k| cycle[k].man).unwrap_or(0);
        let mut woman = cycle[if lowest == 0 { cycle.len() } else { lowest } - 1].next;
        for &Step { man, next } in cycle[lowest..].iter().chain(&cycle[..lowest]) {
            let rank = self.rank[man as usize & 63];
            self.found.rotations.push(Pair { man, woman, rank, next });
            self.record_before(man, number);
            woman = next;
        }
        self.found.rotations.close();
        self.found.before.close();
        cycle.iter().for_each(|step| self.move_on(step.man, step.next, number));
    }

    /// Records the rotations that must come before the one under way on a man's account.
    #[inline(always)]
    fn record_before(&mut self, m: u8, number: u16) {
        let i = m as usize & 63;
        self.record(self.moved_by[i], number);
        for at in self.rank[i] + 1..self.next_rank[i] {
            let w = self.instance.men.at(m, at);
            self.record(self.label[i << 6 | w as usize], number);
        }
    }

    /// Records, once, that `before`, if it is a rotation, comes right before the one under way.
    #[inline(always)]
    fn record(&mut self, before: u16, number: u16) {
        if before != NONE && self.recorded_for[before as usize] != number {
            self.recorded_for[before as usize] = number;
            self.found.before.push(before);
        }
    }

    /// Gives a man his next woman. Whom she refuses from now on is labelled.
    #[inline(always)]
    fn move_on(&mut self, m: u8, w: u8, number: u16) {
        let (i, j) = (m as usize & 63, w as usize & 63);
        let (old, new) = (self.man_rank[j], self.instance.women.rank(w, m));
        for at in new + 1..=old {
            let refused = self.instance.women.at(w, at) as usize;
            self.label[refused << 6 | j] = number;
        }
        self.man[j] = m;
        self.man_rank[j] = new;
        self.rank[i] = self.next_rank[i];
        self.next_rank[i] += 1;
        self.moved_by[i] = number;
    }
}
