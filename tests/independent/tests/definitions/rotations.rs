//! Rotations, their numbers, precedence and closed sets in the words of document 01 and of W-203.

use super::{husband, Market, Matching};
use std::collections::HashSet;

/// A cycle of pairs, written from its lowest man.
pub type Rotation = Vec<(usize, usize)>;

impl Market {
    /// The first woman below the present one on the man's list who ranks him above her own present man. One who is
    /// alone ends the search: there is none.
    pub fn next_woman(&self, matching: &Matching, man: usize) -> Option<usize> {
        let present = self.place(man, Some(matching[man]?));
        let willing_or_alone = |w: &usize| self.woman_prefers(*w, man, husband(matching, *w));
        let first = self.men[man][present + 1..].iter().copied().find(willing_or_alone);
        first.filter(|&w| husband(matching, w).is_some())
    }

    /// The rotations exposed in a stable matching, by lowest man.
    pub fn exposed(&self, matching: &Matching) -> Vec<Rotation> {
        (0..self.n).filter_map(|man| self.rotation_from(matching, man)).collect()
    }

    /// The rotation of which this man is the lowest.
    fn rotation_from(&self, matching: &Matching, lowest: usize) -> Option<Rotation> {
        let mut rotation = vec![(lowest, matching[lowest]?)];
        loop {
            let (man, _) = rotation[rotation.len() - 1];
            let next = self.next_woman(matching, man)?;
            let follower = husband(matching, next)?;
            if follower == lowest {
                return Some(rotation);
            }
            if follower < lowest || rotation.iter().any(|&(m, _)| m == follower) {
                return None;
            }
            rotation.push((follower, next));
        }
    }

    /// The rotations by number: of those exposed the one with the lowest man is eliminated, from the man-optimal
    /// matching on.
    pub fn numbered(&self, optimal: &Matching) -> Vec<Rotation> {
        let mut matching = optimal.clone();
        let mut all = vec![];
        while let Some(rotation) = self.exposed(&matching).into_iter().next() {
            matching = eliminated(&matching, &rotation);
            all.push(rotation);
        }
        all
    }

    /// For each rotation, by number, the set of those that every run of eliminations that exposes it has eliminated.
    /// Sets are numbers, bit k for rotation k.
    pub fn preceding(&self, optimal: &Matching, numbered: &[Rotation]) -> Vec<u32> {
        let mut common = vec![u32::MAX; numbered.len()];
        let mut seen = HashSet::new();
        let mut runs = vec![(optimal.clone(), 0u32)];
        while let Some((matching, done)) = runs.pop() {
            if !seen.insert((matching.clone(), done)) {
                continue;
            }
            for rotation in self.exposed(&matching) {
                let number = numbered.iter().position(|r| *r == rotation).expect("every rotation has a number");
                common[number] &= done;
                runs.push((eliminated(&matching, &rotation), done | 1 << number));
            }
        }
        common
    }
}

/// Each man gets the woman of the following pair, the last that of the first.
pub fn eliminated(matching: &Matching, rotation: &Rotation) -> Matching {
    let mut new = matching.clone();
    for (k, &(man, _)) in rotation.iter().enumerate() {
        new[man] = Some(rotation[(k + 1) % rotation.len()].1);
    }
    new
}

/// Whether a set holds whatever precedes its members.
pub fn closed(set: u32, preceding: &[u32]) -> bool {
    (0..preceding.len()).all(|k| set >> k & 1 == 0 || preceding[k] & !set == 0)
}

/// The matching of a closed set: its rotations eliminated, each when it is exposed.
pub fn matching_of(market: &Market, optimal: &Matching, numbered: &[Rotation], set: u32) -> Matching {
    let mut matching = optimal.clone();
    let mut left = set;
    while left != 0 {
        let exposed = market.exposed(&matching);
        let next =
            (0..numbered.len()).find(|&k| left >> k & 1 == 1 && exposed.contains(&numbered[k])).expect("a closed set");
        matching = eliminated(&matching, &numbered[next]);
        left &= !(1 << next);
    }
    matching
}
