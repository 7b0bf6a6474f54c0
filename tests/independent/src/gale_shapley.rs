//! The extended Gale-Shapley algorithm: the matching that is best for the side that proposes.

use crate::instance::{Instance, Side, UNLISTED};
use crate::matching::{Matching, Partners, ALONE};

/// The man-optimal stable matching.
pub fn man_optimal(instance: &Instance) -> Matching {
    let (woman, man) = propose(instance.n, &instance.men, &instance.women);
    Matching { woman, man }
}

/// The woman-optimal stable matching.
pub fn woman_optimal(instance: &Instance) -> Matching {
    let (man, woman) = propose(instance.n, &instance.women, &instance.men);
    Matching { woman, man }
}

/// Each proposer in turn proposes down the list until accepted; whoever is turned out goes on in the same way, and is
/// alone when the list has ended. Answers with the partner of each proposer and of each receiver.
fn propose(n: usize, proposers: &Side, receivers: &Side) -> (Partners, Partners) {
    let mut kept_rank = [UNLISTED; 64];
    let mut kept = [ALONE; 64];
    let mut next = [0u8; 64];
    for start in 0..n as u8 {
        let mut i = start;
        while let Some(&w) = proposers.list(i).get(next[i as usize & 63] as usize) {
            next[i as usize & 63] += 1;
            let rank = receivers.rank(w, i);
            let w = w as usize & 63;
            if rank < kept_rank[w] {
                kept_rank[w] = rank;
                let turned_out = std::mem::replace(&mut kept[w], i);
                if turned_out == ALONE {
                    break;
                }
                i = turned_out;
            }
        }
    }
    let mut partner = [ALONE; 64];
    for w in (0..n).filter(|&w| kept[w] != ALONE) {
        partner[kept[w] as usize & 63] = w as u8;
    }
    (partner, kept)
}
