//! A given matching: rules 8, 9, 19 and 10.

use crate::instance::{Instance, UNLISTED};
use crate::reply::{refused, rule, Checked, Refusal};

/// A man's or a woman's partner, for each number; entries from n on have no meaning.
pub type Partners = [u8; 64];

/// In place of a partner: there is none.
pub const ALONE: u8 = 255;

/// The woman of each man and the man of each woman.
#[derive(Clone)]
pub struct Matching {
    pub woman: Partners,
    pub man: Partners,
}

/// A matching that is n bytes and names nobody twice (8, 9), whose pairs list each other (19), and which is stable
/// (10).
pub fn stable(instance: &Instance, bytes: &[u8]) -> Checked<Matching> {
    let matching = read(instance, bytes)?;
    rule(has_unlisted(instance, &matching), 19, 0)?;
    match first_blocking(instance, &matching) {
        None => Ok(matching),
        Some((man, woman)) => Err(Refusal { number: 10, place: man as usize, second: woman as usize }),
    }
}

/// Rules 8 and 9. In edition 2 a man may be alone.
fn read(instance: &Instance, bytes: &[u8]) -> Checked<Matching> {
    rule(bytes.len() != instance.n, 8, 0)?;
    let mut matching = Matching { woman: [ALONE; 64], man: [ALONE; 64] };
    for (man, &woman) in bytes.iter().enumerate() {
        if woman == ALONE && instance.partial {
            continue;
        }
        if woman as usize >= instance.n || matching.man[woman as usize] != ALONE {
            return Err(refused(9, man));
        }
        matching.woman[man] = woman;
        matching.man[woman as usize] = man as u8;
    }
    Ok(matching)
}

/// Whether some man has a woman whom he does not list. Of a book that is well formed she does not list him either.
fn has_unlisted(instance: &Instance, matching: &Matching) -> bool {
    let pairs = (0..instance.n as u8).map(|m| (m, matching.woman[m as usize])).filter(|&(_, w)| w != ALONE);
    pairs.into_iter().any(|(m, w)| instance.men.rank(m, w) == UNLISTED)
}

/// The lowest man in a blocking pair, with the woman he ranks best of those who block with him. A man who is alone
/// prefers all women on his list, a woman who is alone all men on hers.
fn first_blocking(instance: &Instance, matching: &Matching) -> Option<(u8, u8)> {
    let women = &instance.women;
    let mut kept = [UNLISTED; 64];
    for w in (0..instance.n as u8).filter(|&w| matching.man[w as usize] != ALONE) {
        kept[w as usize & 63] = women.rank(w, matching.man[w as usize & 63]);
    }
    for m in 0..instance.n as u8 {
        let preferred = instance.men.list(m).iter().take_while(|&&w| w != matching.woman[m as usize]);
        for &w in preferred {
            if women.rank(w, m) < kept[w as usize & 63] {
                return Some((m, w));
            }
        }
    }
    None
}
