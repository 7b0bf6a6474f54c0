//! Short lists to try: 2n lists, the men's and then the women's, in which whoever is listed lists in turn, and books
//! of edition 2. They come from full lists, of which some pairs stay; and from fewer people with full lists, to whose
//! lists outsiders are added, so that there are rotations and people who are alone.

use crate::book;
use crate::random::Random;
use crate::samples;

/// A list for each person.
pub type Lists = Vec<Vec<u8>>;

/// The book of edition 2 of 2n lists, whatever they hold.
pub fn book(lists: &[Vec<u8>]) -> Vec<u8> {
    let n = lists.len() / 2;
    let mut book = vec![2, n as u8];
    let mut offset = book::lists_start(n);
    for list in lists {
        book.extend((offset as u16).to_le_bytes());
        book.extend((list.len() as u16).to_le_bytes());
        offset += list.len();
    }
    book.extend(lists.concat());
    book
}

/// Full lists, 2n^2 bytes, as 2n lists.
pub fn full(n: usize, lists: &[u8]) -> Lists {
    lists.chunks(n.max(1)).map(<[u8]>::to_vec).collect()
}

/// The place of one on a list; its length where he does not stand on it.
fn place(list: &[u8], other: usize) -> usize {
    list.iter().position(|&entry| entry as usize == other).unwrap_or(list.len())
}

/// The lists with those pairs, man and woman, that `stay` keeps.
fn with_pairs(lists: &Lists, mut stay: impl FnMut(usize, usize) -> bool) -> Lists {
    let n = lists.len() / 2;
    let stays: Vec<bool> = (0..n * n).map(|pair| stay(pair / n, pair % n)).collect();
    let kept = |i: usize, other: u8| match i.checked_sub(n) {
        None => stays[i * n + other as usize],
        Some(woman) => stays[other as usize * n + woman],
    };
    let list = |i: usize| lists[i].iter().copied().filter(|&other| kept(i, other)).collect();
    (0..2 * n).map(list).collect()
}

/// Each pair stays with a probability of about `length` in n.
pub fn sparse(lists: &Lists, length: usize, random: &mut Random) -> Lists {
    let n = lists.len() / 2;
    with_pairs(lists, |_, _| random.below(n) < length)
}

/// The pairs stay that stand among the first entries on the man's list and on the woman's.
pub fn cut(lists: &Lists, men: usize, women: usize) -> Lists {
    let n = lists.len() / 2;
    with_pairs(lists, |m, w| place(&lists[m], w) < men && place(&lists[n + w], m) < women)
}

/// Some people are on no list and have none.
pub fn absent(lists: &Lists, random: &mut Random) -> Lists {
    let n = lists.len() / 2;
    let gone: Vec<bool> = (0..2 * n).map(|_| random.once_in(8)).collect();
    with_pairs(lists, |m, w| !gone[m] && !gone[n + w])
}

/// Lists of `core` people a side with outsiders after them, up to n. Each lists about half of the other side's core,
/// and three in four of these put him at the end of their lists.
pub fn with_outsiders(n: usize, core: usize, lists: &Lists, random: &mut Random) -> Lists {
    let mut all = vec![vec![]; 2 * n];
    for i in 0..core {
        (all[i], all[n + i]) = (lists[i].clone(), lists[core + i].clone());
    }
    for (own, other) in [(0, n), (n, 0)] {
        for outsider in core..n {
            for i in (0..core).filter(|_| random.once_in(2)).collect::<Vec<_>>() {
                let list = &mut all[other + i];
                let at = if random.once_in(4) { random.below(list.len() + 1) } else { list.len() };
                list.insert(at, outsider as u8);
                let list = &mut all[own + outsider];
                list.insert(random.below(list.len() + 1), i as u8);
            }
        }
    }
    all
}

/// The same lists with men and women numbered in another way.
fn renamed(lists: &Lists, random: &mut Random) -> Lists {
    let n = lists.len() / 2;
    let names = [random.order(n), random.order(n)];
    let mut new = vec![vec![]; 2 * n];
    for i in 0..2 * n {
        let (own, others) = (&names[i / n], &names[1 - i / n]);
        let list = lists[i].iter().map(|&other| others[other as usize]).collect();
        new[i / n * n + own[i % n] as usize] = list;
    }
    new
}

/// Short lists of some kind: in half of them there are outsiders, others are cut short, sparse or full. In some of
/// them people are absent or some pairs more are gone.
pub fn any(n: usize, source: &mut Random) -> Lists {
    let most = n.max(1);
    let lists = match source.below(8) {
        0..=3 => {
            let core = n.saturating_sub(1 + source.below(n / 3 + 1));
            let inner = full(core, &samples::any(core, source));
            let all = with_outsiders(n, core, &inner, source);
            renamed(&all, source)
        }
        4 | 5 => {
            let (men, women) = (1 + source.below(most), if source.once_in(2) { n } else { 1 + source.below(most) });
            cut(&full(n, &samples::any(n, source)), men, women)
        }
        6 => {
            let length = source.below(most.min(12) + 1);
            sparse(&full(n, &samples::any(n, source)), length, source)
        }
        _ => full(n, &samples::any(n, source)),
    };
    match source.below(8) {
        0 => absent(&lists, source),
        1 => sparse(&lists, n - n.min(1), source),
        _ => lists,
    }
}
