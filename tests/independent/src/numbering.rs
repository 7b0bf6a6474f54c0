//! Document 01's numbers of rotations: from the man-optimal matching on, of the rotations exposed the one with the
//! lowest man comes next. A rotation is exposed when all that come right before it in the poset are eliminated.

use crate::groups::Groups;
use crate::search::Pair;

/// The rotations that are exposed. They share no man, so the lowest man of each tells them apart.
struct Exposed {
    lowest_men: u64,
    with_lowest: [u16; 64],
}

impl Exposed {
    fn add(&mut self, rotation: usize, pairs: &[Pair]) {
        let lowest = pairs[0].man as usize & 63;
        self.lowest_men |= 1 << lowest;
        self.with_lowest[lowest] = rotation as u16;
    }

    /// Takes out the one with the lowest man.
    fn take(&mut self) -> Option<usize> {
        if self.lowest_men == 0 {
            return None;
        }
        let lowest = self.lowest_men.trailing_zeros() as usize;
        self.lowest_men &= self.lowest_men - 1;
        Some(self.with_lowest[lowest] as usize)
    }
}

/// The rotations in order of number, each by its index in the order given.
pub fn order(rotations: &Groups<Pair>, before: &Groups<u16>) -> Vec<u16> {
    let count = rotations.count();
    let (starts, after) = turned_round(before);
    let mut waiting: Vec<u16> = (0..count).map(|r| before.group(r).len() as u16).collect();
    let mut exposed = Exposed { lowest_men: 0, with_lowest: [0; 64] };
    for r in (0..count).filter(|&r| waiting[r] == 0) {
        exposed.add(r, rotations.group(r));
    }
    let mut order = Vec::with_capacity(count);
    while let Some(r) = exposed.take() {
        order.push(r as u16);
        for &next in &after[starts[r] as usize..starts[r + 1] as usize] {
            let next = next as usize;
            waiting[next] -= 1;
            if waiting[next] == 0 {
                exposed.add(next, rotations.group(next));
            }
        }
    }
    order
}

/// The edges the other way: those that come right after rotation r stand from `starts[r]` to `starts[r + 1]`.
fn turned_round(before: &Groups<u16>) -> (Vec<u16>, Vec<u16>) {
    let count = before.count();
    let mut starts = vec![0u16; count + 2];
    for &b in before.items() {
        starts[b as usize + 2] += 1;
    }
    for r in 1..starts.len() {
        starts[r] += starts[r - 1];
    }
    // starts[r + 1] is where the next edge of r goes; when all are in, it is where r's edges end.
    let mut after = vec![0u16; before.items().len()];
    for r in 0..count {
        for &b in before.group(r) {
            let at = &mut starts[b as usize + 1];
            after[*at as usize] = r as u16;
            *at += 1;
        }
    }
    (starts, after)
}

/// The rotations and the edges by number.
pub fn renumbered(rotations: &Groups<Pair>, before: &Groups<u16>, order: &[u16]) -> (Groups<Pair>, Groups<u16>) {
    let mut number = vec![0u16; order.len()];
    for (new, &old) in order.iter().enumerate() {
        number[old as usize] = new as u16;
    }
    let mut new_rotations = Groups::new(rotations.items().len(), order.len());
    let mut new_before = Groups::new(before.items().len(), order.len());
    for &old in order {
        rotations.group(old as usize).iter().for_each(|&pair| new_rotations.push(pair));
        new_rotations.close();
        before.group(old as usize).iter().for_each(|&b| new_before.push(number[b as usize]));
        new_before.close();
    }
    (new_rotations, new_before)
}
