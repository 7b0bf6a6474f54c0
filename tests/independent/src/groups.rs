//! Groups of items, end to end: the pairs of each rotation, the rotations right before each rotation.

pub struct Groups<T> {
    items: Vec<T>,
    /// Where each group ends; a group begins where the one before ended.
    ends: Vec<u16>,
}

impl<T: Copy> Groups<T> {
    pub fn new(items: usize, groups: usize) -> Groups<T> {
        Groups { items: Vec::with_capacity(items), ends: Vec::with_capacity(groups) }
    }

    /// Adds an item to the group that is not closed yet.
    pub fn push(&mut self, item: T) {
        self.items.push(item);
    }

    /// Closes a group: all items since the group before.
    pub fn close(&mut self) {
        self.ends.push(self.items.len() as u16);
    }

    /// How many groups are closed.
    pub fn count(&self) -> usize {
        self.ends.len()
    }

    /// All items.
    pub fn items(&self) -> &[T] {
        &self.items
    }

    /// Group k.
    #[inline(always)]
    pub fn group(&self, k: usize) -> &[T] {
        let start = if k == 0 { 0 } else { self.ends[k - 1] as usize };
        &self.items[start..self.ends[k] as usize]
    }
}
