//! Numbers of people: "A student number and a mentor number never stand for one another."

/// The number of a man, document 01's student.
#[derive(Clone, Copy, Debug, PartialEq, Eq, PartialOrd, Ord)]
pub struct Man(pub u8);

/// The number of a woman, document 01's mentor.
#[derive(Clone, Copy, Debug, PartialEq, Eq, PartialOrd, Ord)]
pub struct Woman(pub u8);

impl Man {
    /// All men of a book of n, "each numbered 0 to n − 1".
    pub fn all(n: usize) -> impl Iterator<Item = Man> {
        (0..n).map(|number| Man(number as u8))
    }

    /// Where the man stands in a row of all men.
    pub fn index(self) -> usize {
        usize::from(self.0)
    }
}

impl Woman {
    /// All women of a book of n.
    pub fn all(n: usize) -> impl Iterator<Item = Woman> {
        (0..n).map(|number| Woman(number as u8))
    }

    /// Where the woman stands in a row of all women.
    pub fn index(self) -> usize {
        usize::from(self.0)
    }
}
