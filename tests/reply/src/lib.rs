//! `struct placement_reply` of include/placement.h, for every crate that makes or reads one.

/// The reply of a call. `number` is 0 or the rule that is broken; the header says what the other fields are.
#[repr(C)]
#[derive(Clone, Copy, Debug, Default, PartialEq, Eq)]
pub struct Reply {
    pub number: usize,
    pub place: usize,
    pub second: usize,
    pub letter: usize,
    pub value: usize,
}

/// The value of a grade call where no pair can be repaired: PLACEMENT_NO_GRADE of the header.
pub const NO_GRADE: usize = usize::MAX;

impl Reply {
    /// The reply that carries a number and nothing else.
    pub fn value(value: usize) -> Reply {
        Reply { value, ..Reply::default() }
    }
}
