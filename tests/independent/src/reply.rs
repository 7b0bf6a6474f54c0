//! Answers: a refusal, and the reply of include/placement.h.

pub use ::reply::{Reply, NO_GRADE};

/// A broken rule of document 01's table: its number, its place, and for rule 10 the second place.
#[derive(Clone, Copy, Debug, PartialEq, Eq)]
pub struct Refusal {
    pub number: usize,
    pub place: usize,
    pub second: usize,
}

/// A result, or the first rule that the input breaks.
pub type Checked<T> = Result<T, Refusal>;

/// The refusal by `number` at `place`.
pub fn refused(number: usize, place: usize) -> Refusal {
    Refusal { number, place: place as usize, second: 0 }
}

/// Refuses by `number` at `place` when `broken`.
pub fn rule(broken: bool, number: usize, place: usize) -> Checked<()> {
    if broken {
        Err(refused(number, place))
    } else {
        Ok(())
    }
}

impl From<Refusal> for Reply {
    /// The reply of a refusal.
    fn from(r: Refusal) -> Reply {
        Reply { number: r.number, place: r.place, second: r.second, ..Reply::default() }
    }
}

/// The reply of a call that answers with a number.
pub fn reply(call: impl FnOnce() -> Checked<usize>) -> Reply {
    match call() {
        Ok(value) => Reply::value(value),
        Err(refusal) => refusal.into(),
    }
}
