//! What a call answers: a result, or the refusal by the first rule that the input breaks.

/// A broken rule of the table "Refused, by number": "Results carry number and place". Rule 10 alone has a second
/// place; it is 0 for every other.
#[derive(Clone, Copy, Debug, PartialEq, Eq)]
pub struct Refusal {
    pub number: usize,
    pub place: usize,
    pub second: usize,
}

/// What a reply carries beside the result buffers where nothing is refused; 0 and no letter where a call has none. Two
/// pairs that are repaired have a letter each.
#[derive(Clone, Copy, Debug, Default, PartialEq, Eq)]
pub struct Granted {
    pub place: usize,
    pub letter: Option<char>,
    pub second_letter: Option<char>,
    pub value: usize,
}

/// The reply of a call.
pub type Reply = Result<Granted, Refusal>;

/// The refusal by a rule with one place.
pub fn refused<T>(number: usize, place: usize) -> Result<T, Refusal> {
    Err(Refusal { number, place, second: 0 })
}

/// The reply with a value alone.
pub fn granted(value: usize) -> Reply {
    Ok(Granted { value, ..Granted::default() })
}
