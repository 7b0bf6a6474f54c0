//! Result buffers as they are lent to a call.

/// Entries on each side of a buffer that no call may write.
const GUARD: usize = 16;

/// A buffer between guard entries, all preset with a pattern.
#[derive(PartialEq)]
pub struct Lent<T>(Vec<T>);

impl Lent<u8> {
    /// A buffer of so many bytes, preset with bytes that no result for n up to 7 has.
    pub fn bytes(room: usize) -> Lent<u8> {
        Lent((0..room + 2 * GUARD).map(|k| 200 + (k % 50) as u8).collect())
    }
}

impl Lent<i8> {
    /// A buffer of so many signed bytes, preset with gains that nobody has.
    pub fn gains(room: usize) -> Lent<i8> {
        Lent((0..room + 2 * GUARD).map(|k| -80 - (k % 40) as i8).collect())
    }
}

impl<T> Lent<T> {
    /// The buffer alone.
    pub fn buffer(&mut self) -> &mut [T] {
        let end = self.0.len() - GUARD;
        &mut self.0[GUARD..end]
    }

    /// The buffer and its guard entries.
    pub fn all(&self) -> &[T] {
        &self.0
    }
}
