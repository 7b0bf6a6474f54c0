//! The sheet and the sheet with moves of one input, and counts of what sheets with moves show.

use crate::both::Both;
use crate::calls::Call;
use crate::printed::printed_refusal;
use archive::moves::{Kind, Moves, KINDS};
use listing::book::Edition;
use listing::{asked, moves};

/// What the sheets with moves that were due showed: how many were of each kind, the lines under pairs that have a `+`
/// and those that have a `-`, and the bytes of these.
#[derive(Default)]
pub struct Shown {
    kinds: [usize; KINDS.len()],
    pub better: usize,
    pub worse: usize,
    pub bytes: usize,
}

impl Shown {
    /// Counts a text.
    fn count(&mut self, text: &Moves) {
        for kind in KINDS {
            self.kinds[kind as usize] += text.is(kind) as usize;
        }
        self.better += text.better;
        self.worse += text.worse;
        self.bytes += text.bytes;
    }

    /// Counts of 1 for every kind.
    #[cfg(test)]
    pub fn complete() -> Shown {
        Shown { kinds: [1; KINDS.len()], ..Shown::default() }
    }

    /// How many were of a kind.
    pub fn of(&self, kind: Kind) -> usize {
        self.kinds[kind as usize]
    }

    /// Adds the counts of another part.
    pub fn add(&mut self, other: &Shown) {
        for (times, more) in self.kinds.iter_mut().zip(other.kinds) {
            *times += more;
        }
        self.better += other.better;
        self.worse += other.worse;
        self.bytes += other.bytes;
    }

    /// What no text has shown that it can for books of an edition. In edition 1 nobody is alone.
    pub fn missing(&self, edition: Edition) -> impl Iterator<Item = String> + '_ {
        let kinds = KINDS.into_iter().filter(move |&kind| kind != Kind::Alone || edition == Edition::Two);
        kinds.filter(|&kind| self.of(kind) == 0).map(|kind| format!("Moves with {}", kind.words()))
    }
}

impl Both {
    /// Asks for the sheet of a book with a matching after it and for the sheet with moves, with result buffers of each
    /// two of these lengths, the first of which is for the sheet.
    pub fn sheets(&mut self, input: &[u8], rooms: &[[usize; 2]]) {
        let [sheet, text] = moves::texts(input);
        for &[room, moves_room] in rooms {
            self.sheet(input, &sheet, room);
            self.moves(input, &text, moves_room);
        }
    }

    /// The sheet with moves, of which this text is due.
    pub fn moves(&mut self, input: &[u8], text: &str, room: usize) {
        let archive = |out: &mut [u8]| archive::moves(input, out);
        let [_, (due, _)] = self.lending(Call::Moves, &[input], room, archive, |out| asked::print(text, out));
        if due.number == 0 {
            self.tally.count_printed(Call::Moves, printed_refusal(text.as_bytes()));
            Moves::read(text.as_bytes()).iter().for_each(|text| self.tally.moves.count(text));
        }
    }
}

#[cfg(test)]
mod tests {
    use super::*;

    /// The kinds of a text by their numbers, and its lines with `+`, those with `-` and their bytes.
    fn shown(text: &str) -> (Vec<usize>, [usize; 3]) {
        let mut shown = Shown::default();
        Moves::read(text.as_bytes()).iter().for_each(|text| shown.count(text));
        let kinds = (0..KINDS.len()).filter(|&kind| shown.kinds[kind] == 1).collect();
        (kinds, [shown.better, shown.worse, shown.bytes])
    }

    /// Each kind is that of one of these texts at least, by its number; a refusal is of none.
    #[test]
    fn kinds_of_texts() {
        assert_eq!(shown("0 0 0 -\n"), (vec![], [0, 0, 0]));
        assert_eq!(shown("refused 10\n"), (vec![], [0, 0, 0]));
        assert_eq!(shown("2 0 1 -\n0 0 F 0\n1 - N 0\n"), (vec![2, 3], [0, 0, 0]));
        let two = "2 1 0 1\n0 0 D 2\n 0 0 1 -1\n 1 1 0 -1\n1 1 D 2\n 0 0 1 -1\n 1 1 0 -1\n";
        assert_eq!(shown(two), (vec![1], [0, 4, 40]));
        let three = "3 1 1 1\n0 1 U 2\n 0 1 0 +1\n 1 0 1 +12\n1 0 U 2\n 0 1 0 +1\n 1 0 1 +12\n2 2 F 0\n";
        assert_eq!(shown(three), (vec![0, 2, 4], [4, 0, 42]));
        assert!(KINDS.iter().enumerate().all(|(at, &kind)| kind as usize == at));
    }

    /// A text of another form is none: a line under no student, one without a sign, one with a field less.
    #[test]
    fn other_forms() {
        for text in ["1 0 0 -\n 0 0 1 -1\n", "1 0 0 -\n0 0 D 1\n 0 0 1 1\n", "1 0 0 -\n0 0 D\n"] {
            assert!(Moves::read(text.as_bytes()).is_none(), "{text}");
        }
    }

    /// What no text has shown is missed, but that in edition 1 nobody has to be alone.
    #[test]
    fn what_was_never_shown_is_missing() {
        for kind in KINDS {
            let mut shown = Shown::complete();
            shown.kinds[kind as usize] = 0;
            let missing = [Edition::One, Edition::Two].map(|edition| shown.missing(edition).count());
            assert_eq!(missing, [usize::from(kind != Kind::Alone), 1], "{kind:?}");
        }
    }
}
