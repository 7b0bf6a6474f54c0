//! A sheet with moves read back from its text.

/// Of each student's line the letter and how many lines stand under it; and of all of these lines how many have a `+`
/// and how many a `-`, and their bytes.
#[derive(Debug, Default)]
pub struct Moves {
    students: Vec<(char, usize)>,
    pub better: usize,
    pub worse: usize,
    pub bytes: usize,
}

impl Moves {
    /// The sheet with moves that a text is; none where it is a refusal or has another form.
    pub fn read(text: &[u8]) -> Option<Moves> {
        let mut moves = Moves::default();
        for line in std::str::from_utf8(text).ok()?.lines().skip(1) {
            match line.split(' ').collect::<Vec<_>>()[..] {
                ["", _, _, _, gain] => moves.add(line, gain)?,
                [_, _, letter, _] => moves.students.push((letter.parse().ok()?, 0)),
                _ => return None,
            }
        }
        (!text.starts_with(b"refused ")).then_some(moves)
    }

    /// Adds a line under the last student's.
    fn add(&mut self, line: &str, gain: &str) -> Option<()> {
        self.students.last_mut()?.1 += 1;
        self.bytes += line.len() + 1;
        match gain.as_bytes().first()? {
            b'+' => self.better += 1,
            b'-' => self.worse += 1,
            _ => return None,
        }
        Some(())
    }

    /// Whether it shows such a line.
    pub fn is(&self, kind: Kind) -> bool {
        let placed = self.students.iter().filter(|student| student.0 != 'N').count();
        match kind {
            Kind::Better => self.better > 0,
            Kind::Worse => self.worse > 0,
            Kind::Fixed => self.students.iter().any(|student| student.0 == 'F'),
            Kind::Alone => placed < self.students.len(),
            Kind::Leaving => self.students.iter().any(|&(_, moved)| 0 < moved && moved < placed),
        }
    }
}

/// What sheets with moves show, of which a comparison has to meet each.
#[derive(Clone, Copy, Debug, PartialEq, Eq)]
pub enum Kind {
    Better,
    Worse,
    Fixed,
    Alone,
    Leaving,
}

/// All kinds, in the order of their numbers.
pub const KINDS: [Kind; 5] = [Kind::Better, Kind::Worse, Kind::Fixed, Kind::Alone, Kind::Leaving];

impl Kind {
    /// What a text of this kind shows.
    pub fn words(self) -> &'static str {
        match self {
            Kind::Better => "a move for the better",
            Kind::Worse => "a move for the worse",
            Kind::Fixed => "a fixed pair",
            Kind::Alone => "a student without a mentor",
            Kind::Leaving => "a repair that moves students and leaves others",
        }
    }
}
