//! A sheet read back from its text, and its first line held against the other lines and against the grade call (W-204).

use reply::{Reply, NO_GRADE};

/// Of the first line the number of fixed pairs and the grade, none for `-`; of each other line letter and distance.
#[derive(Debug)]
pub struct Printed {
    fixed: usize,
    grade: Option<usize>,
    answers: Vec<(char, usize)>,
}

impl Printed {
    /// The sheet that a text is; none where it is a refusal or has another form.
    pub fn read(text: &[u8]) -> Option<Printed> {
        let mut lines = std::str::from_utf8(text).ok()?.lines().map(|line| line.split(' ').collect::<Vec<_>>());
        let [_, _, fixed, grade] = lines.next()?.try_into().ok()?;
        let grade = if grade == "-" { None } else { Some(grade.parse().ok()?) };
        let answer = |line: Vec<&str>| {
            let [_, _, letter, distance] = line.try_into().ok()?;
            Some((letter.parse().ok()?, distance.parse().ok()?))
        };
        Some(Printed { fixed: fixed.parse().ok()?, grade, answers: lines.map(answer).collect::<Option<_>>()? })
    }

    /// How many lines have the letter.
    fn count(&self, letter: char) -> usize {
        self.answers.iter().filter(|answer| answer.0 == letter).count()
    }

    /// The students whose lines have U or D, with the distance.
    fn repairs(&self) -> impl Iterator<Item = (usize, usize)> + '_ {
        let answers = self.answers.iter().enumerate().filter(|(_, (letter, _))| ['U', 'D'].contains(letter));
        answers.map(|(student, &(_, distance))| (student, distance))
    }

    /// The grade by the lines: the largest distance of a repair, less the student's own weight.
    fn recounted_grade(&self, weights: &[u8]) -> Option<usize> {
        let own = |student: usize| weights.get(student).map_or(0, |&weight| weight.into());
        self.repairs().map(|(student, distance)| distance.saturating_sub(own(student))).max()
    }

    /// Whether it is of a kind.
    pub fn is(&self, kind: Kind) -> bool {
        let (fixed, alone) = (self.count('F') > 0, self.count('N') > 0);
        match kind {
            Kind::AllFixed => self.grade.is_none() && fixed,
            Kind::NoPair => self.grade.is_none() && !fixed,
            Kind::SomeFixed => self.grade.is_some() && fixed,
            Kind::FixedAndAlone => fixed && alone,
            Kind::GradeZero => self.grade == Some(0) && self.repairs().any(|(_, distance)| distance == 1),
        }
    }
}

/// Kinds of sheets of which a comparison has to meet some.
#[derive(Clone, Copy, Debug, PartialEq, Eq)]
pub enum Kind {
    AllFixed,
    NoPair,
    SomeFixed,
    FixedAndAlone,
    GradeZero,
}

/// All kinds, in the order of their numbers.
pub const KINDS: [Kind; 5] = [Kind::AllFixed, Kind::NoPair, Kind::SomeFixed, Kind::FixedAndAlone, Kind::GradeZero];

impl Kind {
    /// What a sheet of this kind shows.
    pub fn words(self) -> &'static str {
        match self {
            Kind::AllFixed => "no grade and a fixed pair",
            Kind::NoPair => "no grade and no pair",
            Kind::SomeFixed => "a grade and a fixed pair",
            Kind::FixedAndAlone => "a fixed pair and a student without a mentor",
            Kind::GradeZero => "the grade 0 and a repair of distance 1",
        }
    }
}

/// What a sheet and the grade call say, and what is due by the lines of the sheet with these weights, where the first
/// line or the call does not agree with these lines. A refusal has no first line.
pub fn disagreement(text: &[u8], weights: &[u8], grade: impl FnOnce() -> Reply) -> Option<[String; 2]> {
    if text.starts_with(b"refused ") {
        return None;
    }
    let Some(printed) = Printed::read(text) else {
        return Some([String::from_utf8_lossy(text).into_owned(), "four fields in each line".to_string()]);
    };
    let (reply, fixed) = (grade(), printed.count('F'));
    let recounted = printed.recounted_grade(weights);
    let agree = printed.fixed == fixed && printed.grade == recounted;
    if agree && reply == Reply::value(recounted.unwrap_or(NO_GRADE)) {
        return None;
    }
    Some([format!("{printed:?}, grade call {reply:?}"), format!("{fixed} fixed, grade {recounted:?}, by these lines")])
}
