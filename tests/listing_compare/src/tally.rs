//! Counts of what was compared, the rules that were met, and the report of differences.

use crate::between::Beside;
use crate::calls::{prints, refused_by, shows, Call, COUNT, REPAIRS, RULES};
use crate::moves::Shown;
use crate::pairs::Pairs;
use archive::printed::{Kind, Printed, KINDS};
use archive::Reply;
use listing::book::Edition;

/// Differences that are printed in full, and differences after which the program ends.
const PRINTED: usize = 5;
const MANY: usize = 100;

/// The place of a letter among U, D and F.
pub fn letter_place(letter: usize) -> usize {
    [b'U', b'D', b'F'].iter().position(|&other| usize::from(other) == letter).expect("every answer has a letter")
}

/// The counts.
#[derive(Default)]
pub struct Tally {
    pub books: usize,
    pub damaged_books: usize,
    /// Books of edition 2 that are refused as one-sided.
    pub one_sided_books: usize,
    /// Books with rotations, with somebody alone on each side, and with both.
    pub rotating_books: usize,
    pub lonely_books: usize,
    pub rotating_lonely_books: usize,
    pub matchings: usize,
    pub stable_matchings: usize,
    pub rotations: usize,
    pub sets: usize,
    pub sheets: usize,
    /// Answers with U, D and F, and students of stable matchings who are alone; the same by mentors' numbers.
    pub letters: [usize; 3],
    pub alone: usize,
    pub letters_by_mentor: [usize; 3],
    pub mentors_alone: usize,
    /// Searches for a next mentor that one who is alone ends before one who is willing.
    pub ended_searches: usize,
    /// Stable matchings with weights, the answers with U, D and F, to requests and by mentors' numbers, and the sums of
    /// the totals of the former and of the grades.
    pub weighted_matchings: usize,
    pub weighted_letters: [usize; 3],
    pub weighted_letters_by_mentor: [usize; 3],
    pub weighted_totals: usize,
    pub weighted_grades: usize,
    /// For each call how often each rule was met; at 0 how often none was.
    met: [[usize; RULES]; COUNT],
    /// For each call how often it printed the refusal by each rule as a sheet.
    printed: [[usize; RULES]; COUNT],
    /// For each call how many sheets of each kind it printed.
    shown: [[usize; KINDS.len()]; COUNT],
    /// What sheets with moves showed.
    pub moves: Shown,
    /// For each call how many repairs moved students who weigh more than 0 and left others who do.
    mixed: [usize; COUNT],
    /// Stable matchings beside repairs up, and beside repairs down, by the definitions.
    pub beside: [Beside; 2],
    /// For each call how many stable matchings stood beside what the archive wrote, and how many of these moved
    /// students whom it left.
    written_beside: [[usize; 2]; COUNT],
    /// What came of requests for two pairs, the sum of their totals with weights, and the stable matchings of a sort
    /// beside its candidate by the definitions.
    pub pairs: Pairs,
    pub weighted_totals_of_two: usize,
    pub beside_candidates: usize,
    pub differences: usize,
}

impl Tally {
    /// Counts a call by the reply that is due.
    pub fn count(&mut self, call: Call, due: Reply) {
        self.met[call as usize][due.number] += 1;
    }

    /// Counts the refusal that a call has printed as a sheet, if it has.
    pub fn count_printed(&mut self, call: Call, refusal: Option<usize>) {
        if let Some(number) = refusal {
            self.printed[call as usize][number] += 1;
        }
    }

    /// How often a call has printed a refusal as a sheet.
    pub fn printed(&self, call: Call) -> usize {
        self.printed[call as usize].iter().sum()
    }

    /// Counts a sheet by its kinds.
    pub fn count_shown(&mut self, call: Call, printed: &Printed) {
        for kind in KINDS {
            self.shown[call as usize][kind as usize] += printed.is(kind) as usize;
        }
    }

    /// How many sheets of a kind a call has printed.
    pub fn shown(&self, call: Call, kind: Kind) -> usize {
        self.shown[call as usize][kind as usize]
    }

    /// Counts a repair by the total weights of the students whom it moves and of those whom it leaves.
    pub fn count_mixed(&mut self, call: Call, moved: usize, left: usize) {
        self.mixed[call as usize] += (moved > 0 && left > 0) as usize;
    }

    /// How many repairs of a call moved students and left others.
    pub fn mixed(&self, call: Call) -> usize {
        self.mixed[call as usize]
    }

    /// Counts a stable matching beside what the archive wrote by how many students it moves and that leaves.
    pub fn count_beside(&mut self, call: Call, left: usize) {
        let [all, leaving] = &mut self.written_beside[call as usize];
        *all += 1;
        *leaving += (left > 0) as usize;
    }

    /// How many stable matchings stood beside what a call of the archive wrote, and how many of these moved students
    /// whom it left.
    pub fn written_beside(&self, call: Call) -> [usize; 2] {
        self.written_beside[call as usize]
    }

    /// How many calls were made.
    pub fn calls(&self) -> usize {
        self.met.iter().flatten().sum()
    }

    /// How often a rule was met.
    pub fn met(&self, rule: usize) -> usize {
        self.met.iter().map(|rules| rules[rule]).sum()
    }

    /// How many calls were refused.
    pub fn refusals(&self) -> usize {
        (1..RULES).map(|rule| self.met(rule)).sum()
    }

    /// Adds the calls and the differences of another tally.
    pub fn add(&mut self, other: &Tally) {
        for (met, more) in self.met.iter_mut().flatten().zip(other.met.iter().flatten()) {
            *met += more;
        }
        for (printed, more) in self.printed.iter_mut().flatten().zip(other.printed.iter().flatten()) {
            *printed += more;
        }
        for (shown, more) in self.shown.iter_mut().flatten().zip(other.shown.iter().flatten()) {
            *shown += more;
        }
        for (mixed, more) in self.mixed.iter_mut().zip(other.mixed) {
            *mixed += more;
        }
        for (beside, more) in self.written_beside.iter_mut().flatten().zip(other.written_beside.iter().flatten()) {
            *beside += more;
        }
        self.pairs.add(&other.pairs);
        self.moves.add(&other.moves);
        self.differences += other.differences;
    }

    /// For books of an edition: the calls that never, but for two pairs, gave a result or met a rule that they have,
    /// the refusals and the kinds of sheets that they never printed, and the calls for a repair that never moved
    /// students and left others, or never left one whom a stable matching on its side moves; the same of two pairs; and
    /// what sheets with moves never showed.
    pub fn missing(&self, edition: Edition) -> Vec<String> {
        let unmet =
            refused_by(edition).filter(|&(call, rule)| self.met[call as usize][rule] <= self.pairs.met(call, rule));
        let unprinted = prints(edition).filter(|&(call, rule)| self.printed[call as usize][rule] == 0);
        let unshown = shows(edition).filter(|&(call, kind)| self.shown(call, kind) == 0);
        let unmixed = REPAIRS.into_iter().filter(|&call| self.mixed(call) == 0);
        let unmet = unmet.map(|(call, rule)| format!("{call:?} by rule {rule}"));
        let unprinted = unprinted.map(|(call, rule)| format!("{call:?} that prints the refusal by rule {rule}"));
        let unshown = unshown.map(|(call, kind)| format!("{call:?} with {}", kind.words()));
        let unmixed = unmixed.map(|call| format!("{call:?} that moves students and leaves others"));
        let moving = REPAIRS.into_iter().filter(|&call| self.written_beside(call)[1] == 0);
        let moving = moving.map(|call| format!("{call:?} that leaves a student whom a stable matching moves"));
        let others = self.pairs.missing(edition).into_iter().chain(self.moves.missing(edition));
        unmet.chain(unprinted).chain(unshown).chain(unmixed).chain(moving).chain(others).collect()
    }

    /// Counts a difference and prints it if it is one of the first; ends the program when there are many.
    pub fn differ(&mut self, what: String) {
        self.differences += 1;
        if self.differences <= PRINTED {
            eprintln!("difference {} in {what}", self.differences);
        }
        if self.differences == MANY {
            eprintln!("{MANY} differences: the comparison ends here");
            std::process::exit(1);
        }
    }
}

#[cfg(test)]
mod tests {
    use super::*;

    /// A tally in which every call has met each of its rules, every refusal and every kind of sheet was printed, and
    /// repairs have moved students and left others, also such as another stable matching moves.
    fn complete() -> Tally {
        let (met, printed, shown) = ([[2; RULES]; COUNT], [[1; RULES]; COUNT], [[1; KINDS.len()]; COUNT]);
        let (mixed, written_beside, pairs, moves) = ([1; COUNT], [[1; 2]; COUNT], Pairs::complete(), Shown::complete());
        Tally { met, printed, shown, moves, mixed, written_beside, pairs, ..Tally::default() }
    }

    /// What was never met is missed, and nothing else.
    #[test]
    fn what_was_never_met_is_missing() {
        assert!(complete().missing(Edition::Two).is_empty());
        let mut tally = complete();
        tally.met[Call::Repair as usize][12] = 1;
        assert_eq!(tally.missing(Edition::One), ["Repair by rule 12"]);
        tally.printed[Call::WeightedSheet as usize][17] = 0;
        assert_eq!(tally.missing(Edition::One)[1..], ["WeightedSheet that prints the refusal by rule 17"]);
        tally.mixed[Call::WeightedRepair as usize] = 0;
        assert_eq!(tally.missing(Edition::Two)[2..], ["WeightedRepair that moves students and leaves others"]);
        tally.written_beside[Call::RepairMentor as usize][1] = 0;
        let last = "RepairMentor that leaves a student whom a stable matching moves";
        assert_eq!(tally.missing(Edition::One)[3..], [last]);
        for kind in KINDS {
            let mut tally = complete();
            tally.shown.iter_mut().for_each(|kinds| kinds[kind as usize] = 0);
            let missing = [Edition::One, Edition::Two].map(|edition| tally.missing(edition).len());
            let due = match kind {
                Kind::FixedAndAlone => [0, 2],
                Kind::GradeZero => [1, 1],
                _ => [2, 2],
            };
            assert_eq!(missing, due, "{kind:?}");
        }
        for rule in 1..RULES {
            let mut tally = complete();
            tally.met.iter_mut().for_each(|rules| rules[rule] = 0);
            assert_eq!(tally.missing(Edition::One).is_empty(), rule > 17, "rule {rule}");
            assert!(!tally.missing(Edition::Two).is_empty(), "rule {rule}");
        }
    }
}
