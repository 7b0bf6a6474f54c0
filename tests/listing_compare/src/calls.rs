//! The calls of include/placement.h, and the rules that each may be refused by.

use archive::printed::{Kind, KINDS};
use listing::book::Edition;

/// The calls.
#[derive(Clone, Copy, Debug, PartialEq, Eq)]
pub enum Call {
    CheckBook,
    BookSize,
    WriteBook,
    StudentList,
    MentorList,
    CheckMatching,
    StudentBest,
    MentorBest,
    Repair,
    Grade,
    RotationCount,
    Rotations,
    Precedes,
    SetToMatching,
    MatchingToSet,
    Sheet,
    WeightedRepair,
    WeightedGrade,
    WeightedSheet,
    RepairMentor,
    WeightedRepairMentor,
    Moves,
}

/// How many calls there are, and the number after the last rule's.
pub const COUNT: usize = 22;
pub const RULES: usize = 20;

/// The rules that every call that takes a book may be refused by.
const BOOK: &[usize] = &[1, 2, 3, 4, 5, 6, 7, 18];

/// Each call, whether it takes a book, and the other rules that it may be refused by, as the header says.
const CALLS: [(Call, bool, &[usize]); COUNT] = [
    (Call::CheckBook, true, &[]),
    (Call::BookSize, false, &[3]),
    (Call::WriteBook, false, &[3, 1, 4, 6, 7, 14]),
    (Call::StudentList, true, &[11]),
    (Call::MentorList, true, &[11]),
    (Call::CheckMatching, true, &[8, 9, 19, 10]),
    (Call::StudentBest, true, &[14]),
    (Call::MentorBest, true, &[14]),
    (Call::Repair, true, &[8, 9, 19, 10, 13, 11, 12, 14]),
    (Call::Grade, true, &[8, 9, 19, 10]),
    (Call::RotationCount, true, &[]),
    (Call::Rotations, true, &[14]),
    (Call::Precedes, true, &[11]),
    (Call::SetToMatching, true, &[15, 16, 14]),
    (Call::MatchingToSet, true, &[8, 9, 19, 10, 14]),
    (Call::Sheet, false, &[14]),
    (Call::WeightedRepair, true, &[8, 9, 19, 10, 17, 13, 11, 12, 14]),
    (Call::WeightedGrade, true, &[8, 9, 19, 10, 17]),
    (Call::WeightedSheet, false, &[14]),
    (Call::RepairMentor, true, &[8, 9, 19, 10, 11, 12, 14]),
    (Call::WeightedRepairMentor, true, &[8, 9, 19, 10, 17, 11, 12, 14]),
    (Call::Moves, false, &[14]),
];

/// The calls for a repair: by a request and by a mentor's number, plain and weighted.
pub const REPAIRS: [Call; 4] = [Call::Repair, Call::WeightedRepair, Call::RepairMentor, Call::WeightedRepairMentor];

/// The refusals that each call prints as a sheet; rule 4 does not occur, since bytes past the book are no part of it.
const PRINTS: [(Call, &[usize]); 3] = [
    (Call::Sheet, &[1, 2, 3, 5, 6, 7, 18, 8, 9, 19, 10]),
    (Call::WeightedSheet, &[1, 2, 3, 5, 6, 7, 18, 8, 9, 19, 10, 17]),
    (Call::Moves, &[1, 2, 3, 5, 6, 7, 18, 8, 9, 19, 10]),
];

/// Whether a call may be refused by a rule for a book of an edition. In edition 1 no mentor is alone, so that none who
/// asks by her number is refused by 12.
fn in_edition(edition: Edition, (call, rule): (Call, usize)) -> bool {
    let by_mentor = [Call::RepairMentor, Call::WeightedRepairMentor].contains(&call);
    edition == Edition::Two || (![18, 19].contains(&rule) && (!by_mentor || rule != 12))
}

/// Each call that has to do with an edition, with a rule that it may be refused by there; 0 where it is not refused.
pub fn refused_by(edition: Edition) -> impl Iterator<Item = (Call, usize)> {
    let about = move |call: Call| edition == Edition::One || ![Call::BookSize, Call::WriteBook].contains(&call);
    let rules = |(call, takes_book, others): (Call, bool, &'static [usize])| {
        let book = if takes_book { BOOK } else { &[] };
        [0].iter().chain(book).chain(others).map(move |&rule| (call, rule))
    };
    let all = CALLS.into_iter().filter(move |(call, ..)| about(*call)).flat_map(rules);
    all.filter(move |&refusal| in_edition(edition, refusal))
}

/// Each call that prints a sheet, with a refusal that it may print for a book of an edition.
pub fn prints(edition: Edition) -> impl Iterator<Item = (Call, usize)> {
    let all = PRINTS.into_iter().flat_map(|(call, rules)| rules.iter().map(move |&rule| (call, rule)));
    all.filter(move |&refusal| in_edition(edition, refusal))
}

/// Each call that prints a sheet without moves, with a kind that it can be of for a book of an edition. In edition 1
/// nobody is alone, and without weights a repair has distance 2 at least.
pub fn shows(edition: Edition) -> impl Iterator<Item = (Call, Kind)> {
    let all = [Call::Sheet, Call::WeightedSheet].into_iter().flat_map(|call| KINDS.map(|kind| (call, kind)));
    all.filter(move |&(call, kind)| match kind {
        Kind::FixedAndAlone => edition == Edition::Two,
        Kind::GradeZero => call == Call::WeightedSheet,
        _ => true,
    })
}

#[cfg(test)]
mod tests {
    use super::*;

    /// The calls stand in the table in the order of their numbers.
    #[test]
    fn calls_stand_in_order() {
        assert!(CALLS.iter().enumerate().all(|(at, (call, ..))| *call as usize == at));
    }

    /// A mentor who asks by her number is alone in edition 2 alone, and breaks no rule on requests.
    #[test]
    fn rules_of_mentors_who_ask() {
        for call in [Call::RepairMentor, Call::WeightedRepairMentor] {
            let refused_by = |edition, rule| refused_by(edition).any(|refusal| refusal == (call, rule));
            assert_eq!([Edition::One, Edition::Two].map(|edition| refused_by(edition, 12)), [false, true]);
            assert_eq!([Edition::One, Edition::Two].map(|edition| refused_by(edition, 13)), [false, false]);
        }
    }

    /// Each rule is one of some call, 18 and 19 in edition 2 alone; nothing is written in edition 2.
    #[test]
    fn rules_of_each_edition() {
        for (edition, most) in [(Edition::One, 17), (Edition::Two, 19)] {
            let mut rules: Vec<usize> = refused_by(edition).map(|(_, rule)| rule).collect();
            rules.sort();
            rules.dedup();
            assert_eq!(rules, (0..=most).collect::<Vec<_>>());
        }
        assert!(!refused_by(Edition::Two).any(|(call, _)| call == Call::WriteBook));
    }
}
