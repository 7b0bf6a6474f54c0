//! What comes of requests of four bytes, two pairs (W-207): the counts, and what never came.

use crate::calls::{refused_by, Call, RULES};
use archive::Reply;
use listing::book::Edition;

/// What comes of a request of four bytes, but for refusals by the rules that are tried on no pair.
#[derive(Clone, Copy, Debug, PartialEq, Eq)]
pub enum Came {
    UU,
    UD,
    DU,
    DD,
    Fixed,
    Twice,
    TwiceFixed,
    NumberInFirst,
    NumberInSecond,
    ApartInFirst,
    ApartInSecond,
}

/// All that may come, with its words.
const ALL: [(Came, &str); 11] = [
    (Came::UU, "UU"),
    (Came::UD, "UD"),
    (Came::DU, "DU"),
    (Came::DD, "DD"),
    (Came::Fixed, "two pairs that are fixed"),
    (Came::Twice, "the same pair twice"),
    (Came::TwiceFixed, "the same fixed pair twice"),
    (Came::NumberInFirst, "rule 11 on the first pair"),
    (Came::NumberInSecond, "rule 11 on the second pair"),
    (Came::ApartInFirst, "rule 12 on the first pair"),
    (Came::ApartInSecond, "rule 12 on the second pair"),
];

/// The answers to two pairs that are not the same.
pub const ANSWERS: [Came; 5] = [Came::UU, Came::UD, Came::DU, Came::DD, Came::Fixed];

/// The calls that take a request.
const CALLS: [Call; 2] = [Call::Repair, Call::WeightedRepair];

/// Whether a request is of two pairs.
pub fn is_of_two(request: &[u8]) -> bool {
    request.len() == 4
}

/// The letters U and D that a reply has, of one pair or of two; none where it has another letter or none.
pub fn sides(letter: usize) -> Vec<char> {
    let letters = [letter % 256, letter / 256];
    let letters = if letters[1] == 0 { &letters[..1] } else { &letters[..] };
    let side = |&letter: &usize| ['U', 'D'].into_iter().find(|&side| side as usize == letter);
    letters.iter().map(side).collect::<Option<Vec<char>>>().unwrap_or_default()
}

/// What comes of a request of four bytes by the reply that is due.
fn came(matching: &[u8], request: &[u8], due: Reply) -> Option<Came> {
    let (first, second) = request.split_at(2);
    let fixed = due.letter == usize::from(b'F');
    let sound = matching.get(usize::from(first[0])) == Some(&first[1]);
    match due.number {
        0 if first == second => Some(if fixed { Came::TwiceFixed } else { Came::Twice }),
        0 if fixed => Some(Came::Fixed),
        0 => match sides(due.letter)[..] {
            ['U', 'U'] => Some(Came::UU),
            ['U', 'D'] => Some(Came::UD),
            ['D', 'U'] => Some(Came::DU),
            _ => Some(Came::DD),
        },
        11 => Some(if sound { Came::NumberInSecond } else { Came::NumberInFirst }),
        12 => Some(if sound { Came::ApartInSecond } else { Came::ApartInFirst }),
        _ => None,
    }
}

/// The counts of one call.
#[derive(Clone, Copy, Default)]
struct Counts {
    /// How often each came.
    came: [usize; ALL.len()],
    /// How often each rule was met.
    met: [usize; RULES],
    /// Repairs that moved students who weigh more than 0 and left others who do.
    mixed: usize,
    /// Stable matchings of the same sort beside what the archive wrote, and those that moved students whom it left.
    beside: [usize; 2],
}

/// The counts of each call that takes a request.
#[derive(Default)]
pub struct Pairs([Counts; CALLS.len()]);

impl Pairs {
    /// Where the counts of a call stand.
    fn at(call: Call) -> usize {
        CALLS.iter().position(|&other| other == call).expect("a call that takes a request")
    }

    /// Counts a request by the reply that is due, if it is of two pairs.
    pub fn count(&mut self, call: Call, matching: &[u8], request: &[u8], due: Reply) {
        if is_of_two(request) {
            let counts = &mut self.0[Self::at(call)];
            counts.met[due.number] += 1;
            came(matching, request, due).into_iter().for_each(|came| counts.came[came as usize] += 1);
        }
    }

    /// Counts a repair by the total weights of the students whom it moves and of those whom it leaves.
    pub fn count_mixed(&mut self, call: Call, moved: usize, left: usize) {
        self.0[Self::at(call)].mixed += (moved > 0 && left > 0) as usize;
    }

    /// Counts a stable matching beside what the archive wrote by how many students it moves and that leaves.
    pub fn count_beside(&mut self, call: Call, left: usize) {
        let [all, leaving] = &mut self.0[Self::at(call)].beside;
        *all += 1;
        *leaving += (left > 0) as usize;
    }

    /// How often this came of a call.
    pub fn came(&self, call: Call, came: Came) -> usize {
        self.0[Self::at(call)].came[came as usize]
    }

    /// How often a request of a call met a rule; none of a call that takes no request.
    pub fn met(&self, call: Call, rule: usize) -> usize {
        if CALLS.contains(&call) {
            self.0[Self::at(call)].met[rule]
        } else {
            0
        }
    }

    /// How many repairs of a call moved students and left others.
    pub fn mixed(&self, call: Call) -> usize {
        self.0[Self::at(call)].mixed
    }

    /// How many stable matchings stood beside what a call of the archive wrote, and how many of these moved students
    /// whom it left.
    pub fn beside(&self, call: Call) -> [usize; 2] {
        self.0[Self::at(call)].beside
    }

    /// Adds other counts.
    pub fn add(&mut self, other: &Pairs) {
        for (one, more) in self.0.iter_mut().zip(&other.0) {
            let numbers = one.came.iter_mut().chain(&mut one.met).chain([&mut one.mixed]).chain(&mut one.beside);
            let added = more.came.iter().chain(&more.met).chain([&more.mixed]).chain(&more.beside);
            numbers.zip(added).for_each(|(number, more)| *number += more);
        }
    }

    /// For books of an edition: what never came of a call, the rules that its requests of four bytes never met, and
    /// the calls that never moved students and left others, or never left one whom a matching of the sort moves.
    pub fn missing(&self, edition: Edition) -> impl Iterator<Item = String> + '_ {
        let of_four = move |(call, rule)| CALLS.contains(&call) && rule != 13;
        let unmet = refused_by(edition).filter(move |&refusal| of_four(refusal));
        let unmet = unmet.filter(|&(call, rule)| self.met(call, rule) == 0);
        let unmet = unmet.map(|(call, rule)| format!("{call:?} of two pairs by rule {rule}"));
        let never = CALLS.into_iter().flat_map(|call| ALL.map(|(came, words)| (call, came, words)));
        let never = never.filter(|&(call, came, _)| self.came(call, came) == 0);
        let never = never.map(|(call, _, words)| format!("{call:?} of two pairs with {words}"));
        let unmixed = CALLS.into_iter().filter(|&call| self.mixed(call) == 0);
        let unmixed = unmixed.map(|call| format!("{call:?} of two pairs that moves students and leaves others"));
        let moving = CALLS.into_iter().filter(|&call| self.beside(call)[1] == 0);
        let moving =
            moving.map(|call| format!("{call:?} of two pairs that leaves a student whom one of its sort moves"));
        unmet.chain(never).chain(unmixed).chain(moving)
    }
}

#[cfg(test)]
impl Pairs {
    /// Counts in which everything came.
    pub fn complete() -> Pairs {
        Pairs([Counts { came: [1; ALL.len()], met: [1; RULES], mixed: 1, beside: [1; 2] }; CALLS.len()])
    }
}

#[cfg(test)]
mod tests {
    use super::*;

    /// A reply with these letters.
    fn with(letters: &[u8; 2]) -> Reply {
        Reply { letter: usize::from(letters[0]) + 256 * usize::from(letters[1]), ..Reply::value(1) }
    }

    /// All that may come stands in the order of its number.
    #[test]
    fn all_stand_in_order() {
        assert!(ALL.iter().enumerate().all(|(at, &(came, _))| came as usize == at));
        assert!(ANSWERS.iter().enumerate().all(|(at, &came)| came as usize == at));
    }

    /// Answers by their letters, the same pair twice, and rules 11 and 12 by the pair that breaks them.
    #[test]
    fn what_comes_of_a_request() {
        let (matching, refused) = ([1, 0, 255], |number| Reply { number, ..Reply::value(0) });
        let answers = [b"UU", b"UD", b"DU", b"DD", b"F\0"].map(|letters| came(&matching, &[0, 1, 1, 0], with(letters)));
        assert_eq!(answers, ANSWERS.map(Some));
        let twice = [b"U\0", b"D\0", b"F\0"].map(|letters| came(&matching, &[1, 0, 1, 0], with(letters)));
        assert_eq!(twice, [Some(Came::Twice), Some(Came::Twice), Some(Came::TwiceFixed)]);
        assert_eq!(came(&matching, &[3, 1, 3, 1], refused(11)), Some(Came::NumberInFirst));
        assert_eq!(came(&matching, &[1, 0, 2, 255], refused(11)), Some(Came::NumberInSecond));
        assert_eq!(came(&matching, &[1, 1, 3, 1], refused(12)), Some(Came::ApartInFirst));
        assert_eq!(came(&matching, &[1, 0, 0, 0], refused(12)), Some(Came::ApartInSecond));
        assert_eq!(came(&matching, &[1, 0, 0, 1], refused(14)), None);
    }

    /// What never came is missed, and nothing else; 13 is met by other requests alone.
    #[test]
    fn what_never_came_is_missing() {
        let missing = |pairs: &Pairs, edition| pairs.missing(edition).collect::<Vec<_>>();
        assert!(missing(&Pairs::complete(), Edition::Two).is_empty());
        for (came, words) in ALL {
            let mut pairs = Pairs::complete();
            pairs.0[0].came[came as usize] = 0;
            assert_eq!(missing(&pairs, Edition::One), [format!("Repair of two pairs with {words}")]);
        }
        for rule in 0..RULES {
            let mut pairs = Pairs::complete();
            pairs.0.iter_mut().for_each(|counts| counts.met[rule] = 0);
            let due = [rule > 17, false].map(|none| if none || [13, 15, 16].contains(&rule) { 0 } else { 2 });
            let due = if rule == 17 { [1, 1] } else { due };
            assert_eq!([Edition::One, Edition::Two].map(|edition| missing(&pairs, edition).len()), due, "rule {rule}");
        }
        let mut pairs = Pairs::complete();
        (pairs.0[0].mixed, pairs.0[1].beside[1]) = (0, 0);
        let due = ["moves students and leaves others", "leaves a student whom one of its sort moves"];
        let due =
            [format!("Repair of two pairs that {}", due[0]), format!("WeightedRepair of two pairs that {}", due[1])];
        assert_eq!(missing(&pairs, Edition::Two), due);
    }
}
