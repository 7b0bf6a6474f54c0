//! Repairs, fixed pairs and the grade in the words of document 01, over the list of all stable matchings. Each man has
//! a weight (W-201); document 01 itself counts men, so there each weighs 1. A man who is alone is no pair (W-203).
//! Where no pair can be repaired there is no grade (W-204). Nobody is moved in vain (W-206).

use super::{weight_moved, Market, Matching};

/// The answer for a pair: U or D with the repaired matching, or nothing where the pair is fixed.
pub type Answer = Option<(u8, Matching)>;

impl Market {
    /// Repair up: of the stable matchings without the pair in which no man is worse off, that in which each man has
    /// the lowest-ranked woman that any of these gives.
    pub fn repair_up(&self, stable: &[Matching], given: &Matching, man: usize) -> Option<Matching> {
        let some = self.without(stable, given, man, |new, old| new <= old);
        self.worst_for_men(&some).cloned().or_else(|| none(&some))
    }

    /// Repair down: of those in which no man is better off, that in which each has the highest-ranked such woman.
    pub fn repair_down(&self, stable: &[Matching], given: &Matching, man: usize) -> Option<Matching> {
        let some = self.without(stable, given, man, |new, old| new >= old);
        self.best_for_men(&some).cloned().or_else(|| none(&some))
    }

    /// The stable matchings without the man's pair in which each man's place, new and old, fits.
    fn without(
        &self,
        stable: &[Matching],
        given: &Matching,
        man: usize,
        fits: fn(usize, usize) -> bool,
    ) -> Vec<Matching> {
        let all_fit = |m: &Matching| (0..self.n).all(|i| fits(self.place(i, m[i]), self.place(i, given[i])));
        stable.iter().filter(|m| m[man] != given[man] && all_fit(m)).cloned().collect()
    }

    /// The one that moves the smaller total weight, at equal totals up. That none exists when the pair is fixed, that
    /// no stable matching without the pair moves less (demand 3), and that both repairs lie between (W-206), is tested
    /// on the way.
    pub fn answer(&self, stable: &[Matching], given: &Matching, weights: &[u8], man: usize) -> Answer {
        let moved = |m: &Matching| weight_moved(m, given, weights);
        let [up, down] = [self.repair_up(stable, given, man), self.repair_down(stable, given, man)];
        self.test_between(stable, given, man, up.as_ref(), |new, old| new < old);
        self.test_between(stable, given, man, down.as_ref(), |new, old| new > old);
        let (up, down) = (up.map(|m| (b'U', m)), down.map(|m| (b'D', m)));
        let answer = [up, down].into_iter().flatten().min_by_key(|(_, m)| moved(m));
        let least = stable.iter().filter(|m| m[man] != given[man]).map(moved).min();
        assert_eq!(answer.as_ref().map(|(_, m)| moved(m)), least);
        answer
    }

    /// W-206: where some stable matching has the asking man better off, or worse off, as `off` says of his new and his
    /// old place, there is a repair, and each man's woman in it stands on his list between the given one and the one in
    /// that matching, ends counted. Who is alone stays so.
    fn test_between(
        &self,
        stable: &[Matching],
        given: &Matching,
        man: usize,
        repaired: Option<&Matching>,
        off: fn(usize, usize) -> bool,
    ) {
        let others = stable.iter().filter(|m| off(self.place(man, m[man]), self.place(man, given[man])));
        for other in others {
            let repaired = repaired.expect("a repair on this side");
            for i in 0..self.n {
                let [old, new, far] = [given, repaired, other].map(|m| self.place(i, m[i]));
                assert!(old.min(far) <= new && new <= old.max(far), "man {i} in {repaired:?} beside {other:?}");
                assert_eq!(repaired[i].is_some(), given[i].is_some());
            }
        }
    }

    /// The men whose pairs every stable matching holds, or where `fixed` is false, whose pairs some matching does not.
    fn men(&self, stable: &[Matching], given: &Matching, fixed: bool) -> Vec<usize> {
        let held = |man: usize| stable.iter().all(|m| m[man] == given[man]);
        (0..self.n).filter(|&man| given[man].is_some() && held(man) == fixed).collect()
    }

    /// The grade, as demand 3 has it: the least number such that, for each pair that is not fixed, some stable
    /// matching without it moves men of at most that total weight besides the asking one. None where all are fixed.
    pub fn grade(&self, stable: &[Matching], given: &Matching, weights: &[u8]) -> Option<usize> {
        let not_fixed = self.men(stable, given, false);
        let enough = |b: usize| {
            not_fixed.iter().all(|&man| {
                let others = |m: &Matching| weight_moved(m, given, weights) - weights[man] as usize;
                stable.iter().any(|m| m[man] != given[man] && others(m) <= b)
            })
        };
        (!not_fixed.is_empty()).then(|| (0..).find(|&b| enough(b)).unwrap())
    }

    /// The sheet of a stable matching.
    pub fn sheet(&self, stable: &[Matching], rotations: usize, given: &Matching, weights: &[u8]) -> String {
        let grade = self.grade(stable, given, weights).map_or("-".to_string(), |grade| grade.to_string());
        let fixed = self.men(stable, given, true).len();
        let mut sheet = format!("{} {rotations} {fixed} {grade}\n", self.n);
        for man in 0..self.n {
            let Some(woman) = given[man] else {
                sheet += &format!("{man} - N 0\n");
                continue;
            };
            let (letter, moved) = match self.answer(stable, given, weights, man) {
                Some((letter, repaired)) => (letter as char, weight_moved(&repaired, given, weights)),
                None => ('F', 0),
            };
            sheet += &format!("{man} {woman} {letter} {moved}\n");
        }
        sheet
    }

    /// A sheet in which each man weighs 1, with the moves: under each man's line one for each man whom the answer for
    /// his pair moves, with his old woman, his new one and the places gained.
    pub fn with_moves(&self, stable: &[Matching], sheet: &str, given: &Matching) -> String {
        let mut lines = sheet.lines();
        let mut text = format!("{}\n", lines.next().unwrap());
        for (man, line) in lines.enumerate() {
            text += &format!("{line}\n");
            let answer = given[man].and_then(|_| self.answer(stable, given, &vec![1; self.n], man));
            let Some((_, repaired)) = answer else { continue };
            for i in (0..self.n).filter(|&i| repaired[i] != given[i]) {
                let gain = self.place(i, given[i]) as isize - self.place(i, repaired[i]) as isize;
                text += &format!(" {i} {} {} {gain:+}\n", given[i].unwrap(), repaired[i].unwrap());
            }
        }
        text
    }
}

/// Nothing, where there is nothing to choose from. A choice that has no extreme would break the lattice theorem.
fn none(some: &[Matching]) -> Option<Matching> {
    assert!(some.is_empty(), "stable matchings on one side of the given one have an extreme");
    None
}
