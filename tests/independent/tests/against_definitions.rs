//! The library against the definitions: every book of up to three men with every matching, and some thousands of four
//! and five, most of them rich in stable matchings. Of edition 2, short lists, every book of up to two men, and some
//! thousands of three to five.

mod definitions;

use definitions::known::{every_book, every_short_book, Known};
use definitions::rotations::{closed, matching_of};
use definitions::{bytes, distance, Matching};
use independent::random::Random;
use independent::reply::{Reply, NO_GRADE};
use independent::{calls, samples, short_samples};

impl Known {
    fn test(&self) {
        self.test_extremes();
        self.test_rotations();
        self.test_sets();
        for given in self.market.matchings() {
            self.test_check(&bytes(&given));
        }
        for given in &self.stable {
            self.test_placed(given);
            self.test_repairs(given);
        }
    }

    fn test_extremes(&self) {
        let mut out = vec![0; self.market.n];
        assert_eq!(calls::student_best(&self.book, &mut out), Reply::value(self.market.n));
        assert_eq!(out, bytes(self.optimal()));
        assert_eq!(calls::mentor_best(&self.book, &mut out), Reply::value(self.market.n));
        assert_eq!(out, bytes(self.market.worst_for_men(&self.stable).unwrap()));
    }

    fn test_rotations(&self) {
        let list: Vec<u8> = self
            .rotations
            .iter()
            .flat_map(|r| {
                let pairs = r.iter().flat_map(|&(m, w)| [m as u8, w as u8]);
                [r.len() as u8].into_iter().chain(pairs).collect::<Vec<_>>()
            })
            .collect();
        let mut out = vec![0; list.len()];
        assert_eq!(calls::rotations(&self.book, &mut out), Reply::value(self.rotations.len()));
        assert_eq!(calls::rotation_count(&self.book), Reply::value(self.rotations.len()));
        assert_eq!(out, list);
    }

    /// Precedence of all pairs, all sets, and sets of all stable matchings.
    fn test_sets(&self) {
        let count = self.rotations.len();
        let preceding = self.market.preceding(self.optimal(), &self.rotations);
        for first in 0..count {
            for second in 0..count {
                let yes = first != second && preceding[second] >> first & 1 == 1;
                assert_eq!(calls::precedes(&self.book, first, second), Reply::value(yes as usize));
            }
        }
        let mut closed_sets = 0;
        for set in 0..1u32 << count {
            let marks: Vec<u8> = (0..count).map(|k| (set >> k & 1) as u8).collect();
            let mut out = vec![0; self.market.n];
            let reply = calls::set_to_matching(&self.book, &marks, &mut out);
            if !closed(set, &preceding) {
                assert_eq!(reply, Reply { number: 16, ..Reply::default() });
                continue;
            }
            closed_sets += 1;
            assert_eq!(reply, Reply::value(self.market.n));
            assert_eq!(out, bytes(&matching_of(&self.market, self.optimal(), &self.rotations, set)));
            let mut back = vec![7; count];
            assert_eq!(calls::matching_to_set(&self.book, &out, &mut back), Reply::value(count));
            assert_eq!(back, marks);
        }
        assert_eq!(closed_sets, self.stable.len());
    }

    /// Bytes as a matching; the number of the rule that they break.
    fn test_check(&self, given: &[u8]) -> usize {
        let due = match self.market.matching(given).map(|matching| self.market.first_blocking(&matching)) {
            Ok(None) => Reply::default(),
            Ok(Some((m, w))) => Reply { number: 10, place: m, second: w, ..Reply::default() },
            Err((number, place)) => Reply { number, place, ..Reply::default() },
        };
        assert_eq!(calls::check_matching(&self.book, given), due, "{given:?} {:?}", self.book);
        due.number
    }

    /// Who is placed is the same in every stable matching, on both sides.
    fn test_placed(&self, given: &Matching) {
        let women = |m: &Matching| (0..self.market.n).filter(|&w| m.contains(&Some(w))).collect::<Vec<_>>();
        assert!(given.iter().zip(self.optimal()).all(|(one, other)| one.is_some() == other.is_some()));
        assert_eq!(women(given), women(self.optimal()));
    }

    fn test_repairs(&self, given: &Matching) {
        let n = self.market.n;
        let ones = vec![1; n];
        for man in 0..n {
            let Some(woman) = given[man] else {
                self.test_alone(given, man);
                continue;
            };
            let (book, given_bytes, request) = (&self.book, bytes(given), [man as u8, woman as u8]);
            self.test_repair(given, man, |out, gains| calls::repair(book, &given_bytes, &request, out, gains));
            self.test_repair(given, man, |out, gains| calls::repair_mentor(book, &given_bytes, request[1], out, gains));
        }
        self.test_mentors_alone(given);
        let grade = self.market.grade(&self.stable, given, &ones);
        assert_eq!(calls::grade(&self.book, &bytes(given)), Reply::value(grade.unwrap_or(NO_GRADE)));
        let input = [&self.book[..], &bytes(given)].concat();
        let sheet = self.market.sheet(&self.stable, self.rotations.len(), given, &ones);
        assert_eq!(String::from_utf8(independent::sheet::text(&input)).unwrap(), sheet);
        let moves = self.market.with_moves(&self.stable, &sheet, given);
        assert_eq!(String::from_utf8(independent::moves::text(&input)).unwrap(), moves);
    }

    /// A call for the repair of a man's pair, by a request or by the woman's number.
    fn test_repair(&self, given: &Matching, man: usize, call: impl FnOnce(&mut [u8], &mut [i8]) -> Reply) {
        let n = self.market.n;
        let (mut out, mut gains) = (vec![99; n], vec![99; n]);
        let reply = call(&mut out, &mut gains);
        let Some((letter, repaired)) = self.market.answer(&self.stable, given, &vec![1; n], man) else {
            assert_eq!(reply, Reply { letter: b'F' as usize, ..Reply::default() });
            assert!(out.iter().all(|&b| b == 99) && gains.iter().all(|&g| g == 99));
            return;
        };
        assert_eq!(reply, Reply { letter: letter as usize, ..Reply::value(distance(&repaired, given)) });
        assert_eq!(out, bytes(&repaired));
        let gain = |i: usize| self.market.place(i, given[i]) as i8 - self.market.place(i, repaired[i]) as i8;
        assert_eq!(gains, (0..n).map(gain).collect::<Vec<_>>());
    }

    /// A woman who asks by her number is refused by 12 where she is alone; n and 255, which no woman has, by 11.
    fn test_mentors_alone(&self, given: &Matching) {
        let n = self.market.n;
        let alone = (0..n).filter(|&woman| !given.contains(&Some(woman)));
        for (woman, number) in alone.map(|woman| (woman as u8, 12)).chain([(n as u8, 11), (255, 11)]) {
            let (mut out, mut gains) = (vec![99; n], vec![99; n]);
            let reply = calls::repair_mentor(&self.book, &bytes(given), woman, &mut out, &mut gains);
            assert_eq!(reply, Reply { number, ..Reply::default() });
            assert!(out.iter().all(|&b| b == 99) && gains.iter().all(|&g| g == 99));
        }
    }

    /// A request for a man without a woman is refused: 12, or 11 where it has 255 in her place.
    fn test_alone(&self, given: &Matching, man: usize) {
        for (woman, number) in (0..self.market.n as u8).map(|w| (w, 12)).chain([(255, 11)]) {
            let n = self.market.n;
            let reply = calls::repair(&self.book, &bytes(given), &[man as u8, woman], &mut vec![0; n], &mut vec![0; n]);
            assert_eq!(reply, Reply { number, ..Reply::default() });
        }
    }
}

/// Books of edition 2 that were met: with rotations, with somebody alone, and with both.
#[derive(Default)]
struct Met([usize; 3]);

impl Met {
    fn count(&mut self, known: &Known) {
        let (rotations, alone) = (!known.rotations.is_empty(), known.somebody_alone());
        for (times, met) in self.0.iter_mut().zip([rotations, alone, rotations && alone]) {
            *times += met as usize;
        }
    }
}

#[test]
fn every_book_of_up_to_three() {
    for n in 0..4 {
        every_book(n).for_each(|known| known.test());
    }
}

#[test]
fn books_of_four_and_five() {
    let mut random = Random::new(45);
    let mut largest = 0;
    for k in 0..3000 {
        let n = 4 + k % 2;
        let known = Known::new(n, &samples::any(n, &mut random));
        known.test();
        largest = largest.max(known.stable.len());
    }
    assert_eq!(largest, 10, "the sample reaches the largest number of stable matchings for n = 4");
}

/// Every book of edition 2 of up to two men, and all bytes 0 to n and 255 as a matching.
#[test]
fn every_short_book_of_up_to_two() {
    let (mut books, mut met) = ([0; 3], Met::default());
    for n in 0..3 {
        let entries: Vec<u8> = (0..=n as u8).chain([255]).collect();
        let entry = |k: usize, i: usize| entries[k / entries.len().pow(i as u32) % entries.len()];
        for known in every_short_book(n) {
            known.test();
            books[n] += 1;
            met.count(&known);
            for k in 0..entries.len().pow(n as u32) {
                known.test_check(&(0..n).map(|i| entry(k, i)).collect::<Vec<u8>>());
            }
        }
    }
    assert_eq!((books, met.0), ([1, 2, 47], [2, 18, 0]));
}

#[test]
fn short_books_of_three_to_five() {
    let mut random = Random::new(203);
    let (mut met, mut refused) = (Met::default(), [0; 20]);
    for k in 0..4000 {
        let n = 3 + k % 3;
        let known = Known::short(&short_samples::any(n, &mut random));
        known.test();
        met.count(&known);
        for _ in 0..8 {
            let given: Vec<u8> = (0..n).map(|_| if random.once_in(3) { 255 } else { random.below(n) as u8 }).collect();
            refused[known.test_check(&given)] += 1;
        }
    }
    assert!(met.0.iter().all(|&times| times > 500), "{:?}", met.0);
    assert!([9, 10, 19].iter().all(|&rule| refused[rule] > 500), "{refused:?}");
}
