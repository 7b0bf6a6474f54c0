//! Two pairs at one go (W-207) against the definitions: every book of up to three men, and some of four and five, of
//! edition 2 every one of up to two and some of three to five. Of every stable matching all ordered pairs of its pairs,
//! without weights and with some.

mod definitions;

use definitions::known::{every_book, every_short_book, Known};
use definitions::pairs::{broken, letter, SORTS};
use definitions::{bytes, Matching};
use independent::random::Random;
use independent::reply::Reply;
use independent::{calls, samples, short_samples};

/// Answers that were met: with the letters of each sort; fixed, though each pair alone is not; and weighted ones with
/// the letters of each sort where the plain ones are others.
#[derive(Debug, Default)]
struct Met {
    sorts: [usize; 4],
    fixed_together: usize,
    turned: [usize; 4],
}

impl Met {
    fn count(&mut self, reply: Reply) -> Option<usize> {
        let sort = SORTS.iter().position(|letters| letter(letters) == reply.letter)?;
        self.sorts[sort] += 1;
        Some(sort)
    }
}

impl Known {
    /// All ordered pairs of pairs of a stable matching, plain and with these weights.
    fn test_pairs(&self, given: &Matching, weights: &[u8], met: &mut Met) {
        let men: Vec<usize> = (0..self.market.n).filter(|&man| given[man].is_some()).collect();
        for &first in &men {
            for &second in &men {
                let plain = self.test_two(given, None, [first, second]);
                let weighted = self.test_two(given, Some(weights), [first, second]);
                met.count(plain);
                if let Some(sort) = met.count(weighted) {
                    met.turned[sort] += (weighted.letter != plain.letter) as usize;
                }
                let held = |man: usize| self.stable.iter().all(|m| m[man] == given[man]);
                let fixed = plain.letter == letter(b"F");
                met.fixed_together += (fixed && !held(first) && !held(second)) as usize;
            }
        }
    }

    /// A request for the pairs of two men, plain where there are no weights.
    fn test_two(&self, given: &Matching, weights: Option<&[u8]>, men: [usize; 2]) -> Reply {
        let (n, given_bytes) = (self.market.n, bytes(given));
        let request: Vec<u8> = men.iter().flat_map(|&man| [man as u8, given_bytes[man]]).collect();
        let (mut out, mut gains) = (vec![99; n], vec![99; n]);
        let reply = match weights {
            None => calls::repair(&self.book, &given_bytes, &request, &mut out, &mut gains),
            Some(w) => calls::weighted_repair(&self.book, &given_bytes, w, &request, &mut out, &mut gains),
        };
        let ones = vec![1; n];
        let due = self.market.due_two(&self.stable, given, weights.unwrap_or(&ones), men);
        assert_eq!((reply, out, gains), due, "{request:?} of {given:?} in {:?}", self.book);
        reply
    }

    /// Every request of up to five of these bytes that breaks a rule; how often each rule was broken.
    fn test_requests(&self, given: &Matching, entries: &[u8], refused: &mut [usize; 20]) {
        let (n, given, ones) = (self.market.n, bytes(given), vec![1; self.market.n]);
        for length in 0..6 {
            for k in 0..entries.len().pow(length) {
                let request: Vec<u8> = (0..length).map(|i| entries[k / entries.len().pow(i) % entries.len()]).collect();
                let Some(number) = broken(n, &given, &request) else { continue };
                let (mut out, mut gains) = (vec![99; n], vec![99; n]);
                let due = Reply { number, ..Reply::default() };
                assert_eq!(calls::repair(&self.book, &given, &request, &mut out, &mut gains), due, "{request:?}");
                let short = calls::weighted_repair(&self.book, &given, &ones, &request, &mut out, &mut []);
                assert_eq!(short, due, "{request:?}, no room for gains");
                assert!(out.iter().all(|&b| b == 99) && gains.iter().all(|&g| g == 99));
                refused[number] += 1;
            }
        }
    }
}

/// Weights of n men, each below the limit.
fn weights(n: usize, limit: usize, random: &mut Random) -> Vec<u8> {
    (0..n).map(|_| random.below(limit) as u8).collect()
}

/// UD and DU move two men at least each way, and nobody both ways, so that they need four.
#[test]
fn every_book_of_up_to_three() {
    let (mut met, mut random) = (Met::default(), Random::new(207));
    for n in 0..4 {
        for known in every_book(n) {
            let weights = weights(n, 3, &mut random);
            known.stable.iter().for_each(|given| known.test_pairs(given, &weights, &mut met));
        }
    }
    assert!(met.sorts[0] > 1000 && met.sorts[3] > 1000, "{met:?}");
    assert_eq!(met.sorts[1..3], [0, 0]);
    assert!(met.fixed_together > 1000, "{met:?}");
}

#[test]
fn books_of_four_and_five() {
    let (mut met, mut random) = (Met::default(), Random::new(208));
    for k in 0..3000 {
        let n = 4 + k % 2;
        let known = Known::new(n, &samples::any(n, &mut random));
        for given in &known.stable {
            let limit = [2, 3, 256][k % 3];
            known.test_pairs(given, &weights(n, limit, &mut random), &mut met);
        }
    }
    assert!(met.sorts.iter().all(|&times| times > 1000), "{met:?}");
    assert!(met.turned.iter().all(|&times| times > 50), "{met:?}");
    assert!(met.fixed_together > 1000, "{met:?}");
}

#[test]
fn short_books() {
    let (mut met, mut random) = (Met::default(), Random::new(209));
    for known in (0..3).flat_map(every_short_book) {
        let weights = weights(known.market.n, 3, &mut random);
        known.stable.iter().for_each(|given| known.test_pairs(given, &weights, &mut met));
    }
    for k in 0..4000 {
        let n = 3 + k % 3;
        let known = Known::short(&short_samples::any(n, &mut random));
        for given in &known.stable {
            known.test_pairs(given, &weights(n, [2, 3, 256][k / 3 % 3], &mut random), &mut met);
        }
    }
    assert!(met.sorts.iter().all(|&times| times > 100), "{met:?}");
    assert!(met.fixed_together > 100, "{met:?}");
}

/// Every request of up to five bytes 0 to n and 255, for every book of up to two men of either edition.
#[test]
fn requests_that_break_a_rule() {
    let mut refused = [0; 20];
    for n in 0..3 {
        let entries: Vec<u8> = (0..=n as u8).chain([255]).collect();
        for known in every_book(n).chain(every_short_book(n)) {
            known.stable.iter().for_each(|given| known.test_requests(given, &entries, &mut refused));
        }
    }
    assert!([11, 12, 13].iter().all(|&rule| refused[rule] > 1000), "{refused:?}");
}
