//! Weighted repairs, grades and sheets against the definitions: every book of up to three men, and some of four and
//! five, with weights of 0, 1 and 2 and of all bytes; and weights of 1 against the plain calls.

mod definitions;

use definitions::known::{every_book, every_short_book, Known};
use definitions::{bytes, weight_moved, Matching};
use independent::random::Random;
use independent::reply::{Reply, NO_GRADE};
use independent::{calls, samples, short_samples};

/// Answers that were met, by letter: all of them, those of another letter than the plain one, those of total 0.
#[derive(Default)]
struct Met {
    letters: [usize; 3],
    turned: [usize; 3],
    weightless: [usize; 3],
}

impl Met {
    fn count(&mut self, weighted: Reply, plain: Reply) {
        let letter = [b'U', b'D', b'F'].iter().position(|&c| c as usize == weighted.letter).unwrap();
        self.letters[letter] += 1;
        self.turned[letter] += (weighted.letter != plain.letter) as usize;
        self.weightless[letter] += (weighted.value == 0) as usize;
    }
}

impl Known {
    /// The repairs of all pairs, the grade and the sheet of a stable matching.
    fn test_weights(&self, given: &Matching, weights: &[u8], met: &mut Met) {
        for man in (0..self.market.n).filter(|&man| given[man].is_some()) {
            self.test_repair(given, weights, man, met);
        }
        let given_bytes = bytes(given);
        let grade = self.market.grade(&self.stable, given, weights).unwrap_or(NO_GRADE);
        assert_eq!(calls::weighted_grade(&self.book, &given_bytes, weights), Reply::value(grade));
        let due = self.market.sheet(&self.stable, self.rotations.len(), given, weights);
        let input = [&self.book[..], &given_bytes, weights].concat();
        assert_eq!(String::from_utf8(independent::sheet::weighted_text(&input)).unwrap(), due);
    }

    fn test_repair(&self, given: &Matching, weights: &[u8], man: usize, met: &mut Met) {
        let n = self.market.n;
        let given_bytes = bytes(given);
        let request = [man as u8, given_bytes[man]];
        let (mut out, mut gains) = (vec![99; n], vec![99; n]);
        let plain = calls::repair(&self.book, &given_bytes, &request, &mut vec![0; n], &mut vec![0; n]);
        let reply = calls::weighted_repair(&self.book, &given_bytes, weights, &request, &mut out, &mut gains);
        met.count(reply, plain);
        let (mut same_out, mut same_gains) = (vec![99; n], vec![99; n]);
        let woman = request[1];
        let by_mentor =
            calls::weighted_repair_mentor(&self.book, &given_bytes, weights, woman, &mut same_out, &mut same_gains);
        assert_eq!((by_mentor, &same_out, &same_gains), (reply, &out, &gains));
        let Some((letter, repaired)) = self.market.answer(&self.stable, given, weights, man) else {
            assert_eq!(reply, Reply { letter: b'F' as usize, ..Reply::default() });
            assert!(out.iter().all(|&b| b == 99) && gains.iter().all(|&g| g == 99));
            return;
        };
        let total = weight_moved(&repaired, given, weights);
        assert_eq!(reply, Reply { letter: letter as usize, ..Reply::value(total) });
        assert_eq!(out, bytes(&repaired));
        let gain = |i: usize| self.market.place(i, given[i]) as i8 - self.market.place(i, repaired[i]) as i8;
        assert_eq!(gains, (0..n).map(gain).collect::<Vec<_>>());
    }

    /// Weights of 1 give the answers of the plain calls.
    fn test_ones(&self, given: &Matching) {
        let n = self.market.n;
        let (given, ones) = (bytes(given), vec![1; n]);
        for man in 0..n {
            let request = [man as u8, given[man]];
            let (mut out, mut gains, mut plain_out, mut plain_gains) = (vec![9; n], vec![9; n], vec![9; n], vec![9; n]);
            let plain = calls::repair(&self.book, &given, &request, &mut plain_out, &mut plain_gains);
            assert_eq!(calls::weighted_repair(&self.book, &given, &ones, &request, &mut out, &mut gains), plain);
            assert_eq!((out, gains), (plain_out, plain_gains));
        }
        assert_eq!(calls::weighted_grade(&self.book, &given, &ones), calls::grade(&self.book, &given));
        let input = [&self.book[..], &given, &ones].concat();
        let plain = &input[..self.book.len() + n];
        assert_eq!(independent::sheet::weighted_text(&input), independent::sheet::text(plain));
    }
}

/// All weights of 0, 1 and 2 for n men.
fn small_weights(n: usize) -> Vec<Vec<u8>> {
    let digit = |k: usize, i: usize| (k / 3usize.pow(i as u32) % 3) as u8;
    (0..3usize.pow(n as u32)).map(|k| (0..n).map(|i| digit(k, i)).collect()).collect()
}

/// Up to two men: all weights of 0, 1 and 2. Three: where there are several stable matchings four of the 27, else, all
/// pairs being fixed, one.
#[test]
fn every_book_of_up_to_three() {
    let mut met = Met::default();
    let mut random = Random::new(3);
    for n in 0..4 {
        let all = small_weights(n);
        for known in every_book(n) {
            let times = if n < 3 { all.len() } else { [1, 4][(known.stable.len() > 1) as usize] };
            for given in &known.stable {
                known.test_ones(given);
                let first = random.below(all.len());
                for k in 0..times {
                    known.test_weights(given, &all[(first + 7 * k) % all.len()], &mut met);
                }
            }
        }
    }
    assert_eq!(met.turned[2], 0, "weights make no pair fixed");
    assert!(met.letters.iter().all(|&times| times > 1000), "{:?}", met.letters);
    assert!(met.weightless[..2].iter().all(|&times| times > 1000), "{:?}", met.weightless);
}

#[test]
fn books_of_four_and_five() {
    let mut met = Met::default();
    let mut random = Random::new(46);
    for k in 0..1500 {
        let n = 4 + k % 2;
        let known = Known::new(n, &samples::any(n, &mut random));
        for given in &known.stable {
            known.test_ones(given);
            for limit in [2, 3, 3, 256] {
                let weights: Vec<u8> = (0..n).map(|_| random.below(limit) as u8).collect();
                known.test_weights(given, &weights, &mut met);
            }
        }
    }
    assert!(met.turned[..2].iter().all(|&times| times > 100), "up for down, down for up: {:?}", met.turned);
    assert!(met.weightless[..2].iter().all(|&times| times > 100), "{:?}", met.weightless);
}

/// Every book of edition 2 of up to two men with all weights of 0, 1 and 2, and books of three to five with any.
#[test]
fn short_books() {
    let mut met = Met::default();
    let mut random = Random::new(47);
    for n in 0..3 {
        for known in every_short_book(n) {
            for given in &known.stable {
                known.test_ones(given);
                small_weights(n).iter().for_each(|weights| known.test_weights(given, weights, &mut met));
            }
        }
    }
    for k in 0..1500 {
        let n = 3 + k % 3;
        let known = Known::short(&short_samples::any(n, &mut random));
        for given in &known.stable {
            known.test_ones(given);
            for limit in [2, 3, 256] {
                let weights: Vec<u8> = (0..n).map(|_| random.below(limit) as u8).collect();
                known.test_weights(given, &weights, &mut met);
            }
        }
    }
    assert!(met.letters.iter().all(|&times| times > 500), "{:?}", met.letters);
    assert!(met.turned[..2].iter().all(|&times| times > 20), "{:?}", met.turned);
}
