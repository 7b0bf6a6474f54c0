//! Questions to a well-formed book: good ones, and ones that break each rule after the book's.

use crate::both::Both;
use crate::by_mentor;
use crate::pairs;
use crate::weights;
use independent::instance;
use independent::matching::ALONE;
use independent::poset::Poset;
use independent::random::Random;
use independent::reply::Reply;

/// A well-formed book and its rotation poset, which the questions are taken from.
pub struct Sound {
    pub n: usize,
    pub book: Vec<u8>,
    pub poset: Poset,
}

impl Sound {
    pub fn new(n: usize, book: Vec<u8>) -> Sound {
        let poset = Poset::numbered(&instance::read(&book).expect("a well-formed book"));
        Sound { n, book, poset }
    }

    /// The students who are alone in every stable matching.
    pub fn alone(&self) -> impl Iterator<Item = usize> + '_ {
        (0..self.n).filter(|&man| self.poset.optimal[man] == ALONE)
    }

    /// All questions that a book of either edition is asked.
    pub fn ask(&self, both: &mut Both) {
        let before = self.book.clone();
        both.check_book(&self.book);
        self.ask_lists(both);
        self.ask_rotations(both);
        self.ask_sets(both);
        let matchings = self.matchings(&mut both.random);
        both.beside = self.beside(&matchings, &mut both.random);
        for matching in &matchings {
            both.tally.matchings += 1;
            self.ask_matching(both, matching);
        }
        self.ask_bad_matchings(both, &matchings[0]);
        self.ask_bad_requests(both, &matchings[0]);
        self.ask_bad_weights(both, &matchings[0]);
        self.ask_bad_mentors(both, &matchings[0]);
        self.ask_bad_pairs(both, &matchings[0]);
        both.beside.clear();
        assert_eq!(self.book, before, "a call has written to the book");
    }

    /// The writer, with the lists of a book of edition 1.
    pub fn ask_writer(&self, both: &mut Both, lists: &[u8]) {
        for room in around(self.book.len(), &mut both.random) {
            both.write_book(self.n, lists, room);
        }
        both.book_size(self.n);
    }

    fn ask_lists(&self, both: &mut Both) {
        let last = self.n.saturating_sub(1);
        for person in [0, last, both.random.below(self.n + 1), self.n, 255, 256, 256 + last, 1 << 32, usize::MAX] {
            both.student_list(&self.book, person);
            both.mentor_list(&self.book, person);
        }
    }

    fn ask_rotations(&self, both: &mut Both) {
        for room in around(self.n, &mut both.random) {
            both.student_best(&self.book, room);
            both.mentor_best(&self.book, room);
        }
        both.rotation_count(&self.book);
        for room in around(self.poset.list_size(), &mut both.random) {
            both.rotations(&self.book, room);
        }
        let count = self.poset.count();
        let all = if count <= 8 { count * count } else { 24 };
        for k in 0..all {
            let (first, second) =
                if count <= 8 { (k / count, k % count) } else { self.two_rotations(&mut both.random) };
            both.precedes(&self.book, first, second);
        }
        for (first, second) in [(count, 0), (0, count), (count, usize::MAX), (usize::MAX, 0), (1 << 32, 0)] {
            both.precedes(&self.book, first, second);
        }
    }

    /// Two rotation numbers, often near one another.
    fn two_rotations(&self, random: &mut Random) -> (usize, usize) {
        let count = self.poset.count();
        let first = random.below(count);
        let near = first + random.below(2 * self.n);
        (first, if random.once_in(4) { random.below(count) } else { near.min(count - 1) })
    }

    fn ask_sets(&self, both: &mut Both) {
        let count = self.poset.count();
        let closed = self.closed_subset(&mut both.random);
        for room in around(self.n, &mut both.random) {
            both.set_to_matching(&self.book, &closed, room);
        }
        let open: Vec<u8> =
            closed.iter().map(|&mark| if both.random.once_in(count) { 1 - mark } else { mark }).collect();
        both.set_to_matching(&self.book, &open, self.n);
        both.set_to_matching(&self.book, &open, self.n.saturating_sub(1));
        let scattered: Vec<u8> = (0..count).map(|_| both.random.below(2) as u8).collect();
        both.set_to_matching(&self.book, &scattered, self.n);
        both.set_to_matching(&self.book, &[&closed[..], &[0]].concat(), self.n);
        if count > 0 {
            both.set_to_matching(&self.book, &closed[1..], 0);
            both.set_to_matching(&self.book, &[], self.n);
            let mut marked = open;
            marked[both.random.below(count)] =
                if both.random.once_in(2) { 2 } else { 2 + both.random.below(254) as u8 };
            both.set_to_matching(&self.book, &marked, self.n);
        }
    }

    /// A closed subset: some rotations and all that precede them.
    fn closed_subset(&self, random: &mut Random) -> Vec<u8> {
        let count = self.poset.count();
        let mut set = vec![0; count];
        for _ in 0..random.below(4).min(count) {
            set[random.below(count)] = 1;
        }
        for r in (0..count).rev().filter(|_| count > 0) {
            if set[r] == 1 {
                self.poset.before(r).iter().for_each(|&b| set[b as usize] = 1);
            }
        }
        set
    }

    /// Stable matchings of the book: all of them where there are few rotations, else some.
    fn matchings(&self, random: &mut Random) -> Vec<Vec<u8>> {
        let count = self.poset.count();
        let few = count <= 6 || (count <= 9 && random.once_in(8));
        let mut sets: Vec<Vec<u8>> = if few {
            let all = (0..1usize << count).map(|set| (0..count).map(|k| (set >> k & 1) as u8).collect());
            all.filter(|set: &Vec<u8>| self.poset.is_closed(set)).collect()
        } else {
            (0..if self.n < 32 { 5 } else { 2 }).map(|_| self.closed_subset(random)).collect()
        };
        let first = random.below(sets.len());
        sets.swap(0, first);
        sets.iter().map(|set| self.poset.matching(set)[..self.n].to_vec()).collect()
    }

    /// A stable matching: its set, its grade, its sheet, also with moves, and the repairs of all its pairs, plain and
    /// weighted, also by the mentors' numbers, and of some two of them at one go.
    fn ask_matching(&self, both: &mut Both, matching: &[u8]) {
        both.check_matching(&self.book, matching);
        both.grade(&self.book, matching);
        for room in around(self.poset.count(), &mut both.random) {
            both.matching_to_set(&self.book, matching, room);
        }
        let input = [&self.book[..], matching].concat();
        let size = independent::sheet::text(&input).len();
        for room in [size, size - 1, 1024] {
            both.sheet(&input, room);
        }
        self.ask_moves(both, &input);
        let plain = |man: usize| {
            let more = both.random.below(3);
            both.repair(&self.book, matching, &[man as u8, matching[man]], self.n + more, self.n + 2 - more)
        };
        let plain: Vec<Reply> = (0..self.n).map(plain).collect();
        self.ask_weighted(both, matching, &plain);
        self.ask_mentors(both, matching);
        self.ask_pairs(both, matching, &plain);
    }

    /// Matchings that break 8, 9 or 10, alone and with other faults behind them.
    fn ask_bad_matchings(&self, both: &mut Both, stable: &[u8]) {
        let mut bad = vec![[stable, &[0]].concat(), [stable, stable, &[1]].concat(), both.random.order(self.n)];
        if self.n > 0 {
            bad.push(stable[1..].to_vec());
            let at = both.random.below(self.n);
            bad.extend([self.n as u8, 255, 64, stable[both.random.below(self.n)]].map(|byte| with(stable, at, byte)));
            let mut swapped = stable.to_vec();
            swapped.swap(at, both.random.below(self.n));
            bad.push(swapped);
        }
        for matching in bad {
            self.ask_bad_matching(both, &matching);
        }
    }

    /// One matching that breaks a rule.
    pub fn ask_bad_matching(&self, both: &mut Both, matching: &[u8]) {
        both.check_matching(&self.book, matching);
        both.grade(&self.book, matching);
        both.matching_to_set(&self.book, matching, self.poset.count());
        let (input, little_room) = ([&self.book[..], matching].concat(), both.random.below(12));
        both.sheets(&input, 1024);
        both.sheets(&input, little_room);
        both.repair(&self.book, matching, &[0, matching.first().copied().unwrap_or(0)], self.n, self.n);
        both.repair(&self.book, matching, &[0], 0, self.n);
        self.ask_weighted_bad_matching(both, matching);
        by_mentor::ask_bad(both, &self.book, matching, self.n);
        pairs::ask_bad(both, &self.book, matching, self.n);
    }

    /// Requests that break 13, 11, 12 and 14, alone and together.
    fn ask_bad_requests(&self, both: &mut Both, stable: &[u8]) {
        let n = self.n as u8;
        let own = stable.first().copied().unwrap_or(0);
        let other = both.random.below(self.n + 1) as u8;
        let alone = self.alone().next().unwrap_or(0) as u8;
        let requests: [&[u8]; 13] = [
            &[],
            &[0],
            &[0, own, 0],
            &[n, own, 0, 0],
            &[n, own],
            &[0, n],
            &[255, 255],
            &[n, n],
            &[0, other],
            &[other, own],
            &[0, own],
            &[alone, 0],
            &[alone, ALONE],
        ];
        let (n, less) = (self.n, self.n.saturating_sub(1));
        for request in requests {
            for [room, gains_room] in [[n, n], [less, n], [n, less], [0, 0]] {
                both.repair(&self.book, stable, request, room, gains_room);
                let weights = weights::any(n, &mut both.random);
                both.weighted_repair(&self.book, stable, &weights, request, [room, gains_room]);
            }
        }
    }
}

/// Buffer lengths about a result's size: exact, one too short, none, longer.
pub fn around(size: usize, random: &mut Random) -> [usize; 4] {
    [size, size.saturating_sub(1), if random.once_in(4) { 0 } else { size }, size + 1 + random.below(20)]
}

/// The bytes with one of them changed.
pub fn with(bytes: &[u8], at: usize, byte: u8) -> Vec<u8> {
    let mut new = bytes.to_vec();
    new[at] = byte;
    new
}
