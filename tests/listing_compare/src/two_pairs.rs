//! What is asked in the first part by requests of four bytes (W-207): every two pairs of a stable matching in each
//! order, and each pair twice, plain and with weights. Result buffers are long enough.

use crate::both::Both;
use listing::asked::Asked;
use listing::matching::Matching;
use listing::pairs::SORTS;
use listing::people::Man;
use listing::weights::Weights;

/// A room that is enough for n up to 6: a matching or gains.
const ROOM: usize = 16;

/// The requests for two pairs of a matching, with the men of the pairs.
fn requests(stable: &Matching) -> impl Iterator<Item = ([u8; 4], [Man; 2])> + '_ {
    let both = |first: (Man, _)| stable.pairs().map(move |second| [first, second]);
    stable
        .pairs()
        .flat_map(both)
        .map(|[(first, its), (second, own)]| ([first.0, its.0, second.0, own.0], [first, second]))
}

impl Both {
    /// Asks for the repair of each two pairs, than which no stable matching that lacks both moves fewer students; and
    /// whom the candidates of each sort move.
    pub fn ask_pairs(&mut self, book: &Asked, stable: &Matching) {
        let (matching, ones) = (stable.bytes(), book.ones());
        let ones = Weights::read(matching.len(), &ones).expect("a weight for each man");
        for (request, men) in requests(stable) {
            let due = self.repair(book, &matching, &request, ROOM, ROOM);
            let fewest = book.listing().least_for_two(stable, men, ones);
            self.expect(due.value == fewest.unwrap_or(0), "the least distance of a stable matching without both pairs");
            if men[0] < men[1] {
                self.ask_candidates(book, stable, men);
            }
        }
    }

    /// W-206 of the candidate of each sort, by the definitions: whoever it moves is moved by every stable matching of
    /// the sort, and so it moves no more, and weighs no more.
    fn ask_candidates(&mut self, book: &Asked, given: &Matching, men: [Man; 2]) {
        let listing = book.listing();
        for sort in SORTS {
            let Some(candidate) = listing.candidate(sort, given, men) else { continue };
            for other in listing.of_sort(sort, given, men) {
                let moved: Vec<Man> = other.moved(given).collect();
                let in_vain = candidate.moved(given).any(|man| !moved.contains(&man));
                self.expect(!in_vain, "whoever a candidate moves is moved");
                self.tally.beside_candidates += 1;
            }
        }
    }

    /// Asks the same with weights: no stable matching that lacks both pairs weighs less.
    pub fn ask_weighted_pairs(&mut self, book: &Asked, stable: &Matching, weights: &[u8]) {
        let matching = stable.bytes();
        for (request, men) in requests(stable) {
            let due = self.weighted_repair(book, &matching, weights, &request, (ROOM, ROOM));
            self.tally.weighted_totals_of_two += due.value;
            let weights = Weights::read(matching.len(), weights).expect("a weight for each man");
            let least = book.listing().least_for_two(stable, men, weights);
            self.expect(due.value == least.unwrap_or(0), "the least total of a stable matching without both pairs");
        }
    }
}
