//! Both repairs of a pair, as the archive writes them. A call writes the nearer of the two; the other is asked for with
//! weights by which only those weigh whom the nearer one moves besides the asking student.

use archive::Reply;
use listing::asked::Asked;
use listing::between::Side;
use listing::matching::Matching;
use listing::people::Man;

/// A pair of a stable matching that is asked for: that of a man who is placed.
pub struct Asking<'a> {
    pub book: &'a Asked<'a>,
    pub given: Matching,
    pub given_bytes: &'a [u8],
    pub man: Man,
}

/// What the archive gives for the repair on a side: its matching, that there is none, or something that cannot be.
pub enum Repair {
    Written(Matching),
    Absent,
    Wrong(Reply),
}

impl Asking<'_> {
    /// The reply of the archive with these weights, and the bytes that it wrote.
    fn ask(&self, weights: &[u8]) -> (Reply, Vec<u8>) {
        let (mut out, mut gains) = (vec![0; weights.len()], vec![0; weights.len()]);
        let request = [self.man.0, self.given_bytes[self.man.index()]];
        let (book, given) = (self.book.book(), self.given_bytes);
        let reply = archive::weighted_repair(book, given, weights, &request, &mut out, &mut gains);
        (reply, out)
    }

    /// Weights of 1 for those whom a matching moves besides the asking student, and of 0 for all others.
    fn only_moved(&self, moved: &[u8]) -> Vec<u8> {
        let weighs = |i: usize| moved[i] != self.given_bytes[i] && i != self.man.index();
        (0..moved.len()).map(|i| weighs(i) as u8).collect()
    }

    /// The repair on a side: the one that is taken with weights of 1, or with those of whom that one moves.
    pub fn repair(&self, side: Side) -> Repair {
        let letter = if side == Side::Up { 'U' } else { 'D' } as usize;
        let (nearer, nearer_out) = self.ask(&vec![1; self.given_bytes.len()]);
        let (other, other_out) = self.ask(&self.only_moved(&nearer_out));
        let found = [(nearer, nearer_out), (other, other_out)].into_iter().find(|(reply, _)| reply.letter == letter);
        match found {
            Some((reply, out)) => self.book.stable_matching(&out).map_or(Repair::Wrong(reply), Repair::Written),
            None if [nearer, other].iter().all(|reply| reply.number == 0 && reply.letter != 0) => Repair::Absent,
            None => Repair::Wrong(other),
        }
    }
}
