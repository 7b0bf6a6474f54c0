//! What the archive reports of a repair, of one pair or of two, recounted from its gains (W-202).

use crate::both::Both;
use crate::pairs_tally::letters;
use independent::reply::Reply;

impl Both {
    /// A repair reports the total weight of the students whose gains are not 0.
    pub fn recount(&mut self, call: &str, inputs: &[&[u8]], weights: &[u8], reply: Reply, gains: &[i8]) {
        let two = letters(reply).is_some();
        if !two && reply.letter != 'U' as usize && reply.letter != 'D' as usize {
            return;
        }
        let gains = &gains[..gains.len().min(weights.len())];
        let total = |moved: bool| {
            let those = gains.iter().zip(weights).filter(|(&gain, _)| (gain != 0) == moved);
            those.map(|(_, &weight)| weight as usize).sum()
        };
        let (moved, left) = (total(true), total(false));
        if two {
            self.tally.pairs[(call == "weighted_repair") as usize].count_mixed(reply, moved, left);
        } else {
            self.tally.count_mixed(call, moved, left);
        }
        if reply.value != moved {
            let (given, due) = (format!("{reply:?}, gains {gains:?}"), format!("value {moved}, by these gains"));
            self.tally.differ(&format!("{call}, recount"), inputs, given, due);
        }
    }
}
