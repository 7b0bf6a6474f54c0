//! The calls for a sheet without moves. Beyond its bytes, the first line of the archive's sheet is held against its
//! other lines and against the archive's grade call (W-204).

use crate::both::{Both, Lent};
use archive::printed::{disagreement, Printed};
use independent::reply::Reply;
use independent::{book, calls, sheet};

impl Both {
    /// The sheet and the sheet with moves, in buffers of the same length.
    pub fn sheets(&mut self, input: &[u8], room: usize) {
        self.sheet(input, room);
        self.moves(input, room);
    }

    pub fn sheet(&mut self, input: &[u8], room: usize) {
        let archive = |out: &mut [u8]| archive::sheet(input, out);
        let sheets = self.lending("sheet", &[input], room, archive, |out| calls::sheet(input, out));
        let (book, matching) = book::and_rest(input);
        let grade = || archive::grade(book, matching);
        self.printed("sheet", input, sheets, &vec![1; matching.len()], grade);
    }

    pub fn weighted_sheet(&mut self, input: &[u8], room: usize) {
        let archive = |out: &mut [u8]| archive::weighted_sheet(input, out);
        let sheets = self.lending("weighted_sheet", &[input], room, archive, |out| calls::weighted_sheet(input, out));
        let (book, matching, weights) = sheet::weighted_parts(input);
        let grade = || archive::weighted_grade(book, matching, weights);
        self.printed("weighted_sheet", input, sheets, weights, grade);
    }

    /// Counts the independent library's sheet by its kinds, and holds the archive's against its own lines and the grade
    /// call.
    fn printed(
        &mut self,
        call: &str,
        input: &[u8],
        [(given, mut given_out), (due, mut due_out)]: [(Reply, Lent); 2],
        weights: &[u8],
        grade: impl FnOnce() -> Reply,
    ) {
        let printed = Printed::read(&due_out.buffer()[..due.value]);
        printed.iter().for_each(|printed| self.tally.count_shown(call, printed));
        let text = given_out.buffer().get(..given.value).filter(|_| given.number == 0);
        if let Some([given, due]) = text.and_then(|text| disagreement(text, weights, grade)) {
            self.tally.differ(&format!("{call}, first line"), &[input], given, due);
        }
    }
}
