//! The calls for a sheet without moves. Beyond its bytes, the first line of the archive's sheet is held against its
//! other lines and against the archive's grade call (W-204).

use crate::both::Both;
use crate::calls::Call;
use crate::lent::Lent;
use archive::printed::{disagreement, Printed};
use archive::Reply;
use listing::{asked, sheet};

impl Both {
    /// The sheet of a book with a matching after it, of which this text is due.
    pub fn sheet(&mut self, input: &[u8], text: &str, room: usize) {
        let archive = |out: &mut [u8]| archive::sheet(input, out);
        let sheets = self.lending(Call::Sheet, &[input], room, archive, |out| asked::print(text, out));
        let (book, matching) = sheet::parts(input);
        let grade = || archive::grade(book, matching);
        self.printed(Call::Sheet, input, sheets, &vec![1; matching.len()], grade);
    }

    /// The weighted sheet of a book with a matching and weights after it.
    pub fn weighted_sheet(&mut self, input: &[u8], room: usize) {
        let archive = |out: &mut [u8]| archive::weighted_sheet(input, out);
        let listing = |out: &mut [u8]| asked::weighted_sheet(input, out);
        let sheets = self.lending(Call::WeightedSheet, &[input], room, archive, listing);
        let (book, matching, weights) = sheet::weighted_parts(input);
        let grade = || archive::weighted_grade(book, matching, weights);
        self.printed(Call::WeightedSheet, input, sheets, weights, grade);
    }

    /// Counts the sheet that is due by what it shows, and holds the archive's own against its lines and the grade call.
    fn printed(
        &mut self,
        call: Call,
        input: &[u8],
        [(given, mut given_out), (due, mut due_out)]: [(Reply, Lent<u8>); 2],
        weights: &[u8],
        grade: impl FnOnce() -> Reply,
    ) {
        let text = &due_out.buffer()[..due.value];
        self.tally.count_printed(call, printed_refusal(text));
        Printed::read(text).iter().for_each(|printed| self.tally.count_shown(call, printed));
        let text = given_out.buffer().get(..given.value).filter(|_| given.number == 0);
        if let Some([given, due]) = text.and_then(|text| disagreement(text, weights, grade)) {
            self.tally.differ(format!("{call:?} {input:?}, first line\n  archive {given}\n  due     {due}"));
        }
    }
}

/// The number of the refusal that a sheet prints, if it prints one.
pub fn printed_refusal(text: &[u8]) -> Option<usize> {
    std::str::from_utf8(text).ok()?.strip_prefix("refused ")?.trim_end().parse().ok()
}

#[cfg(test)]
mod tests {
    use super::*;
    use archive::printed::KINDS;
    use archive::NO_GRADE;

    /// Whether a sheet's first line agrees with its lines, with these weights, and with a grade call of this value.
    fn agrees(text: &str, weights: &[u8], value: usize) -> bool {
        disagreement(text.as_bytes(), weights, || Reply::value(value)).is_none()
    }

    /// The number of fixed pairs is that of the lines with F alone; the grade is that of the lines and of the call.
    #[test]
    fn a_first_line_that_does_not_agree() {
        let lines = "0 0 D 7\n1 1 D 7\n2 2 F 0\n3 - N 0\n";
        for (first, agree) in
            [("1 4", true), ("2 4", false), ("0 4", false), ("1 3", false), ("4 1", false), ("1 -", false)]
        {
            assert_eq!(agrees(&format!("4 1 {first}\n{lines}"), &[3, 4, 9, 9], 4), agree, "{first}");
        }
        for value in [0, 3, NO_GRADE] {
            assert!(!agrees(&format!("4 1 1 4\n{lines}"), &[3, 4, 9, 9], value), "{value}");
        }
        assert!(!agrees(&format!("4 1 4\n{lines}"), &[3, 4, 9, 9], 4));
    }

    /// `-` goes with lines without U and D and with `NO_GRADE`, 0 with neither. A refusal has no first line.
    #[test]
    fn no_grade_and_the_grade_0() {
        let (fixed, repaired) = ("0 0 F 0\n1 - N 0\n", "0 0 D 1\n1 1 D 0\n");
        assert!(agrees(&format!("2 0 1 -\n{fixed}"), &[1, 1], NO_GRADE));
        assert!(!agrees(&format!("2 0 1 -\n{fixed}"), &[1, 1], 0));
        assert!(!agrees(&format!("2 0 1 0\n{fixed}"), &[1, 1], 0));
        assert!(!agrees(&format!("2 0 2 -\n{fixed}"), &[1, 1], NO_GRADE));
        assert!(agrees(&format!("2 1 0 0\n{repaired}"), &[1, 0], 0));
        assert!(!agrees(&format!("2 1 0 -\n{repaired}"), &[1, 0], NO_GRADE));
        assert!(!agrees(&format!("2 1 0 0\n{repaired}"), &[1, 0], NO_GRADE));
        assert!(agrees("refused 10\n", &[], 0));
    }

    /// Each kind is that of one of these sheets at least, by its number.
    #[test]
    fn kinds_of_sheets() {
        let kinds = |text: &str| {
            let printed = Printed::read(text.as_bytes()).expect("a sheet");
            (0..KINDS.len()).filter(|&kind| printed.is(KINDS[kind])).collect::<Vec<_>>()
        };
        assert_eq!(kinds("1 0 1 -\n0 0 F 0\n"), [0]);
        assert_eq!(kinds("0 0 0 -\n"), [1]);
        assert_eq!(kinds("1 0 0 -\n0 - N 0\n"), [1]);
        assert_eq!(kinds("3 1 1 1\n0 0 D 2\n1 1 D 2\n2 2 F 0\n"), [2]);
        assert_eq!(kinds("2 0 1 -\n0 0 F 0\n1 - N 0\n"), [0, 3]);
        assert_eq!(kinds("3 2 0 0\n0 0 D 1\n1 1 D 0\n2 2 D 0\n"), [4]);
        assert_eq!(kinds("2 1 0 1\n0 0 D 1\n1 1 D 1\n"), [0; 0]);
        assert!(KINDS.iter().enumerate().all(|(at, &kind)| kind as usize == at));
    }
}
