//! Counts of what was compared, and the report of differences.

use crate::moves::MovesTally;
use crate::pairs_tally::PairsTally;
use crate::sound::Sound;
use archive::printed::{Kind, Printed, KINDS};
use independent::reply::Reply;
use std::fmt::Write;

/// How many differences are printed in full.
const PRINTED: usize = 5;

/// The calls whose number is recounted from the gains, and the calls for a sheet.
const REPAIRS: [&str; 4] = ["repair", "weighted_repair", "repair_mentor", "weighted_repair_mentor"];
const SHEETS: [&str; 2] = ["sheet", "weighted_sheet"];

#[derive(Default)]
pub struct Tally {
    pub books: usize,
    /// Books for n = 64: of edition 1 and of edition 2.
    pub largest_books: [usize; 2],
    /// Books of edition 2: all, those with somebody alone, with rotations, with both.
    pub short_books: [usize; 4],
    pub damaged_books: usize,
    pub matchings: usize,
    pub calls: usize,
    /// Answers with U, D and F.
    pub letters: [usize; 3],
    /// Weighted answers with U where the plain one is D, and with D where it is U.
    pub turned: [usize; 2],
    /// Weighted answers with U or D and a total of 0.
    pub weightless: usize,
    /// Repairs by each of the calls that move students who weigh more than 0 and leave others who do.
    pub mixed: [usize; REPAIRS.len()],
    /// Stable matchings beside repairs up, and beside repairs down: all, and those that move students whom the repair
    /// leaves.
    pub beside: [[usize; 2]; 2],
    /// Requests for two pairs, plain and weighted.
    pub pairs: [PairsTally; 2],
    /// Sheets with moves.
    pub moves: MovesTally,
    /// Sheets of each kind, plain and weighted.
    pub shown: [[usize; KINDS.len()]; 2],
    /// Refusals by number; at 0 the calls that were not refused.
    pub refusals: [usize; 20],
    /// The same of the calls by a mentor's number.
    pub refusals_by_mentor: [usize; 20],
    pub differences: usize,
}

impl Tally {
    /// Counts a book.
    pub fn count_book(&mut self, sound: &Sound) {
        let short = sound.book[0] == 2;
        self.books += 1;
        self.largest_books[short as usize] += (sound.n == 64) as usize;
        if short {
            let (alone, rotations) = (sound.alone().next().is_some(), sound.poset.count() > 0);
            for (times, met) in self.short_books.iter_mut().zip([true, alone, rotations, alone && rotations]) {
                *times += met as usize;
            }
        }
    }

    /// Counts a call by the independent library's reply.
    pub fn count(&mut self, reply: Reply) {
        self.calls += 1;
        self.refusals[reply.number as usize] += 1;
        if let Some(letter) = ['U', 'D', 'F'].iter().position(|&c| c as usize == reply.letter) {
            self.letters[letter] += 1;
        }
    }

    /// Counts a call by a mentor's number once more.
    pub fn count_by_mentor(&mut self, reply: Reply) {
        self.refusals_by_mentor[reply.number] += 1;
    }

    /// Counts a weighted answer beside the plain one for the same pair.
    pub fn weigh(&mut self, plain: Reply, weighted: Reply) {
        let turned = |from: char, to: char| plain.letter == from as usize && weighted.letter == to as usize;
        self.turned[0] += turned('D', 'U') as usize;
        self.turned[1] += turned('U', 'D') as usize;
        self.weightless += (plain.value > 0 && weighted.value == 0) as usize;
    }

    /// Counts a repair by the total weights of the students whom it moves and of those whom it leaves.
    pub fn count_mixed(&mut self, call: &str, moved: usize, left: usize) {
        let repair = REPAIRS.iter().position(|&repair| repair == call).expect("one of these calls");
        self.mixed[repair] += (moved > 0 && left > 0) as usize;
    }

    /// Counts a stable matching beside a repair with this letter, by how many students it moves and the repair leaves.
    pub fn count_beside(&mut self, letter: char, left: usize) {
        let [all, leaving] = &mut self.beside[(letter == 'D') as usize];
        *all += 1;
        *leaving += (left > 0) as usize;
    }

    /// Counts a sheet by its kinds.
    pub fn count_shown(&mut self, call: &str, printed: &Printed) {
        let sheet = SHEETS.iter().position(|&sheet| sheet == call).expect("one of these calls");
        for kind in KINDS {
            self.shown[sheet][kind as usize] += printed.is(kind) as usize;
        }
    }

    /// The calls for a sheet, each with the kinds that it can be of, and how many of these there were. Without weights
    /// a repair has distance 2 at least.
    fn shown(&self) -> impl Iterator<Item = (&'static str, Kind, usize)> + '_ {
        let kinds = |sheet: usize| KINDS.map(|kind| (SHEETS[sheet], kind, self.shown[sheet][kind as usize]));
        (0..2).flat_map(kinds).filter(|&(call, kind, _)| call != SHEETS[0] || kind != Kind::GradeZero)
    }

    /// Counts a difference, and prints it if it is one of the first.
    pub fn differ(&mut self, call: &str, inputs: &[&[u8]], archive: String, due: String) {
        self.differences += 1;
        if self.differences > PRINTED {
            return;
        }
        println!("difference {} in {call}, book {}", self.differences, self.books);
        for input in inputs {
            println!("  input    {}", hex(input));
        }
        println!("  archive  {archive}");
        println!("  due      {due}");
    }

    /// What never occurred and should have.
    pub fn missing(&self) -> Vec<String> {
        let refusals = (0..20).filter(|&k| self.refusals[k] == 0).map(|k| format!("refusal {k}"));
        let by_mentor = (0..20).filter(|&k| self.refusals_by_mentor[k] == 0 && ![13, 15, 16].contains(&k));
        let by_mentor = by_mentor.map(|k| format!("refusal {k} by mentor"));
        let letters = (0..3).filter(|&k| self.letters[k] == 0).map(|k| format!("letter {}", ["U", "D", "F"][k]));
        let large = (0..2).filter(|&k| self.largest_books[k] == 0).map(|k| format!("book of 64 of edition {}", k + 1));
        let kinds = ["", " with somebody alone", " with rotations", " with both"];
        let short = (0..4).filter(|&k| self.short_books[k] == 0).map(|k| format!("book of edition 2{}", kinds[k]));
        let turned = (0..2).filter(|&k| self.turned[k] == 0).map(|k| format!("weights that give {}", ["U", "D"][k]));
        let weightless = (self.weightless == 0).then(|| "repair of weight 0".to_string());
        let mixed = REPAIRS.iter().zip(self.mixed).filter(|(_, times)| *times == 0);
        let mixed = mixed.map(|(call, _)| format!("{call} that moves students and leaves others"));
        let beside = (0..2).filter(|&k| self.beside[k][1] == 0);
        let beside = beside.map(|k| format!("repair {} that leaves whom a stable matching moves", ["up", "down"][k]));
        let shown = self.shown().filter(|&(_, _, times)| times == 0);
        let shown = shown.map(|(call, kind, _)| format!("{call} with {}", kind.words()));
        let books = large.chain(short);
        let pairs = [false, true].into_iter().flat_map(|weighted| self.pairs[weighted as usize].missing(weighted));
        refusals
            .chain(by_mentor)
            .chain(letters)
            .chain(books)
            .chain(turned)
            .chain(weightless)
            .chain(mixed)
            .chain(beside)
            .chain(shown)
            .chain(pairs)
            .chain(self.moves.missing())
            .collect()
    }

    pub fn print(&self) {
        let ([up, down, fixed], [turned_up, turned_down]) = (self.letters, self.turned);
        let ([full, short], [all, alone, rotations, with_both]) = (self.largest_books, self.short_books);
        println!("books {}, stable matchings {}; books of n = 64: {full} and {short}", self.books, self.matchings);
        println!("edition 2: {all}, with somebody alone {alone}, with rotations {rotations}, with both {with_both}");
        println!("damaged books {}, calls {}: U {up}, D {down}, F {fixed}", self.damaged_books, self.calls);
        println!("weights: {turned_up} D to U, {turned_down} U to D, {} totals of 0", self.weightless);
        for (call, times) in REPAIRS.iter().zip(self.mixed) {
            println!("{call} that moves students and leaves others: {times}");
        }
        for (repairs, [all, leaving]) in ["repairs up", "repairs down"].iter().zip(self.beside) {
            println!("stable matchings beside {repairs}: {all}, of which {leaving} move students whom these leave");
        }
        self.shown().for_each(|(call, kind, times)| println!("{call} with {}: {times}", kind.words()));
        [false, true].iter().for_each(|&weighted| self.pairs[weighted as usize].print(weighted));
        self.moves.print();
        print_refusals("refused", &self.refusals);
        print_refusals("refused by mentor", &self.refusals_by_mentor);
        println!("differences {}", self.differences);
    }
}

/// Prints in a line how often each refusal was given.
fn print_refusals(words: &str, refusals: &[usize; 20]) {
    let mut line = words.to_string();
    for (number, times) in refusals.iter().enumerate().skip(1) {
        write!(line, " {number}: {times}").expect("a string takes everything");
    }
    println!("{line}");
}

/// Bytes as hexadecimal digits, long ones shortened.
pub fn hex(bytes: &[u8]) -> String {
    let shown: String = bytes.iter().take(160).map(|b| format!("{b:02x}")).collect();
    let more = if bytes.len() > 160 { "..." } else { "" };
    format!("{} bytes {shown}{more}", bytes.len())
}
