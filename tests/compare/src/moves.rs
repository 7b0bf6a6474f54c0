//! The call for a sheet with moves. Beyond the comparison of its bytes, the archive's text is made once more of the
//! archive's sheet and of its repairs, pair by pair; of the independent library that takes only how an input is parted.

use crate::both::{Both, Lent};
use crate::sound::Sound;
use archive::moves::{Kind, Moves, KINDS};
use independent::{book, calls, moves};

/// Bytes that are enough for every sheet.
const SHEET: usize = 1024;

/// The texts of the independent library: how many are of each kind, how many were refused by 14, and how many print a
/// refusal.
#[derive(Default)]
pub struct MovesTally {
    kinds: [usize; KINDS.len()],
    refused: usize,
    printing: usize,
    /// How many of the archive's texts were made once more.
    remade: usize,
}

impl MovesTally {
    /// Counts a call by the text that was due, or none where it was refused.
    fn count(&mut self, text: Option<&[u8]>) {
        let read = text.and_then(Moves::read);
        KINDS.iter().for_each(|&kind| self.kinds[kind as usize] += read.as_ref().is_some_and(|r| r.is(kind)) as usize);
        self.refused += text.is_none() as usize;
        self.printing += text.is_some_and(|text| text.starts_with(b"refused ")) as usize;
    }

    /// What never occurred and should have.
    pub fn missing(&self) -> impl Iterator<Item = String> + '_ {
        let kinds = KINDS.into_iter().map(|kind| (kind.words(), self.kinds[kind as usize]));
        let others = [("refusal 14", self.refused), ("a printed refusal", self.printing)];
        let never = kinds.chain(others).filter(|(_, times)| *times == 0);
        never.map(|(what, _)| format!("sheet with moves and {what}"))
    }

    pub fn print(&self) {
        let times = |kind: Kind| format!("{} {}", kind.words(), self.kinds[kind as usize]);
        println!("sheets with moves and {}", KINDS.map(times).join(", "));
        println!(
            "    refused {}, refusals printed {}, made by repairs too {}",
            self.refused, self.printing, self.remade
        );
    }
}

impl Both {
    /// Where the archive's text fills the buffer it is made once more.
    pub fn moves(&mut self, input: &[u8], room: usize) {
        let archive = |out: &mut [u8]| archive::moves(input, out);
        let [(given, mut out), (due, mut due_out)] =
            self.lending("moves", &[input], room, archive, |out| calls::moves(input, out));
        let text = due_out.buffer().get(..due.value).filter(|_| due.number == 0);
        self.tally.moves.count(text);
        if given.number == 0 && given.value == room {
            self.compare_with_repairs(input, &mut out);
        }
    }

    /// The archive's text beside the one that its sheet and its repairs give.
    fn compare_with_repairs(&mut self, input: &[u8], out: &mut Lent) {
        let (book, matching) = book::and_rest(input);
        let due = by_repairs(input, book, matching);
        self.tally.moves.remade += 1;
        if out.buffer() != due {
            let text = |bytes: &[u8]| String::from_utf8_lossy(bytes).into_owned();
            let (given, due) = (text(out.buffer()), text(&due));
            self.tally.differ("moves beside the sheet and its repairs", &[input], given, due);
        }
    }
}

/// The text that the archive's sheet and its repairs give: the lines of the sheet, and under each student's those whose
/// gains the repair of his pair gives as other than 0.
fn by_repairs(input: &[u8], book: &[u8], matching: &[u8]) -> Vec<u8> {
    let mut out = [0; SHEET];
    let written = archive::sheet(input, &mut out).value;
    let mut lines = out[..written].split_inclusive(|&byte| byte == b'\n');
    let mut text = lines.next().unwrap_or(&[]).to_vec();
    for (student, line) in lines.enumerate() {
        text.extend(line);
        text.extend(under(book, matching, student).into_bytes());
    }
    text
}

/// The lines under a student's own.
fn under(book: &[u8], matching: &[u8], student: usize) -> String {
    let (mut out, mut gains) = (vec![0; matching.len()], vec![0; matching.len()]);
    let letter = archive::repair(book, matching, &[student as u8, matching[student]], &mut out, &mut gains).letter;
    if ![b'U', b'D'].map(usize::from).contains(&letter) {
        return String::new();
    }
    let moved = (0..matching.len()).filter(|&other| gains[other] != 0);
    moved.map(|other| format!(" {other} {} {} {:+}\n", matching[other], out[other], gains[other])).collect()
}

impl Sound {
    /// The sheet with moves of a stable matching, in buffers that are exact, one byte or now and then more too short,
    /// and longer.
    pub fn ask_moves(&self, both: &mut Both, input: &[u8]) {
        let size = moves::text(input).len();
        let short = if both.random.once_in(4) { both.random.below(size) } else { size - 1 };
        for room in [size, short, size + 1 + both.random.below(40)] {
            both.moves(input, room);
        }
    }
}
