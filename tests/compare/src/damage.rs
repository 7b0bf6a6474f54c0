//! Damaged books, asked by every function with inputs that would be fine and with ones that are bad too: the book's
//! rule has to be the one given. Now and then the damage changes nothing or gives another well-formed book.

use crate::both::Both;
use crate::by_mentor;
use crate::pairs;
use crate::sound::{with, Sound};
use crate::weights;
use independent::book;
use independent::random::Random;

/// One book damaged in a number of ways.
pub fn ask(both: &mut Both, sound: &Sound) {
    let optimal = sound.poset.optimal[..sound.n].to_vec();
    for _ in 0..6 {
        let damaged = damage(sound, &mut both.random);
        ask_all(both, sound, &damaged, &optimal);
    }
    ask_sheets(both, sound, &optimal);
    let noise: Vec<u8> = (0..both.random.below(40)).map(|_| both.random.byte()).collect();
    ask_all(both, sound, &noise, &optimal);
    for edition in [1, 2] {
        let headed = [&[edition, both.random.below(3) as u8], &noise[..]].concat();
        ask_all(both, sound, &headed, &optimal);
    }
}

/// A damaged copy: the edition, n, the directory or the entries changed, cut off or lengthened, one or more of these.
fn damage(sound: &Sound, random: &mut Random) -> Vec<u8> {
    let mut damaged = sound.book.clone();
    for _ in 0..1 + random.below(2) {
        damaged = damage_once(damaged, sound.n, random);
    }
    damaged
}

fn damage_once(bytes: Vec<u8>, n: usize, random: &mut Random) -> Vec<u8> {
    let start = book::lists_start(n);
    let kind = random.below(10);
    let at = match kind {
        0 => 0,
        1 => 1,
        2 | 3 => 2 + random.below(8 * n + 1),
        4..=7 => start + random.below(bytes.len().saturating_sub(start) + 1),
        _ => bytes.len(),
    };
    if at < bytes.len() {
        let byte = match random.below(4) {
            0 => random.byte(),
            1 => n as u8,
            2 => bytes[at].wrapping_add(1),
            _ => random.below(n + 1) as u8,
        };
        return with(&bytes, at, byte);
    }
    let added = random.below(3);
    match kind {
        8 => bytes[..random.below(bytes.len() + 1)].to_vec(),
        9 if random.once_in(2) => bytes[..bytes.len().saturating_sub(1)].to_vec(),
        _ => [&bytes[..], &[0, 1, 2][..added]].concat(),
    }
}

/// Every function that takes a book.
pub fn ask_all(both: &mut Both, sound: &Sound, damaged: &[u8], matching: &[u8]) {
    let n = sound.n;
    let (byte, little_room) = (both.random.byte(), both.random.below(12));
    both.tally.damaged_books += 1;
    both.check_book(damaged);
    both.check_matching(damaged, matching);
    both.grade(damaged, matching);
    both.student_list(damaged, byte.into());
    both.mentor_list(damaged, 0);
    both.student_best(damaged, n);
    both.mentor_best(damaged, n.saturating_sub(1));
    both.rotation_count(damaged);
    both.rotations(damaged, sound.poset.list_size());
    both.precedes(damaged, 0, usize::MAX);
    both.set_to_matching(damaged, &vec![0; sound.poset.count()], n);
    both.matching_to_set(damaged, matching, 0);
    let request = [0, matching.first().copied().unwrap_or(0)];
    both.repair(damaged, matching, &request, n, n);
    both.repair(damaged, &[], &[], 0, 0);
    both.sheets(damaged, 1024);
    both.sheets(&[damaged, matching].concat(), little_room);
    let weights = weights::any_length(n, &mut both.random);
    both.weighted_grade(damaged, matching, &weights);
    both.weighted_repair(damaged, matching, &weights, &request, [n, n]);
    both.weighted_repair(damaged, &[], &[], &[], [0, 0]);
    both.weighted_sheet(&[damaged, matching, &weights].concat(), 1024);
    by_mentor::ask_bad(both, damaged, matching, n);
    pairs::ask_bad(both, damaged, matching, n);
}

/// Sheets of input that is cut off or too long; the weighted ones cut off about the matching and the weights too.
fn ask_sheets(both: &mut Both, sound: &Sound, matching: &[u8]) {
    let input = [&sound.book[..], matching].concat();
    let weighted = [&input[..], &weights::any(sound.n, &mut both.random)].concat();
    for _ in 0..3 {
        let (length, weighted_length) = (both.random.below(input.len() + 1), both.random.below(weighted.len() + 1));
        both.sheets(&input[..length], 1024);
        both.weighted_sheet(&weighted[..weighted_length], 1024);
    }
    for length in [input.len().saturating_sub(1), input.len(), input.len() + 1, weighted.len() - 1] {
        both.weighted_sheet(&weighted[..length.min(weighted.len())], 1024);
    }
    both.sheets(&[&input[..], &[0]].concat(), 1024);
    both.sheets(&[&input[..], &vec![0; 8771]].concat(), 1024);
    both.weighted_sheet(&[&weighted[..], &[0]].concat(), 1024);
    both.weighted_sheet(&[&weighted[..], &vec![0; 8835]].concat(), 1024);
}

/// The writer with lists that are cut off, too long or damaged, with n that is wrong, and with short buffers.
pub fn ask_writer(both: &mut Both, n: usize, lists: &[u8]) {
    let size = book::size(n);
    both.write_book(n, &[lists, &[0]].concat(), size);
    both.write_book(n + 1, lists, book::size(n + 1));
    for wrong in [65, 255, 256, usize::MAX, 1 << 32] {
        both.write_book(wrong, lists, size);
        both.book_size(wrong);
    }
    if n > 0 {
        both.write_book(n, &lists[1..], size);
        both.write_book(n - 1, lists, size);
        for _ in 0..3 {
            let (at, entry, less) = (both.random.below(lists.len()), both.random.below(n + 2), both.random.below(2));
            both.write_book(n, &with(lists, at, entry as u8), size - less);
        }
    }
}
