//! Compares the archive's functions with the independent implementation on books of all sizes and kinds and of both
//! editions, well formed and damaged, until the time is over or there are many differences. Exits with 1 on any
//! difference, or when something that has to occur never did.
//!
//!     compare [SECONDS] [SEED]

mod between;
mod both;
mod by_mentor;
mod damage;
mod moves;
mod pairs;
mod pairs_tally;
mod printed;
mod recount;
mod short;
mod sound;
mod tally;
mod weights;

use both::Both;
use independent::random::Random;
use independent::{samples, short_samples};
use sound::Sound;
use std::process::ExitCode;
use std::time::{Duration, Instant};

/// Differences after which the comparison ends.
const MANY: usize = 100;

fn main() -> ExitCode {
    let mut arguments = std::env::args().skip(1).map(|a| a.parse::<u64>().expect("a number: seconds, then seed"));
    let seconds = arguments.next().unwrap_or(60);
    let seed = arguments.next().unwrap_or(2017);
    let end = Instant::now() + Duration::from_secs(seconds);
    let mut both = Both::new(seed);
    while Instant::now() < end && both.tally.differences < MANY {
        one_book(&mut both);
    }
    println!("{seconds} s, seed {seed}");
    both.tally.print();
    let missing = both.tally.missing();
    if !missing.is_empty() {
        println!("never occurred: {}", missing.join(", "));
    }
    ExitCode::from((both.tally.differences > 0 || !missing.is_empty()) as u8)
}

/// One book with all questions, and the same book damaged. Half of the books are of edition 2, with short lists.
fn one_book(both: &mut Both) {
    let n = size(&mut both.random);
    if both.random.once_in(2) {
        let lists = short_samples::any(n, &mut both.random);
        let sound = Sound::new(n, short_samples::book(&lists));
        ask(both, &sound);
        sound.ask_unlisted(both);
        short::ask_damaged(both, &sound, &lists);
    } else {
        let lists = samples::any(n, &mut both.random);
        let sound = Sound::new(n, samples::book(n, &lists));
        sound.ask_writer(both, &lists);
        ask(both, &sound);
        damage::ask_writer(both, n, &lists);
    }
}

/// Counts a book and asks it, whole and damaged.
fn ask(both: &mut Both, sound: &Sound) {
    both.tally.count_book(sound);
    sound.ask(both);
    damage::ask(both, sound);
}

/// A size: most are small, and 64 is among them.
fn size(random: &mut Random) -> usize {
    match random.below(100) {
        0..=59 => random.below(9),
        60..=89 => 9 + random.below(12),
        90..=96 => 21 + random.below(20),
        97 | 98 => 41 + random.below(23),
        _ => 64,
    }
}
