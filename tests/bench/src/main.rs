//! Times the archive's calls against the independent implementation's, in one run.
//!
//!     bench                                    a Markdown table of all calls, lists and sizes
//!     bench CALL LISTS N SIDE ROUNDS           that many rounds of one call by one side (archive or independent), for
//!                                              a tool that counts instructions; prints the calls in a round
//!
//! CALL is check_book, check_matching, student_best, rotations, repair, grade or sheet; LISTS is random, cyclic, xor or
//! hardest. A round asks every question once: 16 random books or one other, and for a repair every pair of its matching.

mod cases;

use cases::{calls_in_round, questions, round, Buffers, Call, Question, CALLS, KINDS, SIZES};
use std::time::{Duration, Instant};

/// Time of one measurement, and how many are made; the shortest counts.
const MEASURE: Duration = Duration::from_millis(2);
const MEASUREMENTS: usize = 25;

fn main() {
    let arguments: Vec<String> = std::env::args().skip(1).collect();
    match &arguments[..] {
        [] => table(),
        [call, kind, n, side, rounds] => {
            let call = CALLS.iter().find(|c| c.name == call).expect("a call by its name");
            let questions = questions(kind, n.parse().expect("n"));
            repeat(call, &questions, side, rounds.parse().expect("rounds"));
        }
        _ => panic!("bench, or bench CALL LISTS N SIDE ROUNDS"),
    }
}

/// Many rounds of one call.
fn repeat(call: &Call, questions: &[Question], side: &str, rounds: usize) {
    let make = match side {
        "archive" => call.archive,
        "independent" => call.independent,
        _ => panic!("the side is archive or independent"),
    };
    let mut buffers = Buffers::new();
    for _ in 0..rounds {
        round(call, make, questions, &mut buffers);
    }
    println!("{}", calls_in_round(call, questions));
}

/// One row a call and kind of lists, one column a size: nanoseconds a call of both sides, and their ratio.
fn table() {
    println!("Nanoseconds a call: archive / independent (ratio)\n");
    print!("| call | lists |");
    SIZES.iter().for_each(|n| print!(" n = {n} |"));
    println!("\n|---|---|{}", "---|".repeat(SIZES.len()));
    for call in &CALLS {
        for kind in KINDS {
            print!("| {} | {kind} |", call.name);
            for n in SIZES {
                let (archive, independent) = time(call, &questions(kind, n));
                print!(" {archive:.0} / {independent:.0} ({:.2}) |", archive / independent);
            }
            println!();
        }
    }
}

/// Nanoseconds a call of both sides, measured in turns.
fn time(call: &Call, questions: &[Question]) -> (f64, f64) {
    let mut buffers = Buffers::new();
    let rounds = [call.archive, call.independent].map(|make| {
        let start = Instant::now();
        let mut rounds = 0;
        while start.elapsed() < MEASURE {
            round(call, make, questions, &mut buffers);
            rounds += 1;
        }
        rounds
    });
    let mut shortest = [f64::MAX; 2];
    for _ in 0..MEASUREMENTS {
        for (side, make) in [call.archive, call.independent].into_iter().enumerate() {
            let start = Instant::now();
            (0..rounds[side]).for_each(|_| round(call, make, questions, &mut buffers));
            let calls = rounds[side] * calls_in_round(call, questions);
            shortest[side] = shortest[side].min(start.elapsed().as_nanos() as f64 / calls as f64);
        }
    }
    (shortest[0], shortest[1])
}
