//! The books and the calls that are timed.

use independent::instance;
use independent::poset::Poset;
use independent::random::Random;
use independent::reply::Reply;
use independent::{calls, samples};

pub const SIZES: [usize; 4] = [8, 16, 32, 64];
pub const KINDS: [&str; 4] = ["random", "cyclic", "xor", "hardest"];

/// How many random books are averaged.
const RANDOM_BOOKS: u64 = 16;

/// A book, a stable matching of it and the two as a sheet's input. The matching is the one halfway: the first half of
/// the rotations eliminated.
pub struct Question {
    pub book: Vec<u8>,
    pub matching: Vec<u8>,
    pub input: Vec<u8>,
}

impl Question {
    fn new(n: usize, lists: &[u8]) -> Question {
        let book = samples::book(n, lists);
        let poset = Poset::numbered(&instance::read(&book).expect("a well-formed book"));
        let half: Vec<u8> = (0..poset.count()).map(|r| (2 * r < poset.count()) as u8).collect();
        let matching = poset.matching(&half)[..n].to_vec();
        let input = [&book[..], &matching].concat();
        Question { book, matching, input }
    }
}

/// The questions of a kind of lists: 16 random books, or the one book of the kind.
pub fn questions(kind: &str, n: usize) -> Vec<Question> {
    match kind {
        "random" => {
            (0..RANDOM_BOOKS).map(|k| Question::new(n, &samples::random(n, &mut Random::new(100 + k)))).collect()
        }
        "cyclic" => vec![Question::new(n, &samples::cyclic(n))],
        "xor" => vec![Question::new(n, &samples::xor(n))],
        "hardest" => vec![Question::new(n, &samples::hardest(n))],
        _ => panic!("lists are random, cyclic, xor or hardest"),
    }
}

/// Result buffers, long enough for every call.
pub struct Buffers {
    pub out: Vec<u8>,
    pub gains: Vec<i8>,
}

impl Buffers {
    pub fn new() -> Buffers {
        Buffers { out: vec![0; 12_288], gains: vec![0; 64] }
    }
}

/// One call, for the pair of a man where it asks for a pair.
type Make = fn(&Question, usize, &mut Buffers) -> Reply;

/// A call by both libraries. `pairs`: it is made for each pair of the matching.
pub struct Call {
    pub name: &'static str,
    pub pairs: bool,
    pub archive: Make,
    pub independent: Make,
}

/// The request for a man's pair.
fn pair(q: &Question, man: usize) -> [u8; 2] {
    [man as u8, q.matching[man]]
}

/// The request for a man's pair and the next man's.
fn two_pairs(q: &Question, man: usize) -> [u8; 4] {
    let next = (man + 1) % q.matching.len();
    [man as u8, q.matching[man], next as u8, q.matching[next]]
}

pub const CALLS: [Call; 8] = [
    Call {
        name: "check_book",
        pairs: false,
        archive: |q, _, _| archive::check_book(&q.book),
        independent: |q, _, _| calls::check_book(&q.book),
    },
    Call {
        name: "check_matching",
        pairs: false,
        archive: |q, _, _| archive::check_matching(&q.book, &q.matching),
        independent: |q, _, _| calls::check_matching(&q.book, &q.matching),
    },
    Call {
        name: "student_best",
        pairs: false,
        archive: |q, _, b| archive::student_best(&q.book, &mut b.out),
        independent: |q, _, b| calls::student_best(&q.book, &mut b.out),
    },
    Call {
        name: "rotations",
        pairs: false,
        archive: |q, _, b| archive::rotations(&q.book, &mut b.out),
        independent: |q, _, b| calls::rotations(&q.book, &mut b.out),
    },
    Call {
        name: "repair",
        pairs: true,
        archive: |q, man, b| archive::repair(&q.book, &q.matching, &pair(q, man), &mut b.out, &mut b.gains),
        independent: |q, man, b| calls::repair(&q.book, &q.matching, &pair(q, man), &mut b.out, &mut b.gains),
    },
    Call {
        name: "two_pairs",
        pairs: true,
        archive: |q, man, b| archive::repair(&q.book, &q.matching, &two_pairs(q, man), &mut b.out, &mut b.gains),
        independent: |q, man, b| calls::repair(&q.book, &q.matching, &two_pairs(q, man), &mut b.out, &mut b.gains),
    },
    Call {
        name: "grade",
        pairs: false,
        archive: |q, _, _| archive::grade(&q.book, &q.matching),
        independent: |q, _, _| calls::grade(&q.book, &q.matching),
    },
    Call {
        name: "sheet",
        pairs: false,
        archive: |q, _, b| archive::sheet(&q.input, &mut b.out),
        independent: |q, _, b| calls::sheet(&q.input, &mut b.out),
    },
];

/// How many calls a round makes: one a book, or one a pair of each book.
pub fn calls_in_round(call: &Call, questions: &[Question]) -> usize {
    questions.iter().map(|q| if call.pairs { q.matching.len() } else { 1 }).sum()
}

/// One round: every question once.
pub fn round(call: &Call, make: Make, questions: &[Question], buffers: &mut Buffers) {
    for question in questions {
        for man in 0..if call.pairs { question.matching.len() } else { 1 } {
            let reply = make(std::hint::black_box(question), man, buffers);
            assert_eq!(std::hint::black_box(reply).number, 0);
        }
    }
}
