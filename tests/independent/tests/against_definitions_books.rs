//! Rules 1 to 7 and 18, the writer and one person's list against the definitions, on books damaged at random.

mod definitions;

use definitions::book::{first_broken, first_wrong};
use independent::random::Random;
use independent::reply::Reply;
use independent::{book, calls, samples, short_samples};

fn refused((number, place): (usize, usize)) -> Reply {
    Reply { number, place, ..Reply::default() }
}

/// A book of edition 1 with full lists or, where `short`, of edition 2 with short ones, of which an entry may be
/// missing.
fn some_book(n: usize, short: bool, random: &mut Random) -> Vec<u8> {
    if !short {
        return samples::book(n, &samples::random(n, random));
    }
    let mut lists = short_samples::any(n, random);
    if n > 0 && random.once_in(3) {
        lists[random.below(2 * n)].pop();
    }
    short_samples::book(&lists)
}

/// A book with some bytes changed, cut off or added.
fn damaged(n: usize, short: bool, random: &mut Random) -> Vec<u8> {
    let mut book = some_book(n, short, random);
    for _ in 0..random.below(4) {
        let at = match random.below(4) {
            0 => random.below(2),
            1 => random.below(book::lists_start(n)),
            _ => random.below(book.len()),
        };
        book[at] = if random.once_in(2) { random.below(n + 2) as u8 } else { random.byte() };
    }
    match random.below(8) {
        0 => book.truncate(random.below(book.len() + 1)),
        1 => book.push(random.byte()),
        _ => {}
    }
    book
}

#[test]
fn damaged_books() {
    for short in [false, true] {
        damaged_books_of(short, &mut Random::new(7));
    }
}

fn damaged_books_of(short: bool, random: &mut Random) {
    let mut seen = [0; 19];
    for _ in 0..60_000 {
        let n = random.below(8);
        let book = damaged(n, short, random);
        let broken = first_broken(&book);
        let due = broken.map_or_else(|| Reply::value(book[1] as usize), refused);
        assert_eq!(calls::check_book(&book), due);
        seen[due.number] += 1;
        let person = random.below(9);
        if let Some(broken) = broken {
            assert_eq!(calls::student_list(&book, person), refused(broken));
            assert_eq!(calls::mentor_list(&book, person), refused(broken));
        }
    }
    assert!(seen[..8].iter().all(|&times| times > 100) && (!short || seen[18] > 100), "{seen:?}");
}

/// One person's list is its stretch of the book, at any length.
#[test]
fn stretches() {
    let mut random = Random::new(9);
    for _ in 0..2_000 {
        let n = random.below(9);
        let lists = short_samples::any(n, &mut random);
        let book = short_samples::book(&lists);
        for (person, list) in lists.iter().enumerate() {
            let call = if person < n { calls::student_list } else { calls::mentor_list };
            let reply = call(&book, person % n);
            assert_eq!(reply, Reply { place: reply.place, ..Reply::value(list.len()) });
            assert_eq!(book[reply.place..][..list.len()], list[..]);
        }
    }
}

#[test]
fn writer() {
    let mut random = Random::new(8);
    for _ in 0..20_000 {
        let n = random.below(7);
        let mut given = samples::random(n, &mut random);
        for _ in 0..random.below(3).min(given.len()) {
            let at = random.below(given.len());
            given[at] = random.below(n + 1) as u8;
        }
        let mut out = vec![9; book::size(n)];
        let reply = calls::write_book(n, &given, &mut out);
        let wrong = |(k, list): (usize, &[u8])| first_wrong(list, n).map(|(number, at)| (number, k * n + at));
        match given.chunks(n.max(1)).enumerate().find_map(wrong) {
            Some(broken) => {
                assert_eq!(reply, refused(broken));
                assert!(out.iter().all(|&b| b == 9));
            }
            None => {
                assert_eq!(reply, Reply::value(book::size(n)));
                assert_eq!(first_broken(&out), None);
                assert_eq!(out[book::lists_start(n)..], given[..]);
            }
        }
    }
}
