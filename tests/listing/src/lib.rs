//! The second way to every answer: all matchings of a book are listed, the stable ones kept, and each answer is found
//! among them by document 01's definitions, word by word. No fast algorithm is wanted here, and nothing is shared
//! with the library or with the crate `independent`. Listing is meant for n up to 7; the book's rules and the writer
//! go up to 64.
//!
//! Document 01's students are men here and its mentors women, as in its source. Quotation marks hold its sentences,
//! and on weights, short lists, the first line of the sheet, mentors who ask, whom a repair moves and two pairs at one
//! go those of document 02's W-201 and W-203 to W-207.
//!
//! - `people`: a man's number and a woman's
//! - `reply`: what a call answers, refusals
//! - `book`: rules 1 to 7 and 18, the writer
//! - `lists`: the ranked lists of a well-formed book
//! - `matching`: rules 8, 9 and 19, all matchings, distance
//! - `stable`: blocking pairs, rule 10, all stable matchings, the two extreme ones
//! - `rotation`: next mentor, exposed rotations, elimination, numbers
//! - `runs`: runs of eliminations, precedence, closed sets and their matchings
//! - `weights`: rule 17, the total weight of the men whom a matching moves
//! - `repair`: fixed pairs and their number, repairs up and down, the answer, the grade
//! - `between`: a repair beside the stable matchings that part the pair on the same side
//! - `pairs`: the four sorts of two pairs, their candidates, the answer
//! - `sheet`: the printed sheet, plain and weighted
//! - `moves`: the sheet with the moves of each repair
//! - `asked`, `repair_calls`: the calls of include/placement.h

pub mod asked;
pub mod between;
pub mod book;
pub mod lists;
pub mod matching;
pub mod moves;
pub mod pairs;
pub mod people;
pub mod repair;
mod repair_calls;
pub mod reply;
pub mod rotation;
pub mod runs;
pub mod sheet;
pub mod stable;
pub mod weights;
