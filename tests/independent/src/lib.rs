//! A second implementation of document 01 (stable placements and their repairs) with W-201 to W-207 of document 02,
//! made to be compared with the verified library. It goes by another route: the rotation poset of Gusfield and Irving
//! (1989), and the repairs of document 000, section 3. Students are called men and mentors women, as in those
//! sources.
//!
//! - `book`: the encoded lists, rules 1 to 7 and 18, the writer
//! - `instance`: the lists and the rank tables of a well-formed book
//! - `matching`: rules 8, 9, 19 and 10
//! - `gale_shapley`: the man-optimal and the woman-optimal matching
//! - `search`: all rotations, in the order in which a search meets them, with the edges of the poset
//! - `numbering`: the rotations in the order of document 01's numbers
//! - `poset`: precedence, closed subsets
//! - `weights`: rule 17, the total weight of a set of men
//! - `repair`: repairs of one pair or of all pairs of a matching, number of fixed pairs, grade; plain ones are those
//!   with weights of 1
//! - `pairs`: repairs of two pairs at one go
//! - `sheet`: the printed sheet, plain and weighted
//! - `moves`: the sheet with the moves of each repair
//! - `calls`: the functions of include/placement.h over slices
//! - `reply`, `groups`, `bits`: the form of the answers, a form of storage, sets as numbers
//! - `random`, `samples`, `short_samples`: books to try: random ones, and ones with many stable matchings; short lists

pub mod bits;
pub mod book;
pub mod calls;
pub mod gale_shapley;
pub mod groups;
pub mod instance;
pub mod matching;
pub mod moves;
pub mod numbering;
pub mod pairs;
pub mod poset;
pub mod random;
pub mod repair;
pub mod reply;
pub mod samples;
pub mod search;
pub mod sheet;
pub mod short_samples;
pub mod weights;
