//! The functions of include/placement.h as the header declares them.

use reply::Reply;

extern "C" {
    pub fn placement_check_book(book: *const u8, book_len: usize) -> Reply;
    pub fn placement_book_size(n: usize) -> Reply;
    pub fn placement_write_book(n: usize, lists: *const u8, lists_len: usize, out: *mut u8, out_len: usize) -> Reply;
    pub fn placement_student_list(book: *const u8, book_len: usize, student: usize) -> Reply;
    pub fn placement_mentor_list(book: *const u8, book_len: usize, mentor: usize) -> Reply;
    pub fn placement_check_matching(
        book: *const u8,
        book_len: usize,
        matching: *const u8,
        matching_len: usize,
    ) -> Reply;
    pub fn placement_student_best(book: *const u8, book_len: usize, out: *mut u8, out_len: usize) -> Reply;
    pub fn placement_mentor_best(book: *const u8, book_len: usize, out: *mut u8, out_len: usize) -> Reply;
    pub fn placement_repair(
        book: *const u8,
        book_len: usize,
        matching: *const u8,
        matching_len: usize,
        request: *const u8,
        request_len: usize,
        out: *mut u8,
        out_len: usize,
        gains: *mut i8,
        gains_len: usize,
    ) -> Reply;
    pub fn placement_repair_mentor(
        book: *const u8,
        book_len: usize,
        matching: *const u8,
        matching_len: usize,
        mentor: u8,
        out: *mut u8,
        out_len: usize,
        gains: *mut i8,
        gains_len: usize,
    ) -> Reply;
    pub fn placement_grade(book: *const u8, book_len: usize, matching: *const u8, matching_len: usize) -> Reply;
    pub fn placement_rotation_count(book: *const u8, book_len: usize) -> Reply;
    pub fn placement_rotations(book: *const u8, book_len: usize, out: *mut u8, out_len: usize) -> Reply;
    pub fn placement_precedes(book: *const u8, book_len: usize, first: usize, second: usize) -> Reply;
    pub fn placement_set_to_matching(
        book: *const u8,
        book_len: usize,
        set: *const u8,
        set_len: usize,
        out: *mut u8,
        out_len: usize,
    ) -> Reply;
    pub fn placement_matching_to_set(
        book: *const u8,
        book_len: usize,
        matching: *const u8,
        matching_len: usize,
        out: *mut u8,
        out_len: usize,
    ) -> Reply;
    pub fn placement_sheet(input: *const u8, input_len: usize, out: *mut u8, out_len: usize) -> Reply;
    pub fn placement_moves(input: *const u8, input_len: usize, out: *mut u8, out_len: usize) -> Reply;
    pub fn placement_weighted_repair(
        book: *const u8,
        book_len: usize,
        matching: *const u8,
        matching_len: usize,
        weights: *const u8,
        weights_len: usize,
        request: *const u8,
        request_len: usize,
        out: *mut u8,
        out_len: usize,
        gains: *mut i8,
        gains_len: usize,
    ) -> Reply;
    pub fn placement_weighted_repair_mentor(
        book: *const u8,
        book_len: usize,
        matching: *const u8,
        matching_len: usize,
        weights: *const u8,
        weights_len: usize,
        mentor: u8,
        out: *mut u8,
        out_len: usize,
        gains: *mut i8,
        gains_len: usize,
    ) -> Reply;
    pub fn placement_weighted_grade(
        book: *const u8,
        book_len: usize,
        matching: *const u8,
        matching_len: usize,
        weights: *const u8,
        weights_len: usize,
    ) -> Reply;
    pub fn placement_weighted_sheet(input: *const u8, input_len: usize, out: *mut u8, out_len: usize) -> Reply;
}
