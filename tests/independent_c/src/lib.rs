//! The independent implementation as an archive with the functions of include/placement.h, so that the C tests and the
//! comparison can themselves be tried out without the verified library.
//!
//! A pointer and a length stand for a slice as the header says: a null pointer goes with length 0 only.
#![allow(clippy::missing_safety_doc)]

use independent::calls;
use independent::reply::Reply;

/// The slice that a caller lends for reading.
unsafe fn lent<'a>(start: *const u8, length: usize) -> &'a [u8] {
    if length == 0 {
        &[]
    } else {
        std::slice::from_raw_parts(start, length)
    }
}

/// The slice that a caller lends for a result.
unsafe fn lent_mut<'a, T>(start: *mut T, length: usize) -> &'a mut [T] {
    if length == 0 {
        &mut []
    } else {
        std::slice::from_raw_parts_mut(start, length)
    }
}

#[no_mangle]
pub unsafe extern "C" fn placement_check_book(book: *const u8, book_len: usize) -> Reply {
    calls::check_book(lent(book, book_len))
}

#[no_mangle]
pub extern "C" fn placement_book_size(n: usize) -> Reply {
    calls::book_size(n)
}

#[no_mangle]
pub unsafe extern "C" fn placement_write_book(
    n: usize,
    lists: *const u8,
    lists_len: usize,
    out: *mut u8,
    out_len: usize,
) -> Reply {
    calls::write_book(n, lent(lists, lists_len), lent_mut(out, out_len))
}

#[no_mangle]
pub unsafe extern "C" fn placement_student_list(book: *const u8, book_len: usize, student: usize) -> Reply {
    calls::student_list(lent(book, book_len), student)
}

#[no_mangle]
pub unsafe extern "C" fn placement_mentor_list(book: *const u8, book_len: usize, mentor: usize) -> Reply {
    calls::mentor_list(lent(book, book_len), mentor)
}

#[no_mangle]
pub unsafe extern "C" fn placement_check_matching(
    book: *const u8,
    book_len: usize,
    matching: *const u8,
    matching_len: usize,
) -> Reply {
    calls::check_matching(lent(book, book_len), lent(matching, matching_len))
}

#[no_mangle]
pub unsafe extern "C" fn placement_student_best(
    book: *const u8,
    book_len: usize,
    out: *mut u8,
    out_len: usize,
) -> Reply {
    calls::student_best(lent(book, book_len), lent_mut(out, out_len))
}

#[no_mangle]
pub unsafe extern "C" fn placement_mentor_best(
    book: *const u8,
    book_len: usize,
    out: *mut u8,
    out_len: usize,
) -> Reply {
    calls::mentor_best(lent(book, book_len), lent_mut(out, out_len))
}

#[no_mangle]
pub unsafe extern "C" fn placement_repair(
    book: *const u8,
    book_len: usize,
    matching: *const u8,
    matching_len: usize,
    request: *const u8,
    request_len: usize,
    out: *mut u8,
    out_len: usize,
    gains: *mut i8,
    gains_len: usize,
) -> Reply {
    let (book, matching) = (lent(book, book_len), lent(matching, matching_len));
    let request = lent(request, request_len);
    calls::repair(book, matching, request, lent_mut(out, out_len), lent_mut(gains, gains_len))
}

#[no_mangle]
pub unsafe extern "C" fn placement_repair_mentor(
    book: *const u8,
    book_len: usize,
    matching: *const u8,
    matching_len: usize,
    mentor: u8,
    out: *mut u8,
    out_len: usize,
    gains: *mut i8,
    gains_len: usize,
) -> Reply {
    let (book, matching) = (lent(book, book_len), lent(matching, matching_len));
    calls::repair_mentor(book, matching, mentor, lent_mut(out, out_len), lent_mut(gains, gains_len))
}

#[no_mangle]
pub unsafe extern "C" fn placement_grade(
    book: *const u8,
    book_len: usize,
    matching: *const u8,
    matching_len: usize,
) -> Reply {
    calls::grade(lent(book, book_len), lent(matching, matching_len))
}

#[no_mangle]
pub unsafe extern "C" fn placement_rotation_count(book: *const u8, book_len: usize) -> Reply {
    calls::rotation_count(lent(book, book_len))
}

#[no_mangle]
pub unsafe extern "C" fn placement_rotations(book: *const u8, book_len: usize, out: *mut u8, out_len: usize) -> Reply {
    calls::rotations(lent(book, book_len), lent_mut(out, out_len))
}

#[no_mangle]
pub unsafe extern "C" fn placement_precedes(book: *const u8, book_len: usize, first: usize, second: usize) -> Reply {
    calls::precedes(lent(book, book_len), first, second)
}

#[no_mangle]
pub unsafe extern "C" fn placement_set_to_matching(
    book: *const u8,
    book_len: usize,
    set: *const u8,
    set_len: usize,
    out: *mut u8,
    out_len: usize,
) -> Reply {
    calls::set_to_matching(lent(book, book_len), lent(set, set_len), lent_mut(out, out_len))
}

#[no_mangle]
pub unsafe extern "C" fn placement_matching_to_set(
    book: *const u8,
    book_len: usize,
    matching: *const u8,
    matching_len: usize,
    out: *mut u8,
    out_len: usize,
) -> Reply {
    calls::matching_to_set(lent(book, book_len), lent(matching, matching_len), lent_mut(out, out_len))
}

#[no_mangle]
pub unsafe extern "C" fn placement_sheet(input: *const u8, input_len: usize, out: *mut u8, out_len: usize) -> Reply {
    calls::sheet(lent(input, input_len), lent_mut(out, out_len))
}

#[no_mangle]
pub unsafe extern "C" fn placement_moves(input: *const u8, input_len: usize, out: *mut u8, out_len: usize) -> Reply {
    calls::moves(lent(input, input_len), lent_mut(out, out_len))
}

#[no_mangle]
pub unsafe extern "C" fn placement_weighted_repair(
    book: *const u8,
    book_len: usize,
    matching: *const u8,
    matching_len: usize,
    weights: *const u8,
    weights_len: usize,
    request: *const u8,
    request_len: usize,
    out: *mut u8,
    out_len: usize,
    gains: *mut i8,
    gains_len: usize,
) -> Reply {
    let (book, matching) = (lent(book, book_len), lent(matching, matching_len));
    let (weights, request) = (lent(weights, weights_len), lent(request, request_len));
    calls::weighted_repair(book, matching, weights, request, lent_mut(out, out_len), lent_mut(gains, gains_len))
}

#[no_mangle]
pub unsafe extern "C" fn placement_weighted_repair_mentor(
    book: *const u8,
    book_len: usize,
    matching: *const u8,
    matching_len: usize,
    weights: *const u8,
    weights_len: usize,
    mentor: u8,
    out: *mut u8,
    out_len: usize,
    gains: *mut i8,
    gains_len: usize,
) -> Reply {
    let (book, matching) = (lent(book, book_len), lent(matching, matching_len));
    let weights = lent(weights, weights_len);
    calls::weighted_repair_mentor(book, matching, weights, mentor, lent_mut(out, out_len), lent_mut(gains, gains_len))
}

#[no_mangle]
pub unsafe extern "C" fn placement_weighted_grade(
    book: *const u8,
    book_len: usize,
    matching: *const u8,
    matching_len: usize,
    weights: *const u8,
    weights_len: usize,
) -> Reply {
    calls::weighted_grade(lent(book, book_len), lent(matching, matching_len), lent(weights, weights_len))
}

#[no_mangle]
pub unsafe extern "C" fn placement_weighted_sheet(
    input: *const u8,
    input_len: usize,
    out: *mut u8,
    out_len: usize,
) -> Reply {
    calls::weighted_sheet(lent(input, input_len), lent_mut(out, out_len))
}
