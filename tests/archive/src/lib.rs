//! The functions of include/placement.h as the linked archive has them, over slices. An empty slice is passed as a
//! null pointer and length 0. `between` looks at a repaired matching beside another stable one, `printed` reads a sheet
//! back, and `moves` a sheet with moves.

pub mod between;
mod c;
pub mod moves;
pub mod printed;

pub use reply::{Reply, NO_GRADE};

/// The pointer of a slice that is lent for reading.
fn at(slice: &[u8]) -> *const u8 {
    if slice.is_empty() {
        std::ptr::null()
    } else {
        slice.as_ptr()
    }
}

/// The pointer of a slice that is lent for a result.
fn at_mut<T>(slice: &mut [T]) -> *mut T {
    if slice.is_empty() {
        std::ptr::null_mut()
    } else {
        slice.as_mut_ptr()
    }
}

// Safety, of all calls: pointer and length are those of a slice, and result slices are lent as `&mut`.

pub fn check_book(book: &[u8]) -> Reply {
    unsafe { c::placement_check_book(at(book), book.len()) }
}

pub fn book_size(n: usize) -> Reply {
    unsafe { c::placement_book_size(n) }
}

pub fn write_book(n: usize, lists: &[u8], out: &mut [u8]) -> Reply {
    unsafe { c::placement_write_book(n, at(lists), lists.len(), at_mut(out), out.len()) }
}

pub fn student_list(book: &[u8], student: usize) -> Reply {
    unsafe { c::placement_student_list(at(book), book.len(), student) }
}

pub fn mentor_list(book: &[u8], mentor: usize) -> Reply {
    unsafe { c::placement_mentor_list(at(book), book.len(), mentor) }
}

pub fn check_matching(book: &[u8], matching: &[u8]) -> Reply {
    unsafe { c::placement_check_matching(at(book), book.len(), at(matching), matching.len()) }
}

pub fn student_best(book: &[u8], out: &mut [u8]) -> Reply {
    unsafe { c::placement_student_best(at(book), book.len(), at_mut(out), out.len()) }
}

pub fn mentor_best(book: &[u8], out: &mut [u8]) -> Reply {
    unsafe { c::placement_mentor_best(at(book), book.len(), at_mut(out), out.len()) }
}

pub fn repair(book: &[u8], matching: &[u8], request: &[u8], out: &mut [u8], gains: &mut [i8]) -> Reply {
    let (out_len, gains_len) = (out.len(), gains.len());
    unsafe {
        c::placement_repair(
            at(book),
            book.len(),
            at(matching),
            matching.len(),
            at(request),
            request.len(),
            at_mut(out),
            out_len,
            at_mut(gains),
            gains_len,
        )
    }
}

pub fn repair_mentor(book: &[u8], matching: &[u8], mentor: u8, out: &mut [u8], gains: &mut [i8]) -> Reply {
    let (out_len, gains_len) = (out.len(), gains.len());
    unsafe {
        c::placement_repair_mentor(
            at(book),
            book.len(),
            at(matching),
            matching.len(),
            mentor,
            at_mut(out),
            out_len,
            at_mut(gains),
            gains_len,
        )
    }
}

pub fn grade(book: &[u8], matching: &[u8]) -> Reply {
    unsafe { c::placement_grade(at(book), book.len(), at(matching), matching.len()) }
}

pub fn rotation_count(book: &[u8]) -> Reply {
    unsafe { c::placement_rotation_count(at(book), book.len()) }
}

pub fn rotations(book: &[u8], out: &mut [u8]) -> Reply {
    unsafe { c::placement_rotations(at(book), book.len(), at_mut(out), out.len()) }
}

pub fn precedes(book: &[u8], first: usize, second: usize) -> Reply {
    unsafe { c::placement_precedes(at(book), book.len(), first, second) }
}

pub fn set_to_matching(book: &[u8], set: &[u8], out: &mut [u8]) -> Reply {
    unsafe { c::placement_set_to_matching(at(book), book.len(), at(set), set.len(), at_mut(out), out.len()) }
}

pub fn matching_to_set(book: &[u8], matching: &[u8], out: &mut [u8]) -> Reply {
    unsafe { c::placement_matching_to_set(at(book), book.len(), at(matching), matching.len(), at_mut(out), out.len()) }
}

pub fn sheet(input: &[u8], out: &mut [u8]) -> Reply {
    unsafe { c::placement_sheet(at(input), input.len(), at_mut(out), out.len()) }
}

pub fn moves(input: &[u8], out: &mut [u8]) -> Reply {
    unsafe { c::placement_moves(at(input), input.len(), at_mut(out), out.len()) }
}

pub fn weighted_repair(
    book: &[u8],
    matching: &[u8],
    weights: &[u8],
    request: &[u8],
    out: &mut [u8],
    gains: &mut [i8],
) -> Reply {
    let (out_len, gains_len) = (out.len(), gains.len());
    unsafe {
        c::placement_weighted_repair(
            at(book),
            book.len(),
            at(matching),
            matching.len(),
            at(weights),
            weights.len(),
            at(request),
            request.len(),
            at_mut(out),
            out_len,
            at_mut(gains),
            gains_len,
        )
    }
}

pub fn weighted_repair_mentor(
    book: &[u8],
    matching: &[u8],
    weights: &[u8],
    mentor: u8,
    out: &mut [u8],
    gains: &mut [i8],
) -> Reply {
    let (out_len, gains_len) = (out.len(), gains.len());
    unsafe {
        c::placement_weighted_repair_mentor(
            at(book),
            book.len(),
            at(matching),
            matching.len(),
            at(weights),
            weights.len(),
            mentor,
            at_mut(out),
            out_len,
            at_mut(gains),
            gains_len,
        )
    }
}

pub fn weighted_grade(book: &[u8], matching: &[u8], weights: &[u8]) -> Reply {
    let (book_len, matching_len, weights_len) = (book.len(), matching.len(), weights.len());
    unsafe { c::placement_weighted_grade(at(book), book_len, at(matching), matching_len, at(weights), weights_len) }
}

pub fn weighted_sheet(input: &[u8], out: &mut [u8]) -> Reply {
    unsafe { c::placement_weighted_sheet(at(input), input.len(), at_mut(out), out.len()) }
}
