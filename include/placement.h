/* Stable placements and their repairs: the C interface of libplacement.a.
 *
 * A book is the encoded preference lists of n students and n mentors, n from 0 to 64. In edition 1 each list has n
 * entries. In edition 2 each has 0 to n, and whoever stands on a list lists its owner in turn. A matching is n bytes:
 * byte i is the mentor of student i, or, in edition 2 alone, PLACEMENT_NOBODY where he has none. Weights are n bytes:
 * byte i is the weight of student i, 0 to 255. A byte slice is passed as a pointer and a length; a null pointer goes
 * with length 0 only. Result buffers may not overlap each other or an input. No function keeps a pointer, allocates, or
 * touches anything but the memory that it is lent and the stack. The archive needs C's memcpy and memset, and no other
 * function from outside.
 *
 * A pair blocks a matching if each lists the other and each is alone or prefers the other; a matching of pairs that
 * list each other is stable if none does. Who has a partner is the same in every stable matching of a book. Every
 * function that takes a book takes both editions.
 *
 * Every call answers with a struct placement_reply. `number` is 0, or the number of the first rule that the
 * input breaks, in the order given at each function; then `place` (and for rule 10 `second`) says where, every
 * other field is 0, and no byte of a result buffer has been written. On success nothing past the result is written.
 *
 * Numbers of students, mentors and rotations that are passed as size_t may be any: those that nobody has are refused.
 * A mentor who is passed as uint8_t is one byte, as in a request: of a wider number C passes the low byte, 0 for 256,
 * so that a caller who has one has to see first that it is at most 255.
 */
#ifndef PLACEMENT_H
#define PLACEMENT_H

#include <stddef.h>
#include <stdint.h>

#ifdef __cplusplus
extern "C" {
#endif

/* The version of this interface. The second number rises where something is added, the first where a program that was
 * written for the version before may have to be changed. */
#define PLACEMENT_VERSION_MAJOR 2
#define PLACEMENT_VERSION_MINOR 3

/* The largest of each over all books: buffers of these sizes are always long enough. */
#define PLACEMENT_LARGEST_N 64                /* students, and mentors: bytes of a matching, entries of the gains */
#define PLACEMENT_LARGEST_BOOK 8706           /* bytes of a book of either edition */
#define PLACEMENT_LARGEST_SHEET 718           /* bytes of a sheet */
#define PLACEMENT_LARGEST_WEIGHTED_SHEET 913  /* bytes of a weighted sheet: totals up to 64 * 255 = 16,320 */
#define PLACEMENT_LARGEST_MOVES 58062         /* bytes of a sheet with moves: 64 * 64 lines of 14 more than a sheet */
#define PLACEMENT_LARGEST_ROTATION_COUNT 2016 /* rotations, n(n - 1)/2: bytes of a set */
#define PLACEMENT_LARGEST_ROTATION_LIST 10080 /* bytes of a list of rotations: five for each of so many */

/* The byte of a student without a mentor, in a matching of a book of edition 2. */
#define PLACEMENT_NOBODY 255

/* The value of a grade where no pair can be repaired: every pair is fixed, or there is none at all. No grade takes it:
 * a grade that is a number is at most 64, with weights at most 64 * 255 = 16,320. */
#define PLACEMENT_NO_GRADE SIZE_MAX

/* The bytes of stack that a call needs, at most, whatever n is: as tests/stack measures the archive, rounded up.
 * Nothing is allocated otherwise, so the tables of a call lie on the stack of the thread that makes it. */
#define PLACEMENT_STACK_BOOKS 5120       /* check_book, book_size, write_book, student_list, mentor_list */
#define PLACEMENT_STACK_MATCHINGS 45056  /* check_matching, the extremes, rotation_count; repair, repair_mentor, grade,
                                            sheet and their weighted calls */
#define PLACEMENT_STACK_MOVES 50176      /* moves */
#define PLACEMENT_STACK_ROTATIONS 106496 /* rotations, precedes, set_to_matching, matching_to_set: the largest */

/* The rules by number. Beside each: when it is broken, and the place given, 0 where none is said. */
enum placement_refusal {
    PLACEMENT_FINE = 0,       /* nothing is refused */
    PLACEMENT_SHORT = 1,      /* a book under 2 bytes, its directory (edition 2) or its size. Place: the bytes given */
    PLACEMENT_EDITION = 2,    /* byte 0 is neither 1 nor 2 */
    PLACEMENT_CROWD = 3,      /* n over 64. Place: 1 */
    PLACEMENT_OVERLONG = 4,   /* bytes past the size, which in edition 2 is the end of the last list. Place: the size */
    PLACEMENT_DIRECTORY = 5,  /* a list does not start where the one before ended, or its length is not n, in edition 2
                                 over n. Place: the first byte of its directory pair */
    PLACEMENT_STRANGER = 6,   /* a list entry is n or more. Place: that byte */
    PLACEMENT_REPEAT = 7,     /* an entry stands earlier in its list. Place: that byte */
    PLACEMENT_LENGTH = 8,     /* the matching is not n bytes */
    PLACEMENT_CLASH = 9,      /* a mentor is n or more, or used by an earlier byte; in edition 2 PLACEMENT_NOBODY is no
                                 clash. Place: the first such byte */
    PLACEMENT_UNSTABLE = 10,  /* a pair blocks. Place: the lowest blocking student; second: his best-ranked such mentor */
    PLACEMENT_UNKNOWN = 11,   /* no student, mentor or rotation has the number; PLACEMENT_NOBODY is no mentor's */
    PLACEMENT_APART = 12,     /* the two are not together, or the student, or the mentor who asks, is alone */
    PLACEMENT_ONE_PAIR = 13,  /* the request is neither two bytes, student then mentor, nor four, two such pairs */
    PLACEMENT_SHEET = 14,     /* a result buffer is too short */
    PLACEMENT_MARKS = 15,     /* the set has a wrong length or a byte over 1 */
    PLACEMENT_OPEN = 16,      /* the set is not closed */
    PLACEMENT_WEIGHTS = 17,   /* the weights are not n bytes */
    PLACEMENT_ONE_SIDED = 18, /* an entry is not returned by the other: one lists the other, who does not list him */
    PLACEMENT_UNLISTED = 19   /* a given pair does not list each other */
};

/* The letters of a repair of two pairs, the first pair's first: the low byte is the letter of the first pair's student,
 * 'U' where he ends better off and 'D' where he ends worse off, and the byte above it that of the second pair's. */
enum placement_two_letters {
    PLACEMENT_UP_UP = 'U' + 256 * 'U',
    PLACEMENT_UP_DOWN = 'U' + 256 * 'D',
    PLACEMENT_DOWN_UP = 'D' + 256 * 'U',
    PLACEMENT_DOWN_DOWN = 'D' + 256 * 'D'
};

struct placement_reply {
    size_t number; /* an enum placement_refusal: 0, or the rule that is broken */
    size_t place;  /* its place */
    size_t second; /* the mentor of rule 10 */
    size_t letter; /* 'U', 'D' or 'F' of a repair, or of one of two pairs an enum placement_two_letters; else 0 */
    size_t value;  /* the result, as each function says */
};

/* Checks a book. First 1 for under 2 bytes, then 2, 3. Then, in edition 1, 1 and 4 against the size that n gives, then 5;
 * in edition 2, 1 where the directory does not fit, then 5, then 1 and 4 against the end of the last list. Then, in both,
 * list bytes from the first, 6 before 7 at one byte, and after all of them 18, which complete lists never break.
 * value: n. */
struct placement_reply placement_check_book(const uint8_t *book, size_t book_len);

/* value: the bytes of a book of n students whose lists are complete, 2 + 8n + 2n^2, as in edition 1; one of edition 2
 * has at most so many. Refused: 3 (n over 64, place 1). */
struct placement_reply placement_book_size(size_t n);

/* Writes the book of edition 1 of n and 2n^2 list bytes, students' lists first, best first, one byte an entry.
 * Refused: 3; 1 and 4 against 2n^2; 6 and 7 (places from the first list byte); 14. value: bytes written. */
struct placement_reply placement_write_book(size_t n, const uint8_t *lists, size_t lists_len, uint8_t *out, size_t out_len);

/* One student's list, and one mentor's: place is the offset of the list in the book, value its number of bytes, n in
 * edition 1 and 0 to n in edition 2.
 * Refused: the book, then 11. */
struct placement_reply placement_student_list(const uint8_t *book, size_t book_len, size_t student);
struct placement_reply placement_mentor_list(const uint8_t *book, size_t book_len, size_t mentor);

/* Says whether a matching is stable. Refused: the book, then 8, 9, 19, 10. value: 0. */
struct placement_reply placement_check_matching(const uint8_t *book, size_t book_len, const uint8_t *matching, size_t matching_len);

/* The student-best and the mentor-best matching, n bytes to out, PLACEMENT_NOBODY for a student without a mentor.
 * Refused: the book, then 14. value: n. */
struct placement_reply placement_student_best(const uint8_t *book, size_t book_len, uint8_t *out, size_t out_len);
struct placement_reply placement_mentor_best(const uint8_t *book, size_t book_len, uint8_t *out, size_t out_len);

/* The repair of one pair, or of two at one go.
 *
 * One pair: the request is two bytes, student then mentor. letter: 'U' repair up, 'D' repair down, 'F' the pair is
 * fixed; value: the distance (0 for 'F'). 'U' and 'D' write n bytes of the repaired matching to out and n signed bytes
 * to gains: old place less new, above zero is better, 0 for a student without a mentor, and the distance is the number
 * of those that are not 0. 'F' writes neither. Both buffers must hold n entries in every case.
 * No stable matching without the pair moves fewer students. Nobody is moved in vain: for every stable matching in which
 * the student of the pair is better off ('U'), or worse off ('D'), the mentor that out gives to any student stands on
 * his list between the given one and the one in that matching, ends counted, so that whoever is moved here is moved
 * there. A student without a mentor stays without.
 *
 * Two pairs: the request is four bytes, student, mentor, student, mentor. The stable matchings that hold neither pair
 * are of four sorts, as each of the two students is better or worse off. letter: the sort of the repair, an enum
 * placement_two_letters; 'F' where no stable matching holds neither, though each pair alone may have a repair. value and
 * what is written are as for one pair. The candidate of a sort is the one in which every student's mentor stands on his
 * list between the given one and the one in any other of that sort; each sort that is not empty has one. The candidate
 * that moves fewest is given, among several the first in the order UP_UP, UP_DOWN, DOWN_UP, DOWN_DOWN. No stable
 * matching that holds neither pair moves fewer students, and whoever is moved is moved by all of that sort. Two single
 * repairs in a row are in general not the nearest repair of both: they may move more, or bring the first pair back.
 * The same pair twice is answered as that pair alone, with its one letter.
 *
 * Refused: the book, then 8, 9, 19, 10, then 13, 11, 12, then 14; of two pairs 11 and 12 are tried on the first, then
 * on the second. A request for a student without a mentor gets 12, one with the mentor byte PLACEMENT_NOBODY 11. */
struct placement_reply placement_repair(const uint8_t *book, size_t book_len, const uint8_t *matching, size_t matching_len,
                                        const uint8_t *request, size_t request_len, uint8_t *out, size_t out_len,
                                        int8_t *gains, size_t gains_len);

/* The repair of a mentor's pair, by her number alone: the reply and the bytes written are those of placement_repair for
 * the request of her student and her. Both buffers must hold n entries in every case.
 * Refused: the book, then 8, 9, 19, 10, then 11, 12, then 14. A number of n or more gets 11, PLACEMENT_NOBODY too, and
 * a mentor who is alone, as she can be in edition 2, 12. */
struct placement_reply placement_repair_mentor(const uint8_t *book, size_t book_len, const uint8_t *matching,
                                               size_t matching_len, uint8_t mentor, uint8_t *out, size_t out_len,
                                               int8_t *gains, size_t gains_len);

/* value: the grade of a stable matching, which is the largest distance that placement_repair gives, less 1, over the
 * pairs that are not fixed; PLACEMENT_NO_GRADE where no pair can be repaired. Students without a mentor are no pairs
 * and do not count.
 * Refused: the book, then 8, 9, 19, 10. */
struct placement_reply placement_grade(const uint8_t *book, size_t book_len, const uint8_t *matching, size_t matching_len);

/* value: how many rotations a book has, which is the number of bytes of a set. Refused: the book. */
struct placement_reply placement_rotation_count(const uint8_t *book, size_t book_len);

/* The list of rotations, in order of number: each as its number of pairs and then student and mentor bytes.
 * value: how many rotations. Refused: the book, then 14 (out must hold the whole list; 2 bytes a pair and 1 a rotation). */
struct placement_reply placement_rotations(const uint8_t *book, size_t book_len, uint8_t *out, size_t out_len);

/* value: 1 if rotation `first` precedes rotation `second`, else 0. Refused: the book, then 11. */
struct placement_reply placement_precedes(const uint8_t *book, size_t book_len, size_t first, size_t second);

/* The matching of a closed set, one byte 0 or 1 a rotation; n bytes to out. Refused: the book, then 15, 16, 14.
 * value: n. */
struct placement_reply placement_set_to_matching(const uint8_t *book, size_t book_len, const uint8_t *set, size_t set_len,
                                                 uint8_t *out, size_t out_len);

/* The closed set of a stable matching, one byte a rotation to out. Refused: the book, then 8, 9, 19, 10, then 14.
 * value: how many rotations. */
struct placement_reply placement_matching_to_set(const uint8_t *book, size_t book_len, const uint8_t *matching, size_t matching_len,
                                                 uint8_t *out, size_t out_len);

/* The sheet of a book with a matching after it, as the sheet program prints it, to out. Line one is n, the number of
 * rotations, the number of fixed pairs and the grade, which is `-` where no pair can be repaired. The line of a student
 * i without a mentor is `i - N 0`; he does not count as fixed. value: bytes written. Refused: 14 only. A bad book or
 * matching is no refusal here: number is 0, and the sheet is the line `refused`, a space and the number of the rule.
 * In edition 1 the book is as many bytes as n says. In edition 2 it ends where the last list does, which is the sum of
 * the last directory pair, offset and length, two bytes each, low byte first; but never before the end of the
 * directory, 2 + 8n. Where the input has fewer bytes, all of it is the book. What follows is the matching. */
struct placement_reply placement_sheet(const uint8_t *input, size_t input_len, uint8_t *out, size_t out_len);

/* The sheet with the moves of each repair, as the moves program prints it, to out. The input is that of placement_sheet,
 * cut in the same way. Line one and the line of each student are those of the sheet. Under a line with U or D there is
 * a line for each student whom that repair moves, the lowest number first: a space, the student, his old mentor, his
 * new mentor and the places gained with their sign, `+` or `-`, as in ` 5 2 4 +1`. One space parts fields. They are the
 * students whose gains placement_repair gives for the pair as other than 0, as many as the distance. Under a line with
 * F or N there is none.
 * value: bytes written. Refused: 14 only; otherwise as placement_sheet. */
struct placement_reply placement_moves(const uint8_t *input, size_t input_len, uint8_t *out, size_t out_len);

/* The repair of one pair, or of two, where each student has a weight: as placement_repair, with the total weight of the
 * students moved in place of their number. The repair of the smaller total is given, up when equal, of two pairs the
 * candidate of the smallest, when equal in the order given there. value is that total, the weight of the students whose
 * gain is not 0. What can be repaired is not 'F' even where the total is 0. Weights of 1 give the answers of
 * placement_repair. Nobody is moved in vain here either, even one who weighs 0.
 * Refused: the book, then 8, 9, 19, 10, then 17, then 13, 11, 12, then 14, as there. */
struct placement_reply placement_weighted_repair(const uint8_t *book, size_t book_len, const uint8_t *matching, size_t matching_len,
                                                 const uint8_t *weights, size_t weights_len, const uint8_t *request,
                                                 size_t request_len, uint8_t *out, size_t out_len, int8_t *gains,
                                                 size_t gains_len);

/* The same by a mentor's number alone, as placement_repair_mentor: the reply and the bytes written are those of
 * placement_weighted_repair for the request of her student and her.
 * Refused: the book, then 8, 9, 19, 10, then 17, then 11, 12, then 14. */
struct placement_reply placement_weighted_repair_mentor(const uint8_t *book, size_t book_len, const uint8_t *matching,
                                                        size_t matching_len, const uint8_t *weights, size_t weights_len,
                                                        uint8_t mentor, uint8_t *out, size_t out_len, int8_t *gains,
                                                        size_t gains_len);

/* value: the weighted grade of a stable matching, which is the largest, over the pairs that are not fixed, of the total
 * less the weight of the pair's own student; PLACEMENT_NO_GRADE where no pair can be repaired. Where one can, a grade
 * of 0 says that all others who are moved weigh 0. Refused: the book, then 8, 9, 19, 10, then 17. */
struct placement_reply placement_weighted_grade(const uint8_t *book, size_t book_len, const uint8_t *matching, size_t matching_len,
                                                const uint8_t *weights, size_t weights_len);

/* The weighted sheet of a book with a matching and weights after it, as the weighted sheet program prints it, to out.
 * The book is cut as for placement_sheet. The first n bytes after it are the matching (all, if there are fewer), and
 * all that follow are the weights.
 * value: bytes written. Refused: 14 only; otherwise as placement_sheet. */
struct placement_reply placement_weighted_sheet(const uint8_t *input, size_t input_len, uint8_t *out, size_t out_len);

#ifdef __cplusplus
}
#endif

#endif
