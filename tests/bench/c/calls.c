/* One call of the archive, or the same work by the C library here, again and again on one input.
 *
 *     calls WHO CALL TIMES < INPUT       WHO: archive or c; INPUT: a book and then a matching
 *
 * against_c counts its instructions. Both have to give the same bytes: they are written to standard output. The sheet
 * with moves, whose instructions tests/bench/moves counts, is a call of the archive alone. */
#define LIMIT 64
#define API static __attribute__((unused))
#include "lib.c"
#include "placement.h"
#include <stdio.h>
#include <stdlib.h>

enum { INPUT = 2 + 8 * LIMIT + 2 * LIMIT * LIMIT + LIMIT + 1, ROOM = PLACEMENT_LARGEST_MOVES };

static u8 input[INPUT], out[ROOM];
static int8_t gains[LIMIT];
static size_t len, size, n;
static size_t used;                     /* bytes of the result */
static book b;

static void archive_call(const char *call, size_t k)
{
    const u8 *m = input + size;
    size_t s = k % n;
    u8 request[2] = {(u8)s, m[s]};
    if (!strcmp(call, "check_matching")) used = placement_check_matching(input, size, m, n).number;
    if (!strcmp(call, "student_best")) used = placement_student_best(input, size, out, ROOM).value;
    if (!strcmp(call, "repair"))
        used = placement_repair(input, size, m, n, request, 2, out, ROOM, gains, LIMIT).letter == 'F' ? 0 : n;
    if (!strcmp(call, "rotations")) used = placement_rotations(input, size, out, ROOM).value;
    if (!strcmp(call, "precedes")) out[0] = (u8)placement_precedes(input, size, 0, k % 2).value, used = 1;
    if (!strcmp(call, "sheet")) used = placement_sheet(input, len, out, ROOM).value;
    if (!strcmp(call, "moves")) used = placement_moves(input, len, out, ROOM).value;
}

static void c_call(const char *call, size_t k)
{
    const u8 *m = input + size;
    size_t s = k % n;
    u8 request[2] = {(u8)s, m[s]};
    state st;
    int letter = 0, distance, count;
    if (!strcmp(call, "check_matching")) check_book(input, size, 0, &b), used = check_matching(&b, m, n, &st).no;
    if (!strcmp(call, "student_best")) {
        check_book(input, size, 0, &b);
        student_best(&b, &st);
        for (size_t i = 0; i < n; i++) out[i] = b.sl[i * n + st.place[i]];
        used = n;
    }
    if (!strcmp(call, "repair")) {
        repair_call(input, size, m, n, request, 2, out, ROOM, gains, LIMIT, &letter, &distance, &b);
        used = letter == 'F' ? 0 : n;
    }
    if (!strcmp(call, "rotations")) check_book(input, size, 0, &b), rotations(&b, out, ROOM, &count), used = count;
    if (!strcmp(call, "precedes")) {
        static u8 list[ROOM];
        check_book(input, size, 0, &b);
        rotations(&b, list, ROOM, &count);
        out[0] = precedes(&b, list, count, 0, k % 2) > 0;
        used = 1;
    }
    if (!strcmp(call, "sheet")) used = sheet(input, len, &b, (char *)out);
}

int main(int argc, char **argv)
{
    if (argc != 4) return 2;
    len = fread(input, 1, INPUT, stdin);
    n = input[1];
    size = 2 + 8 * n + 2 * n * n;
    size_t times = strtoul(argv[3], 0, 10);
    for (size_t k = 0; k < times; k++) {
        if (argv[1][0] == 'a') archive_call(argv[2], k);
        else c_call(argv[2], k);
    }
    if (!strcmp(argv[2], "rotations")) {        /* the number of rotations is the reply, the list is the result */
        size_t end = 0;
        for (size_t k = 0; k < used; k++) end += 1 + 2 * out[end];
        used = end;
    }
    return fwrite(out, 1, used, stdout) != used;
}
