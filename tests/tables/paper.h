/* What document 000 says of its example, typed from Tables 2 and 3 and from the text of its section 3; its men are the
 * students, its women the mentors. Table 1, the lists, is in ../c/books.c. Figures 1 and 2, with the rotations and the
 * stable matchings, are lost: a matching is known by its set, and of the names in Table 3 only that equal ones mean one
 * matching. Nothing in the tables is a misprint: each value is what the definitions give for the lists of Table 1. */
#ifndef PAPER_H
#define PAPER_H

/* Stands where the paper has a dash, or infinity for a distance. */
#define NONE (-1)

/* A repair: its set (Table 2), the numbers of its rotations as digits, then its name and its distance (Table 3).
 * The set is NULL where the paper has a dash. */
struct paper_repair {
    const char *set;
    int name;
    int distance;
};

/* A pair of M5: its student and mentor, the rotations that produce and eliminate it (Table 2), both repairs, and the
 * repairing cost b (Table 3). */
struct paper_row {
    int student, mentor;
    int produced, eliminated;
    struct paper_repair up, down;
    int cost;
};

static const struct paper_row paper_rows[7] = {
    {0, 4, 2, 3, {"01", 2, 2}, {"0123", 8, 2}, 1},
    {1, 5, 1, 5, {"0", 1, 4}, {"01245", 7, 4}, 3},
    {2, 6, NONE, 4, {NULL, NONE, NONE}, {"0124", 6, 2}, 1},
    {3, 3, NONE, 5, {NULL, NONE, NONE}, {"01245", 7, 4}, 3},
    {4, 1, NONE, 3, {NULL, NONE, NONE}, {"0123", 8, 2}, 1},
    {5, 2, 2, NONE, {"01", 2, 2}, {NULL, NONE, NONE}, 1},
    {6, 0, 1, 4, {"0", 1, 4}, {"0124", 6, 2}, 1},
};

/* "let current stable matching be M5, and the closed subset associated with it be S5"; "M5 is a (1,3)-supermatch". */
static const char paper_set_5[] = "012";
static const int paper_grade_5 = 3;

#endif
