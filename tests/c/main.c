/* Goes through every function of include/placement.h. Exits with 1 if a check failed. */
#include "check.h"

#include <stdio.h>

int main(void)
{
    test_book();
    test_writer();
    test_matching();
    test_rotations();
    test_sets();
    test_repair();
    test_sheet();
    test_moves();
    test_moves_books();
    test_weights();
    test_weight_rules();
    test_weighted_sheet();
    test_mentor();
    test_between();
    test_pairs();
    test_pair_books();
    test_pair_rules();
    test_short_book();
    test_short_matching();
    test_short_repair();
    test_short_rules();
    test_short_sheet();
    test_editions();
    test_header();
    printf("C: %lu checks, %lu failed\n", checks, failures);
    return failures != 0;
}
