/*
 * Document 01's printed example through the header: cosine plan C, rows 0, 1, 2, ceiling 10. It prints the plan and the map as the
 * program `plan` does, then a request that is refused: plan 0, row 6, ceiling 3. Next it types the rows one after the other, and
 * prints after each the record and the least modulus worth trying under cosine plan A; a row that is in already is refused. Then
 * come the rows of a list given by two corners, its smallest plan under cosine plan A, the gentler of its vector and another one,
 * and the lenses to cut for it.
 */
#include <inttypes.h>
#include <stdio.h>

#include "planner.h"

enum { AXES = 1, ROWS = 3, CEILING = 100 };

/* The rows typed one after the other under plan A: after each its list's record, and the least modulus worth trying. */
static int type_rows(const int16_t *rows)
{
    planner_tally tally = {0, 0, 0};
    uint8_t refused;

    for (size_t i = 0; i < ROWS; i++) {
        uint16_t least;
        refused = planner_add_row(2, AXES, rows, i * AXES, tally, rows + i * AXES, AXES, &tally.m, &tally.size, &tally.zero);
        if (refused == 0) {
            refused = planner_least_modulus(2, tally, &least);
        }
        if (refused != 0) {
            printf("refused %" PRIu8 "\n", refused);
            return 1;
        }
        printf("%" PRIu32 " %" PRIu32 " %" PRIu8 ": %" PRIu16 "\n", tally.m, tally.size, tally.zero, least);
    }

    /* the first row again is refused: the record keeps what it holds */
    planner_tally before = tally;
    refused = planner_add_row(2, AXES, rows, ROWS * AXES, tally, rows, AXES, &tally.m, &tally.size, &tally.zero);
    printf("refused %" PRIu8 "\n", refused);
    return tally.m == before.m && tally.size == before.size && tally.zero == before.zero ? 0 : 1;
}

/* The lenses of a plan under plan A over two axes: under the tent line n - i equals line i, so there are n / 2 + 1. */
static int list_points(uint16_t n, const uint16_t *z)
{
    uint16_t points[(CEILING / 2 + 1) * 2];
    size_t lines = n / 2 + 1;

    uint8_t refused = planner_point_list(2, 2, n, z, 2, points, lines * 2);
    if (refused != 0) {
        printf("refused %" PRIu8 "\n", refused);
        return 1;
    }
    for (size_t i = 0; i < lines; i++) {
        printf("lens %zu: %" PRIu16 "/%" PRIu16 " %" PRIu16 "/%" PRIu16 "\n", i, points[2 * i], n, points[2 * i + 1], n);
    }
    return 0;
}

/* Of two vectors for the same two axes the gentler one, which is one of the two itself. */
static void print_gentler(const uint16_t *left, const uint16_t *right)
{
    const uint16_t *winner = planner_gentler(left, 2, right, 2) == 0 ? left : right;

    printf("gentler: %" PRIu16 " %" PRIu16 "\n", winner[0], winner[1]);
}

/* The list of the corners (2, 0) and (0, 1): its rows, its smallest plan under plan A, and the lenses of that plan. */
static int plan_corners(void)
{
    const int16_t corners[2 * 2] = {2, 0, 0, 1};
    int16_t rows[512 * 2];
    size_t count;
    uint16_t n;
    uint16_t z[2];

    uint8_t refused = planner_corner_list(2, corners, 2 * 2, rows, 512 * 2, &count);
    if (refused == 0) {
        refused = planner_search_smallest(2, 2, rows, count * 2, CEILING, z, 2, &n);
    }
    if (refused != 0) {
        printf("refused %" PRIu8 "\n", refused);
        return 1;
    }
    for (size_t i = 0; i < count; i++) {
        printf("(%" PRId16 ", %" PRId16 ")\n", rows[2 * i], rows[2 * i + 1]);
    }
    printf("%" PRIu16 " %" PRIu16 " %" PRIu16 "\n", n, z[0], z[1]);

    /* (1, 3) is admissible there too, and comes first in dictionary order */
    print_gentler((const uint16_t[]){1, 3}, z);
    return list_points(n, z);
}

int main(void)
{
    const int16_t rows[ROWS * AXES] = {0, 1, 2};
    uint16_t n;
    uint16_t z[AXES];
    uint16_t map[2 * ROWS];

    uint8_t refused = planner_search_smallest(4, AXES, rows, ROWS * AXES, 10, z, AXES, &n);
    if (refused == 0) {
        refused = planner_residue_map(4, AXES, rows, ROWS * AXES, n, z, AXES, map, 2 * ROWS);
    }
    if (refused != 0) {
        printf("refused %" PRIu8 "\n", refused);
        return 1;
    }
    printf("%" PRIu16, n);
    for (size_t j = 0; j < AXES; j++) {
        printf(" %" PRIu16, z[j]);
    }
    printf("\n");
    for (size_t i = 0; i < ROWS; i++) {
        printf("%" PRIu16 " %" PRIu16 "\n", map[2 * i], map[2 * i + 1]);
    }

    /* refused: n and z keep what they hold */
    const int16_t six[1] = {6};
    uint16_t n_before = n;
    uint16_t z_before = z[0];
    refused = planner_search_smallest(0, 1, six, 1, 3, z, 1, &n);
    printf("refused %" PRIu8 "\n", refused);
    if (n != n_before || z[0] != z_before) {
        return 1;
    }
    if (type_rows(rows) != 0) {
        return 1;
    }
    return plan_corners();
}
