/*
 * Every call of the header, on document 01's small examples, on the list of no rows with NULL where a length is 0, on vectors to
 * compare, on records passed by value, and on lists given by corners. It prints the calls that answer otherwise; none where all is
 * well.
 */
#include <stdio.h>
#include <string.h>

#include "planner.h"

static int wrong = 0;

static void expect(const char *call, int holds)
{
    if (!holds) {
        printf("%s answers otherwise\n", call);
        wrong = 1;
    }
}

static int holds(planner_tally t, uint32_t m, uint32_t size, uint8_t zero)
{
    return t.m == m && t.size == size && t.zero == zero;
}

/* a list of no rows: every pair is admissible, the map and the terms have no places, the smallest plan is n = 1 with zeros */
static void expect_no_rows(uint8_t plan)
{
    const int16_t zero_row[2] = {0, 0};
    const uint16_t pair[2] = {1, 2};
    const int64_t zeros[3] = {0, 0, 0};
    int64_t sums[3] = {5, 5, 5};
    uint16_t n = 9;
    uint16_t z[2] = {9, 9};
    uint8_t yes = 7;
    planner_tally t = {9, 9, 9};

    expect("planner_tally_list", planner_tally_list(plan, 2, NULL, 0, &t.m, &t.size, &t.zero) == 0 && holds(t, 0, 0, 0));
    expect("planner_least_modulus", planner_least_modulus(plan, t, &n) == 0 && n == 1);
    expect("planner_add_row", planner_add_row(plan, 2, NULL, 0, t, NULL, 0, &t.m, &t.size, &t.zero) == 3 && holds(t, 0, 0, 0));
    expect("planner_add_row", planner_add_row(plan, 2, NULL, 0, t, zero_row, 2, &t.m, &t.size, &t.zero) == 0 && holds(t, 1, 1, 1));
    expect("planner_check", planner_check(plan, 2, NULL, 0, 3, pair, 2, &yes) == 0 && yes == 1);
    expect("planner_search_vector", planner_search_vector(plan, 2, NULL, 0, 8, z, 2, &n) == 0 && n == 8 && z[0] == 0 && z[1] == 0);
    expect("planner_search_smallest", planner_search_smallest(plan, 2, NULL, 0, 8, z, 2, &n) == 0 && n == 1 && z[0] == 0 && z[1] == 0);
    if (plan == 0) {
        return;
    }
    expect("planner_residue_map", planner_residue_map(plan, 2, NULL, 0, 3, pair, 2, NULL, 0) == 0);
    expect("planner_spread",
           planner_spread(plan, 2, NULL, 0, 3, pair, 2, NULL, 0, sums, 3) == 0 && memcmp(sums, zeros, sizeof zeros) == 0);
    expect("planner_gather", planner_gather(plan, 2, NULL, 0, 3, pair, 2, zeros, 3, NULL, 0) == 0);
    expect("planner_point_list", planner_point_list(plan, 2, 3, pair, 2, NULL, 0) == 8);
}

/* the winner wins as the left one and as the right one */
static void expect_winner(const uint16_t *winner, size_t winner_len, const uint16_t *other, size_t other_len)
{
    expect("planner_gentler", planner_gentler(winner, winner_len, other, other_len) == 0);
    expect("planner_gentler", planner_gentler(other, other_len, winner, winner_len) == 1);
}

/* by length, by the largest component and by dictionary order; on a full tie the left one wins */
static void expect_gentler(void)
{
    const uint16_t settings[5] = {3, 1, 3, 1, 3};
    const uint16_t high[2] = {65535, 0};
    const uint16_t low[2] = {65534, 65534};

    expect_winner(settings, 2, settings, 3);
    expect_winner(high, 2, settings, 3);
    expect_winner(NULL, 0, settings, 1);
    expect_winner(low, 2, high, 2);
    /* (1, 3) and (3, 1) */
    expect_winner(settings + 1, 2, settings, 2);

    /* (3, 1) twice, at two places and at one; and no components twice */
    expect("planner_gentler", planner_gentler(settings, 2, settings + 2, 2) == 0);
    expect("planner_gentler", planner_gentler(settings + 2, 2, settings, 2) == 0);
    expect("planner_gentler", planner_gentler(settings, 2, settings, 2) == 0);
    expect("planner_gentler", planner_gentler(NULL, 0, NULL, 0) == 0);
    expect("planner_gentler", planner_gentler(settings, 0, NULL, 0) == 0);
}

/* the rows (1, 0) and (1, 1) under plan A: at 7 both (1, 3) and (2, 1) are admissible, and (2, 1) is the gentler */
static void expect_gentlest(void)
{
    const int16_t rows[4] = {1, 0, 1, 1};
    const uint16_t first[2] = {1, 3};
    const uint16_t gentlest[2] = {2, 1};
    uint16_t n = 9;
    uint16_t z[2] = {9, 9};
    uint8_t yes = 7;

    expect("planner_check", planner_check(2, 2, rows, 4, 7, first, 2, &yes) == 0 && yes == 1);
    expect("planner_search_vector", planner_search_vector(2, 2, rows, 4, 7, z, 2, &n) == 0 && n == 7);
    expect("planner_search_vector", memcmp(z, gentlest, sizeof gentlest) == 0);
    z[0] = 9;
    expect("planner_search_smallest", planner_search_smallest(2, 2, rows, 4, 8192, z, 2, &n) == 0 && n == 7);
    expect("planner_search_smallest", memcmp(z, gentlest, sizeof gentlest) == 0);
    expect_winner(z, 2, first, 2);
}

/* the record of (0, 0), (1, 0), (1, 1), row by row and at once, and the bounds from it; the mirrors are 1, 2 and 4 */
static void expect_tally(uint8_t plan)
{
    const int16_t rows[6] = {0, 0, 1, 0, 1, 1};
    const uint32_t sizes[2][3] = {{1, 2, 3}, {1, 3, 7}};
    const uint16_t bounds[5][3] = {{1, 2, 2}, {1, 2, 3}, {1, 3, 7}, {1, 3, 5}, {1, 2, 3}};
    uint16_t n = 9;
    planner_tally t;
    planner_tally whole = {9, 9, 9};

    /* the bytes behind the flag are the struct's own, and no part of the record */
    memset(&t, 0xff, sizeof t);
    t.m = 0;
    t.size = 0;
    t.zero = 0;
    for (uint32_t i = 0; i < 3; i++) {
        expect("planner_add_row", planner_add_row(plan, 2, rows, 2 * i, t, rows + 2 * i, 2, &t.m, &t.size, &t.zero) == 0);
        expect("planner_add_row", holds(t, i + 1, sizes[plan >= 2][i], 1));
        expect("planner_least_modulus", planner_least_modulus(plan, t, &n) == 0 && n == bounds[plan][i]);
    }
    expect("planner_tally_list", planner_tally_list(plan, 2, rows, 6, &whole.m, &whole.size, &whole.zero) == 0);
    expect("planner_tally_list", holds(whole, t.m, t.size, t.zero));

    /* any number but 0 is yes */
    for (unsigned flag = 1; flag <= 255; flag++) {
        planner_tally given = {3, t.size, (uint8_t)flag};
        planner_tally longer = {9, 9, 9};
        const int16_t row[2] = {0, 5};
        n = 9;
        expect("planner_least_modulus", planner_least_modulus(plan, given, &n) == 0 && n == bounds[plan][2]);
        expect("planner_add_row", planner_add_row(plan, 2, rows, 6, given, row, 2, &longer.m, &longer.size, &longer.zero) == 0);
        expect("planner_add_row", holds(longer, 4, t.size + (plan < 2 ? 1 : 2), 1));
    }
}

/* what a refused call was lent is kept */
static void expect_tally_refused(void)
{
    const int16_t rows[6] = {0, 0, 1, 0, 1, 1};
    const int16_t row[3] = {0, 1, 0};
    const int16_t outside[2] = {0, 256};
    const planner_tally right = {3, 7, 1};
    const planner_tally wrong[4] = {{2, 7, 1}, {3, 6, 1}, {3, 7, 0}, {0, 0, 0}};
    const planner_tally out_of_range[4] = {{513, 513, 0}, {2, 129, 0}, {0, 0, 1}, {UINT32_MAX, UINT32_MAX, 255}};
    planner_tally t = {11, 12, 13};
    uint16_t n = 14;

    expect("planner_tally_list", planner_tally_list(5, 2, rows, 6, &t.m, &t.size, &t.zero) == 1);
    expect("planner_tally_list", planner_tally_list(2, 7, rows, 6, &t.m, &t.size, &t.zero) == 2);
    expect("planner_tally_list", planner_tally_list(2, 2, rows, 5, &t.m, &t.size, &t.zero) == 3);
    expect("planner_tally_list", planner_tally_list(2, 2, outside, 2, &t.m, &t.size, &t.zero) == 4);
    expect("planner_tally_list", planner_tally_list(2, 1, rows, 6, &t.m, &t.size, &t.zero) == 5);
    expect("planner_add_row", planner_add_row(5, 2, rows, 6, right, row, 2, &t.m, &t.size, &t.zero) == 1);
    expect("planner_add_row", planner_add_row(2, 0, rows, 6, right, row, 2, &t.m, &t.size, &t.zero) == 2);
    expect("planner_add_row", planner_add_row(2, 2, rows, 5, right, row, 2, &t.m, &t.size, &t.zero) == 3);
    expect("planner_add_row", planner_add_row(2, 2, rows, 6, right, row, 3, &t.m, &t.size, &t.zero) == 3);
    expect("planner_add_row", planner_add_row(2, 2, rows, 6, right, outside, 2, &t.m, &t.size, &t.zero) == 4);
    expect("planner_add_row", planner_add_row(2, 2, rows, 6, wrong[0], rows + 4, 2, &t.m, &t.size, &t.zero) == 5);
    for (size_t i = 0; i < 4; i++) {
        expect("planner_add_row", planner_add_row(2, 2, rows, 6, wrong[i], row, 2, &t.m, &t.size, &t.zero) == 3);
        expect("planner_least_modulus", planner_least_modulus(2, out_of_range[i], &n) == 3);
    }
    expect("planner_least_modulus", planner_least_modulus(5, right, &n) == 1);
    expect("a refused call", holds(t, 11, 12, 13) && n == 14);

    /* the largest bound, and the least, which only a false record gets */
    const planner_tally largest = {512, 32768, 0};
    const planner_tally hollow = {1, 0, 1};
    expect("planner_least_modulus", planner_least_modulus(2, largest, &n) == 0 && n == 32769);
    expect("planner_least_modulus", planner_least_modulus(2, hollow, &n) == 0 && n == 0);
}

enum { MOST_ROWS = 512, MOST_CORNERS = 32, PATTERN = -7 };

static void fill(int16_t *places, size_t count, int16_t with)
{
    for (size_t i = 0; i < count; i++) {
        places[i] = with;
    }
}

static int all_are(const int16_t *places, size_t count, int16_t value)
{
    for (size_t i = 0; i < count; i++) {
        if (places[i] != value) {
            return 0;
        }
    }
    return 1;
}

/* the list of (2, 0) and (0, 1), given in any order and with equal ones, lies in front, and what is behind it is kept */
static void expect_corner_list(void)
{
    const int16_t corners[2][6] = {{2, 0, 0, 1, 2, 0}, {0, 1, 1, 0, 2, 0}};
    const int16_t list[8] = {0, 0, 0, 1, 1, 0, 2, 0};
    int16_t out[2 * MOST_ROWS];
    uint8_t yes = 7;

    for (size_t i = 0; i < 2; i++) {
        size_t count = 9;
        fill(out, 2 * MOST_ROWS, PATTERN);
        expect("planner_corner_list", planner_corner_list(2, corners[i], 6, out, 2 * MOST_ROWS, &count) == 0 && count == 4);
        expect("planner_corner_list", memcmp(out, list, sizeof list) == 0 && all_are(out + 8, 2 * MOST_ROWS - 8, PATTERN));
    }
    expect("planner_is_lower", planner_is_lower(2, out, 8, &yes) == 0 && yes == 1);

    /* (255, 1) has 512 rows, which fill all places; the last is the corner itself */
    const int16_t full[2] = {255, 1};
    size_t count = 9;
    expect("planner_corner_list", planner_corner_list(2, full, 2, out, 2 * MOST_ROWS, &count) == 0 && count == MOST_ROWS);
    for (size_t i = 0; i < MOST_ROWS; i++) {
        expect("planner_corner_list", out[2 * i] == (int16_t)(i / 2) && out[2 * i + 1] == (int16_t)(i % 2));
    }
    expect("planner_is_lower", planner_is_lower(2, out, 2 * MOST_ROWS, &yes) == 0 && yes == 1);
    for (uint8_t plan = 0; plan <= 4; plan++) {
        planner_tally t = {9, 9, 9};
        expect("planner_tally_list", planner_tally_list(plan, 2, out, 2 * MOST_ROWS, &t.m, &t.size, &t.zero) == 0);
        expect("planner_tally_list", t.m == MOST_ROWS && t.zero == 1);
    }
}

/* one thing after the other is made right, so that each refusal comes before all that follow it; what was lent is kept */
static void expect_corners_refused(void)
{
    const size_t many = 2 * (MOST_CORNERS + 1);
    const int16_t above[1] = {256};
    const int16_t long_list[4] = {255, 1, 0, 2};
    int16_t highest[6 * MOST_CORNERS];
    int16_t corners[2 * (MOST_CORNERS + 1) + 1];
    int16_t out[6 * MOST_ROWS];
    size_t count = 9;

    fill(highest, 6 * MOST_CORNERS, 255);
    fill(corners, many + 1, 1);
    fill(out, 6 * MOST_ROWS, PATTERN);
    corners[0] = -1;
    expect("planner_corner_list", planner_corner_list(0, corners, many + 1, out, 1, &count) == 2);
    expect("planner_corner_list", planner_corner_list(7, corners, many + 1, out, 1, &count) == 2);
    expect("planner_corner_list", planner_corner_list(2, corners, many + 1, out, 1, &count) == 3);
    expect("planner_corner_list", planner_corner_list(2, corners, many, out, 1, &count) == 4);
    corners[0] = 1;
    expect("planner_corner_list", planner_corner_list(2, corners, many, out, 1, &count) == 13);
    expect("planner_corner_list", planner_corner_list(2, corners, many - 2, out, 1, &count) == 8);

    expect("planner_corner_list", planner_corner_list(1, above, 1, out, MOST_ROWS, &count) == 4);
    expect("planner_corner_list", planner_corner_list(2, NULL, 0, NULL, 0, &count) == 13);
    expect("planner_corner_list", planner_corner_list(2, long_list, 4, out, 2 * MOST_ROWS, &count) == 13);
    expect("planner_corner_list", planner_corner_list(6, highest, 6 * MOST_CORNERS, out, 6 * MOST_ROWS, &count) == 13);
    expect("planner_corner_list", planner_corner_list(2, corners, 2, NULL, 0, &count) == 8);
    expect("planner_corner_list", planner_corner_list(2, corners, 2, out, 2 * MOST_ROWS + 1, &count) == 8);
    expect("a refused call", count == 9 && all_are(out, 6 * MOST_ROWS, PATTERN));

    /* 32 corners, all equal */
    expect("planner_corner_list", planner_corner_list(2, corners, many - 2, out, 2 * MOST_ROWS, &count) == 0 && count == 4);
}

/* lists that are lower, that are not, and that are refused */
static void expect_lower(void)
{
    const int16_t lower[8] = {2, 0, 0, 1, 0, 0, 1, 0};
    const int16_t hole[6] = {0, 0, 2, 0, 0, 1};
    const int16_t negative[4] = {0, 0, -1, 0};
    const int16_t outside[3] = {256, -256, 0};
    static const int16_t too_many[MOST_ROWS + 1] = {0};
    uint8_t yes = 7;

    expect("planner_is_lower", planner_is_lower(2, lower, 8, &yes) == 0 && yes == 1);
    expect("planner_is_lower", planner_is_lower(2, hole, 6, &yes) == 0 && yes == 0);
    expect("planner_is_lower", planner_is_lower(2, NULL, 0, &yes) == 0 && yes == 1);
    expect("planner_is_lower", planner_is_lower(2, negative, 4, &yes) == 0 && yes == 0);

    yes = 7;
    expect("planner_is_lower", planner_is_lower(0, outside, 3, &yes) == 2);
    expect("planner_is_lower", planner_is_lower(7, outside, 3, &yes) == 2);
    expect("planner_is_lower", planner_is_lower(2, outside, 3, &yes) == 3);
    expect("planner_is_lower", planner_is_lower(1, too_many, MOST_ROWS + 1, &yes) == 3);
    expect("planner_is_lower", planner_is_lower(2, outside, 2, &yes) == 4);
    expect("planner_is_lower", planner_is_lower(1, outside + 1, 2, &yes) == 4);
    expect("planner_is_lower", planner_is_lower(1, too_many, MOST_ROWS, &yes) == 5);
    expect("a refused call", yes == 7);
}

int main(void)
{
    const int16_t rows[3] = {0, 1, 2};
    const uint16_t one[1] = {1};
    const uint16_t two[2] = {1, 2};
    const int32_t terms[3] = {5, -3, 2};

    uint8_t yes = 7;
    expect("planner_check", planner_check(2, 1, rows, 3, 5, one, 1, &yes) == 0 && yes == 1);
    expect("planner_check", planner_check(2, 1, rows, 3, 4, one, 1, &yes) == 0 && yes == 0);

    const uint16_t map[6] = {0, 1, 1, 1, 2, 2};
    uint16_t out[6];
    expect("planner_residue_map", planner_residue_map(4, 1, rows, 3, 4, one, 1, out, 6) == 0 && memcmp(out, map, sizeof map) == 0);

    const int64_t spread[4] = {5, -3, 4, -3};
    int64_t sums[4];
    expect("planner_spread",
           planner_spread(4, 1, rows, 3, 4, one, 1, terms, 3, sums, 4) == 0 && memcmp(sums, spread, sizeof spread) == 0);

    int32_t gathered[3];
    expect("planner_gather",
           planner_gather(4, 1, rows, 3, 4, one, 1, spread, 4, gathered, 3) == 0 && memcmp(gathered, terms, sizeof terms) == 0);

    /* five lenses under plan 1; under plan A three, and then ten places are too many */
    const uint16_t residues[10] = {0, 0, 1, 2, 2, 4, 3, 1, 4, 3};
    const uint16_t tents[6] = {0, 0, 2, 4, 4, 2};
    uint16_t points[10];
    expect("planner_point_list",
           planner_point_list(1, 2, 5, two, 2, points, 10) == 0 && memcmp(points, residues, sizeof residues) == 0);
    expect("planner_point_list",
           planner_point_list(2, 2, 5, two, 2, points, 10) == 8 && memcmp(points, residues, sizeof residues) == 0);
    expect("planner_point_list", planner_point_list(2, 2, 5, two, 2, points, 6) == 0 && memcmp(points, tents, sizeof tents) == 0);

    uint16_t n = 0;
    uint16_t z[1] = {9};
    expect("planner_search_vector", planner_search_vector(1, 1, rows, 3, 8, z, 1, &n) == 0 && n == 8 && z[0] == 1);
    expect("planner_search_smallest", planner_search_smallest(1, 1, rows, 3, 8, z, 1, &n) == 0 && n == 3 && z[0] == 1);

    for (uint8_t plan = 0; plan <= 4; plan++) {
        expect_no_rows(plan);
        expect_tally(plan);
    }
    expect_gentler();
    expect_gentlest();
    expect_tally_refused();
    expect_corner_list();
    expect_corners_refused();
    expect_lower();
    return wrong;
}
