/*
 * The planner: rank-1 lattices that keep the terms of a list apart. Link with target/staticlib/libexports.a, which
 * `bash bindings/archive.sh` writes (x86-64 Linux). Every function is proved to meet its contract (crates/exports_c).
 *
 * The arguments
 *   plan            0 exact integration, 1 Fourier reconstruction, 2, 3, 4 cosine plans A, B, C
 *   d               the number of axes, 1 to 6
 *   rows, rows_len  the list: m rows of d numbers, one after the other, so rows_len is m * d, m from 0 to 512. Each number is
 *                   from -255 to 255, not negative for plans 2, 3 and 4, and all rows differ. A list of no rows has rows_len 0;
 *                   rows may then be NULL
 *   corners, corners_len
 *                   the corners of a list: 1 to 32 rows of d numbers from 0 to 255, one after the other, so corners_len is d for
 *                   each corner. Equal corners are allowed
 *   n               the modulus, 1 to 8192
 *   z, z_len        the generating vector: d numbers from 0 to n - 1, so z_len is d
 *   tally           the record of a list (planner_tally, below), passed by value
 *   left, left_len, right, right_len
 *                   two vectors to compare, of any lengths and any numbers
 * A length counts elements, not bytes.
 *
 * The answer
 *   Every call but planner_gentler returns the number of the refusal, 0 for none: it tries the conditions that are listed at it in
 *   their order and returns the first that applies; then nothing that was lent is written. planner_gentler refuses nothing, and its
 *   0 or 1 says which vector wins. Any values may be passed: no call fails otherwise.
 *
 *    1  plan above 4; for map, spread and gather also plan 0
 *    2  d not 1 to 6
 *    3  rows_len no multiple of d, or more than 512 rows; add_row: also a row not d long, or a record that is not the list's;
 *       least_modulus: a record with m over 512, size over 64 * m, or the zero row at m = 0; corner_list: only corners_len no
 *       multiple of d
 *    4  a component of a row or corner outside its range
 *    5  two equal rows
 *    6  n, or the ceiling, not 1 to 8192
 *    7  z not d long, or a component of it n or more
 *    8  an output, or the terms or sums, not of the exact length
 *    9  search: nothing admissible
 *   10  map, spread, gather: the pair n, z is not admissible
 *   11  gather: a sum is no multiple of c, or a quotient does not fit 32 bits
 *   13  corner_list: no corners, more than 32, or their list has more than 512 rows. It is tried after 4 and before 8
 *   No call returns 12, which is a refusal of the program that reads tickets: the form of its text.
 *
 * What the caller owes
 *   Every pointer is aligned and points to as many elements as its length says; one whose length is 0 is not followed and may be
 *   NULL. The pointers without a length, yes, found, m, size, zero and count, are not NULL and point to one element each. What a
 *   call may write overlaps nothing else that it is passed, and nothing else touches the memory until it returns. A search takes
 *   less than 1.5 MiB of stack, any other call less than 256 KiB. The calls keep no state: different threads may call at once.
 */
#ifndef PLANNER_H
#define PLANNER_H

#include <stddef.h>
#include <stdint.h>

#ifdef __cplusplus
extern "C" {
#endif

/*
 * Whether the pair n, z is admissible: meets the rule of the plan for the list.
 * Refusals: 1 2 3 4 5 6 7.
 * Writes, where it returns 0: *yes, 1 where the pair is admissible and else 0.
 */
uint8_t planner_check(uint8_t plan, size_t d, const int16_t *rows, size_t rows_len, uint16_t n, const uint16_t *z, size_t z_len,
                      uint8_t *yes);

/*
 * The residue map: for each row its residue, and then c, the number of its mirrors (the row among them) that have this residue. For
 * plan 1 a row is its only mirror. A list of no rows has no map: out_len is 0.
 * Refusals: 1 (also plan 0) 2 3 4 5 6 7, 8 where out_len is not 2 * m, 10.
 * Writes, where it returns 0: out, 2 * m numbers.
 */
uint8_t planner_residue_map(uint8_t plan, size_t d, const int16_t *rows, size_t rows_len, uint16_t n, const uint16_t *z,
                            size_t z_len, uint16_t *out, size_t out_len);

/*
 * Spreading: the sum at residue r adds a row's term once for each mirror of the row that has residue r. Without rows all sums are 0.
 * terms: m numbers, one for each row.
 * Refusals: 1 (also plan 0) 2 3 4 5 6 7, 8 where terms_len is not m or sums_len is not n, 10.
 * Writes, where it returns 0: sums, n numbers.
 */
uint8_t planner_spread(uint8_t plan, size_t d, const int16_t *rows, size_t rows_len, uint16_t n, const uint16_t *z, size_t z_len,
                       const int32_t *terms, size_t terms_len, int64_t *sums, size_t sums_len);

/*
 * Gathering: for each row the sum at its residue, divided by its c. It gives spread terms back.
 * sums: n numbers; those at residues that no row has are not read.
 * Refusals: 1 (also plan 0) 2 3 4 5 6 7, 8 where terms_len is not m or sums_len is not n, 10, 11.
 * Writes, where it returns 0: terms, m numbers.
 */
uint8_t planner_gather(uint8_t plan, size_t d, const int16_t *rows, size_t rows_len, uint16_t n, const uint16_t *z, size_t z_len,
                       const int64_t *sums, size_t sums_len, int32_t *terms, size_t terms_len);

/*
 * The cutting list: a line of d numbers for each lens. Line i holds for axis j the residue of i * z[j]; for plans 2, 3 and 4 the tent
 * numerator of that residue r, the smaller of 2 r and 2 n - 2 r. It takes no list, and z need not be admissible.
 * Lenses: for plans 0 and 1 there are n, lines 0 to n - 1; for plans 2, 3 and 4 there are n / 2 + 1 (n / 2 rounded down), lines 0 to
 * n / 2. There line n - i would equal line i, so line i above n / 2 is not listed: it is line n - i. Kept lines may still be equal.
 * Refusals: 1 2 6 7, 8 where out_len is not the number of lenses * d.
 * Writes, where it returns 0: out, the number of lenses * d numbers.
 */
uint8_t planner_point_list(uint8_t plan, size_t d, uint16_t n, const uint16_t *z, size_t z_len, uint16_t *out, size_t out_len);

/*
 * The vector search: the gentlest admissible vector at n. Of all with components from 0 to n - 1 it is the one with the least
 * largest component; of those that share it, the first in dictionary order, the first component most significant.
 * Refusals: 1 2 3 4 5 6, 8 where z_len is not d, 9 where no vector is admissible at n.
 * Writes, where it returns 0: z, d numbers from 0 to n - 1, and *found, which is n.
 */
uint8_t planner_search_vector(uint8_t plan, size_t d, const int16_t *rows, size_t rows_len, uint16_t n, uint16_t *z, size_t z_len,
                              uint16_t *found);

/*
 * The smallest plan: the smallest modulus from 1 to the ceiling that has an admissible vector, and the gentlest one there, as the
 * vector search gives it. For a list of no rows every pair is admissible, so it is n = 1 with the vector of zeros.
 * Refusals: 1 2 3 4 5 6, 8 where z_len is not d, 9 where no modulus up to the ceiling has one.
 * Writes, where it returns 0: z, d numbers from 0 to *found - 1, and *found, the modulus.
 * It may take long: the ceiling bounds the moduli that it tries.
 */
uint8_t planner_search_smallest(uint8_t plan, size_t d, const int16_t *rows, size_t rows_len, uint16_t ceiling, uint16_t *z,
                                size_t z_len, uint16_t *found);

/*
 * The gentler of two vectors, by the order of the searches: the shorter one wins; at one length the one with the smaller largest
 * component; where these are equal the first in dictionary order; on a full tie the left one. They may overlap, or be the same.
 * Refusals: none. Writes nothing.
 * Returns 0 where the left one wins and 1 where the right one wins: the winner is left or right itself, as it was lent.
 */
uint8_t planner_gentler(const uint16_t *left, size_t left_len, const uint16_t *right, size_t right_len);

/*
 * The running tally: which moduli are hopeless is known from the record of a list, while its rows are still being typed.
 *   m     the number of rows
 *   size  the number of different mirrors of all rows; for plans 0 and 1 it is m
 *   zero  whether the zero row is in: 0 is no, any other number is yes; the calls write 1 or 0
 * A list of no rows has the record {0, 0, 0}.
 */
typedef struct planner_tally {
    uint32_t m;
    uint32_t size;
    uint8_t zero;
} planner_tally;

/*
 * The record of a whole list, counted at once.
 * Refusals: 1 2 3 4 5.
 * Writes, where it returns 0: *m, *size and *zero. They may be the fields of one planner_tally.
 */
uint8_t planner_tally_list(uint8_t plan, size_t d, const int16_t *rows, size_t rows_len, uint32_t *m, uint32_t *size,
                           uint8_t *zero);

/*
 * One row more: from a list, its record and a row, the record of the longer list, which is the list and then the row. No list is
 * written: the caller appends the row himself.
 * row: d numbers.
 * Refusals: 1 2, 3 where rows_len is no multiple of d, row_len is not d, or there are more than 512 rows with the new one, 4 5 over
 * the longer list, and then again 3 where the record is not the one that planner_tally_list gives for the list.
 * Writes, where it returns 0: *m, *size and *zero. They may be the fields of the struct whose value was passed.
 */
uint8_t planner_add_row(uint8_t plan, size_t d, const int16_t *rows, size_t rows_len, planner_tally tally, const int16_t *row,
                        size_t row_len, uint32_t *m, uint32_t *size, uint8_t *zero);

/*
 * The least modulus worth trying, from the plan and the record alone:
 *   plan 0         2 if a row other than the zero row is held, else 1
 *   plans 1 and 4  the larger of 1 and m
 *   plan 2         size, plus 1 without the zero row
 *   plan 3         2 m - 1 with the zero row, else 2 m + 1
 * Where the record is that of a list, no smaller modulus has an admissible vector for this list, and the search for the smallest
 * plan starts here. The number goes up to 32,769; above 8192 it says that no modulus from 1 to 8192 works. A record that no list has
 * may pass the refusals: its number says nothing, and may be 0 (plan 2, size 0 with the zero row in, m at least 1).
 * Refusals: 1, 3 where m is over 512, size is over 64 * m, or the zero row is in at m = 0.
 * Writes, where it returns 0: *found, the modulus.
 */
uint8_t planner_least_modulus(uint8_t plan, planner_tally tally, uint16_t *found);

/*
 * The list of some corners: every row from zero up to some corner (a row without negative components that is nowhere larger than
 * that corner), each once, in dictionary order, the first component most significant. So the zero row is the first. Such a list
 * is lower (the next call), and valid for every plan.
 * Refusals: 2, 3 where corners_len is no multiple of d, 4 where a component is negative or above 255, 13 where there are no
 * corners, more than 32, or the list has more than 512 rows, 8 where out_len is not 512 * d.
 * Writes, where it returns 0: *count, the number of rows, and the front of out, *count * d numbers. The rest of out is kept.
 * It is fast for any corners: at most 512 rows are made.
 */
uint8_t planner_corner_list(size_t d, const int16_t *corners, size_t corners_len, int16_t *out, size_t out_len, size_t *count);

/*
 * Whether a list is lower: with a row, every row without negative components that is nowhere larger is in too. A list with a
 * negative component never is; the list of no rows is.
 * Refusals: 2 3, 4 where a component is larger than 255 in size (as for plans 0 and 1 it may be negative), 5.
 * Writes, where it returns 0: *yes, 1 where the list is lower and else 0.
 */
uint8_t planner_is_lower(size_t d, const int16_t *rows, size_t rows_len, uint8_t *yes);

#ifdef __cplusplus
}
#endif

#endif
