//! The library's functions as they are. A slice is passed as its pointer and then its length. Each but `planner_gentler` returns the
//! number of the refusal, 0 for none; then what it was lent is written, and otherwise left as it was. `planner_corner_list` writes the
//! front of its `out` alone. `planner_gentler` refuses and writes nothing: it returns 0 where the left vector wins and 1 where the
//! right one does.
//!
//! What a caller owes: every pointer is aligned and points to as many elements as its length says, where one whose length is 0 may
//! be null; `yes`, `found`, `m`, `size`, `zero` and `count` are not null and point to one element each; and what may be written
//! overlaps nothing else that is passed. `include/planner.h` says what each call does.

/// The record of a list, as the library takes it: by value. The flag `zero` is no where it is 0, and yes for any other number.
#[derive(Clone, Copy, Debug)]
#[repr(C)]
pub struct PlannerTally {
    pub m: u32,
    pub size: u32,
    pub zero: u8,
}

extern "C" {
    pub fn planner_check(
        plan: u8,
        d: usize,
        rows: *const i16,
        rows_len: usize,
        n: u16,
        z: *const u16,
        z_len: usize,
        yes: *mut u8,
    ) -> u8;

    pub fn planner_residue_map(
        plan: u8,
        d: usize,
        rows: *const i16,
        rows_len: usize,
        n: u16,
        z: *const u16,
        z_len: usize,
        out: *mut u16,
        out_len: usize,
    ) -> u8;

    pub fn planner_spread(
        plan: u8,
        d: usize,
        rows: *const i16,
        rows_len: usize,
        n: u16,
        z: *const u16,
        z_len: usize,
        terms: *const i32,
        terms_len: usize,
        sums: *mut i64,
        sums_len: usize,
    ) -> u8;

    pub fn planner_gather(
        plan: u8,
        d: usize,
        rows: *const i16,
        rows_len: usize,
        n: u16,
        z: *const u16,
        z_len: usize,
        sums: *const i64,
        sums_len: usize,
        terms: *mut i32,
        terms_len: usize,
    ) -> u8;

    pub fn planner_point_list(
        plan: u8,
        d: usize,
        n: u16,
        z: *const u16,
        z_len: usize,
        out: *mut u16,
        out_len: usize,
    ) -> u8;

    pub fn planner_search_vector(
        plan: u8,
        d: usize,
        rows: *const i16,
        rows_len: usize,
        n: u16,
        z: *mut u16,
        z_len: usize,
        found: *mut u16,
    ) -> u8;

    pub fn planner_search_smallest(
        plan: u8,
        d: usize,
        rows: *const i16,
        rows_len: usize,
        ceiling: u16,
        z: *mut u16,
        z_len: usize,
        found: *mut u16,
    ) -> u8;

    pub fn planner_gentler(left: *const u16, left_len: usize, right: *const u16, right_len: usize) -> u8;

    pub fn planner_tally_list(
        plan: u8,
        d: usize,
        rows: *const i16,
        rows_len: usize,
        m: *mut u32,
        size: *mut u32,
        zero: *mut u8,
    ) -> u8;

    pub fn planner_add_row(
        plan: u8,
        d: usize,
        rows: *const i16,
        rows_len: usize,
        tally: PlannerTally,
        row: *const i16,
        row_len: usize,
        m: *mut u32,
        size: *mut u32,
        zero: *mut u8,
    ) -> u8;

    pub fn planner_least_modulus(plan: u8, tally: PlannerTally, found: *mut u16) -> u8;

    pub fn planner_corner_list(
        d: usize,
        corners: *const i16,
        corners_len: usize,
        out: *mut i16,
        out_len: usize,
        count: *mut usize,
    ) -> u8;

    pub fn planner_is_lower(d: usize, rows: *const i16, rows_len: usize, yes: *mut u8) -> u8;
}
