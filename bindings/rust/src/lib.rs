//! Rank-1 lattices that keep the terms of a list apart.
//!
//! A list is 0 to 512 rows of `d` whole numbers, given as one slice with the rows one after the other. A plan is a modulus n and a
//! generating vector z of d components from 0 to n - 1. A row's residue is that of its product with z at n, and a [`Rule`] says
//! which rows may not share one. A row's mirrors are the different rows got by changing signs of its components; for
//! [`Rule::Fourier`] the row is its only one.
//!
//! The searches give a plan, [`check`] tries one, and [`residue_map`], [`spread`], [`gather`] and [`point_list`] work with it.
//! Operators prefer small settings: of the admissible vectors at n the searches give the gentlest, and [`gentler`] hands back the
//! winner of any two vectors.
//!
//! While rows are still being typed, a [`Tally`] is the record of those that are in: [`add_row`] counts one more, and
//! [`least_modulus`] says from the record alone which moduli are hopeless.
//!
//! Most lists are lower: with a row, every row without negative components that is nowhere larger is in too. [`corner_list`] makes
//! such a list from its corners, and [`is_lower`] says whether a list is one.
//!
//! The functions are those of a library that is proved to meet document 01 of the planner, and the requests of document 02 that have
//! landed; this crate links it and adds nothing to the answers. No argument makes a call panic: wrong ones are answered with a
//! [`Refusal`], and then nothing lent is written.
//!
//! ```
//! use planner::{gather, residue_map, search_smallest, spread, Entry, Plan, Refusal, Rule};
//!
//! // three rows over one axis: 0, 1 and 2
//! let rows = [0, 1, 2];
//! let plan = search_smallest(Rule::CosineC, 1, &rows, 10)?;
//! assert_eq!(plan, Plan { n: 4, z: vec![1] });
//!
//! let map = residue_map(Rule::CosineC, 1, &rows, plan.n, &plan.z)?;
//! assert_eq!(map[2], Entry { residue: 2, copies: 2 });
//!
//! let sums = spread(Rule::CosineC, 1, &rows, plan.n, &plan.z, &[5, -3, 2])?;
//! assert_eq!(sums, [5, -3, 4, -3]);
//! assert_eq!(gather(Rule::CosineC, 1, &rows, plan.n, &plan.z, &sums)?, [5, -3, 2]);
//!
//! assert_eq!(search_smallest(Rule::ExactIntegration, 1, &[6], 3), Err(Refusal::NothingAdmissible));
//! # Ok::<(), Refusal>(())
//! ```

mod refusal;
pub mod sys;

pub use refusal::Refusal;

/// The largest number of axes.
pub const MOST_AXES: usize = 6;
/// The largest number of rows.
pub const MOST_ROWS: usize = 512;
/// The largest number of corners.
pub const MOST_CORNERS: usize = 32;
/// The largest modulus, and the largest ceiling.
pub const MOST_MODULUS: u16 = 8192;

/// What a plan has to keep apart.
#[derive(Clone, Copy, Debug, PartialEq, Eq, Hash)]
#[repr(u8)]
pub enum Rule {
    /// No row other than the zero row has residue 0. It has no map, no sums and no terms.
    ExactIntegration = 0,
    /// Different rows have different residues.
    Fourier = 1,
    /// Plan A: different mirrors of all rows have different residues.
    CosineA = 2,
    /// Plan B: a row's residue is that of no other mirror, of the row itself or of another.
    CosineB = 3,
    /// Plan C: a row's residue is that of no mirror of another row.
    CosineC = 4,
}

impl Rule {
    /// All of them, in the order of their numbers.
    pub const ALL: [Rule; 5] = [Rule::ExactIntegration, Rule::Fourier, Rule::CosineA, Rule::CosineB, Rule::CosineC];
}

impl TryFrom<u8> for Rule {
    type Error = Refusal;

    /// The rule of the plan number 0 to 4.
    fn try_from(number: u8) -> Result<Rule, Refusal> {
        Rule::ALL.get(usize::from(number)).copied().ok_or(Refusal::Plan)
    }
}

/// A plan that a search found.
#[derive(Clone, Debug, PartialEq, Eq, Hash)]
pub struct Plan {
    /// The modulus.
    pub n: u16,
    /// The generating vector.
    pub z: Vec<u16>,
}

/// What the map says of a row.
#[derive(Clone, Copy, Debug, PartialEq, Eq, Hash)]
pub struct Entry {
    /// The row's residue.
    pub residue: u16,
    /// How many of its mirrors have this residue, the row among them.
    pub copies: u16,
}

/// The record of a list under a rule. The default is that of a list of no rows.
#[derive(Clone, Copy, Debug, PartialEq, Eq, Hash, Default)]
pub struct Tally {
    /// The number of rows.
    pub m: u32,
    /// The number of different mirrors of all rows; for [`Rule::ExactIntegration`] and [`Rule::Fourier`] it is m.
    pub size: u32,
    /// Whether the zero row is in.
    pub zero: bool,
}

impl From<Tally> for sys::PlannerTally {
    fn from(tally: Tally) -> sys::PlannerTally {
        sys::PlannerTally { m: tally.m, size: tally.size, zero: u8::from(tally.zero) }
    }
}

impl From<sys::PlannerTally> for Tally {
    fn from(tally: sys::PlannerTally) -> Tally {
        Tally { m: tally.m, size: tally.size, zero: tally.zero != 0 }
    }
}

/// Whether the pair n, z is admissible: meets the rule for the list. Refusals: 1 to 7.
///
/// ```
/// use planner::{check, Rule};
/// assert_eq!(check(Rule::Fourier, 1, &[0, 1, 2], 3, &[1]), Ok(true));
/// assert_eq!(check(Rule::CosineA, 1, &[0, 1, 2], 3, &[1]), Ok(false));
/// ```
pub fn check(rule: Rule, d: usize, rows: &[i16], n: u16, z: &[u16]) -> Result<bool, Refusal> {
    let mut yes = 0;
    // SAFETY: the pointers and lengths are those of slices, and `yes` is a local of our own.
    let number =
        unsafe { sys::planner_check(rule as u8, d, rows.as_ptr(), rows.len(), n, z.as_ptr(), z.len(), &mut yes) };
    Refusal::told(number).map(|()| yes == 1)
}

/// The map: for each row its residue and copies. Refusals: 1 to 7 and 10.
pub fn residue_map(rule: Rule, d: usize, rows: &[i16], n: u16, z: &[u16]) -> Result<Vec<Entry>, Refusal> {
    let mut out = vec![0; 2 * row_count(d, rows)];
    residue_map_into(rule, d, rows, n, z, &mut out)?;
    Ok(out.chunks_exact(2).map(|pair| Entry { residue: pair[0], copies: pair[1] }).collect())
}

/// The map, written to two places for each row: its residue and then its copies. Refusals: 1 to 8 and 10.
pub fn residue_map_into(rule: Rule, d: usize, rows: &[i16], n: u16, z: &[u16], out: &mut [u16]) -> Result<(), Refusal> {
    // SAFETY: the pointers and lengths are those of slices, and `out` is lent to us alone.
    Refusal::told(unsafe {
        sys::planner_residue_map(
            rule as u8,
            d,
            rows.as_ptr(),
            rows.len(),
            n,
            z.as_ptr(),
            z.len(),
            out.as_mut_ptr(),
            out.len(),
        )
    })
}

/// Spreading: the sum at each residue 0 to n - 1, of a row's term once for each of its mirrors that has the residue. There is one
/// term for each row. Refusals: 1 to 8 and 10.
pub fn spread(rule: Rule, d: usize, rows: &[i16], n: u16, z: &[u16], terms: &[i32]) -> Result<Vec<i64>, Refusal> {
    let mut sums = vec![0; usize::from(n)];
    spread_into(rule, d, rows, n, z, terms, &mut sums)?;
    Ok(sums)
}

/// Spreading, to n lent places. Refusals: 1 to 8 and 10.
pub fn spread_into(
    rule: Rule,
    d: usize,
    rows: &[i16],
    n: u16,
    z: &[u16],
    terms: &[i32],
    sums: &mut [i64],
) -> Result<(), Refusal> {
    // SAFETY: the pointers and lengths are those of slices, and `sums` is lent to us alone.
    Refusal::told(unsafe {
        sys::planner_spread(
            rule as u8,
            d,
            rows.as_ptr(),
            rows.len(),
            n,
            z.as_ptr(),
            z.len(),
            terms.as_ptr(),
            terms.len(),
            sums.as_mut_ptr(),
            sums.len(),
        )
    })
}

/// Gathering: for each row the sum at its residue, divided by its copies. It gives spread terms back. There are n sums.
/// Refusals: 1 to 8, 10 and 11.
pub fn gather(rule: Rule, d: usize, rows: &[i16], n: u16, z: &[u16], sums: &[i64]) -> Result<Vec<i32>, Refusal> {
    let mut terms = vec![0; row_count(d, rows)];
    gather_into(rule, d, rows, n, z, sums, &mut terms)?;
    Ok(terms)
}

/// Gathering, to one lent place for each row. Refusals: 1 to 8, 10 and 11.
pub fn gather_into(
    rule: Rule,
    d: usize,
    rows: &[i16],
    n: u16,
    z: &[u16],
    sums: &[i64],
    terms: &mut [i32],
) -> Result<(), Refusal> {
    // SAFETY: the pointers and lengths are those of slices, and `terms` is lent to us alone.
    Refusal::told(unsafe {
        sys::planner_gather(
            rule as u8,
            d,
            rows.as_ptr(),
            rows.len(),
            n,
            z.as_ptr(),
            z.len(),
            sums.as_ptr(),
            sums.len(),
            terms.as_mut_ptr(),
            terms.len(),
        )
    })
}

/// How many lines the cutting list has, which is the number of lenses: n; for the cosine rules n / 2 + 1 (n / 2 rounded down), lines
/// 0 to n / 2. With these rules line n - i would equal line i, so every line i above n / 2 is line n - i of the list.
///
/// ```
/// use planner::{line_count, Rule};
/// assert_eq!((line_count(Rule::Fourier, 5), line_count(Rule::Fourier, 6)), (5, 6));
/// assert_eq!((line_count(Rule::CosineA, 5), line_count(Rule::CosineA, 6)), (3, 4));
/// ```
pub fn line_count(rule: Rule, n: u16) -> usize {
    match rule {
        Rule::ExactIntegration | Rule::Fourier => usize::from(n),
        Rule::CosineA | Rule::CosineB | Rule::CosineC => usize::from(n) / 2 + 1,
    }
}

/// The cutting list: [`line_count`] lines of d numbers, one after the other. Line i has for each axis the residue of i times the
/// component of z; for the cosine rules the tent numerator of that residue r, the smaller of 2r and 2n - 2r. Refusals: 1, 2, 6 and 7.
///
/// ```
/// use planner::{point_list, Rule};
/// assert_eq!(point_list(Rule::Fourier, 2, 5, &[1, 2])?, [0, 0, 1, 2, 2, 4, 3, 1, 4, 3]);
/// assert_eq!(point_list(Rule::CosineA, 2, 5, &[1, 2])?, [0, 0, 2, 4, 4, 2]);
/// # Ok::<(), planner::Refusal>(())
/// ```
pub fn point_list(rule: Rule, d: usize, n: u16, z: &[u16]) -> Result<Vec<u16>, Refusal> {
    let mut out = vec![0; line_count(rule, n) * d.min(MOST_AXES)];
    point_list_into(rule, d, n, z, &mut out)?;
    Ok(out)
}

/// The cutting list, to [`line_count`] * d lent places. Refusals: 1, 2, 6, 7 and 8.
pub fn point_list_into(rule: Rule, d: usize, n: u16, z: &[u16], out: &mut [u16]) -> Result<(), Refusal> {
    // SAFETY: the pointers and lengths are those of slices, and `out` is lent to us alone.
    Refusal::told(unsafe {
        sys::planner_point_list(rule as u8, d, n, z.as_ptr(), z.len(), out.as_mut_ptr(), out.len())
    })
}

/// The gentlest admissible vector at n. Of all with components from 0 to n - 1 it is the one with the least largest component; of
/// those that share it, the first in dictionary order, the first component most significant. Refusals: 1 to 6 and 9.
///
/// ```
/// use planner::{check, search_vector, Refusal, Rule};
/// assert_eq!(search_vector(Rule::ExactIntegration, 1, &[6], 5)?.z, [1]);
/// assert_eq!(search_vector(Rule::ExactIntegration, 1, &[6], 6), Err(Refusal::NothingAdmissible));
/// // the rows (1, 0) and (1, 1): the vector (1, 3) comes before (2, 1) in dictionary order, but has a 3
/// assert_eq!(search_vector(Rule::CosineA, 2, &[1, 0, 1, 1], 7)?.z, [2, 1]);
/// assert_eq!(check(Rule::CosineA, 2, &[1, 0, 1, 1], 7, &[1, 3]), Ok(true));
/// # Ok::<(), Refusal>(())
/// ```
pub fn search_vector(rule: Rule, d: usize, rows: &[i16], n: u16) -> Result<Plan, Refusal> {
    let mut z = vec![0; d.min(MOST_AXES)];
    let n = search_vector_into(rule, d, rows, n, &mut z)?;
    Ok(Plan { n, z })
}

/// The vector search, to d lent places; it answers with n. Refusals: 1 to 6, 8 and 9.
pub fn search_vector_into(rule: Rule, d: usize, rows: &[i16], n: u16, z: &mut [u16]) -> Result<u16, Refusal> {
    let mut found = 0;
    // SAFETY: the pointers and lengths are those of slices, `z` is lent to us alone, and `found` is a local of our own.
    let number = unsafe {
        sys::planner_search_vector(rule as u8, d, rows.as_ptr(), rows.len(), n, z.as_mut_ptr(), z.len(), &mut found)
    };
    Refusal::told(number).map(|()| found)
}

/// The smallest modulus from 1 to the ceiling that has an admissible vector, and the gentlest one there, which is the one that
/// [`search_vector`] gives. Refusals: 1 to 6 and 9. It may take long for long lists: the ceiling bounds the moduli that it tries.
///
/// ```
/// use planner::{residue_map, search_smallest, Plan, Rule};
/// assert_eq!(search_smallest(Rule::CosineA, 2, &[0, 0, 1, 0, 0, 1], 10), Ok(Plan { n: 5, z: vec![1, 2] }));
/// // a list of no rows has a plan too: one lens, all settings 0
/// assert_eq!(search_smallest(Rule::CosineA, 2, &[], 10), Ok(Plan { n: 1, z: vec![0, 0] }));
/// assert_eq!(residue_map(Rule::CosineA, 2, &[], 1, &[0, 0]), Ok(vec![]));
/// ```
pub fn search_smallest(rule: Rule, d: usize, rows: &[i16], ceiling: u16) -> Result<Plan, Refusal> {
    let mut z = vec![0; d.min(MOST_AXES)];
    let n = search_smallest_into(rule, d, rows, ceiling, &mut z)?;
    Ok(Plan { n, z })
}

/// The smallest plan, its vector to d lent places; it answers with the modulus. Refusals: 1 to 6, 8 and 9.
pub fn search_smallest_into(rule: Rule, d: usize, rows: &[i16], ceiling: u16, z: &mut [u16]) -> Result<u16, Refusal> {
    let mut found = 0;
    // SAFETY: the pointers and lengths are those of slices, `z` is lent to us alone, and `found` is a local of our own.
    let number = unsafe {
        sys::planner_search_smallest(
            rule as u8,
            d,
            rows.as_ptr(),
            rows.len(),
            ceiling,
            z.as_mut_ptr(),
            z.len(),
            &mut found,
        )
    };
    Refusal::told(number).map(|()| found)
}

/// The gentler of two vectors, by the order of the searches; the winner is the slice that was lent. The shorter one wins; at one
/// length the one with the smaller largest component; where these are equal the first in dictionary order; on a full tie the left
/// one. It takes any two vectors and refuses nothing.
///
/// ```
/// use planner::gentler;
/// use std::ptr;
///
/// assert_eq!(gentler(&[1, 3], &[2, 1]), [2, 1]);
/// assert_eq!(gentler(&[3, 1], &[1, 3]), [1, 3]);
/// // the shorter one, however large its numbers are
/// assert_eq!(gentler(&[0, 0, 0], &[65535, 65535]), [65535, 65535]);
///
/// // of two equal ones the left one: the very slice
/// let (one, other) = ([1, 2], [1, 2]);
/// assert!(ptr::eq(gentler(&one, &other), &one));
/// assert!(ptr::eq(gentler(&other, &one), &other));
/// ```
pub fn gentler<'a>(left: &'a [u16], right: &'a [u16]) -> &'a [u16] {
    // SAFETY: the pointers and lengths are those of slices.
    let number = unsafe { sys::planner_gentler(left.as_ptr(), left.len(), right.as_ptr(), right.len()) };
    if number == 0 {
        left
    } else {
        right
    }
}

/// The record of a whole list, counted at once. Refusals: 1 to 5.
///
/// ```
/// use planner::{tally_list, Rule, Tally};
/// // (0, 0) is its only mirror, (1, 0) has two and (1, 1) has four
/// let rows = [0, 0, 1, 0, 1, 1];
/// assert_eq!(tally_list(Rule::CosineA, 2, &rows), Ok(Tally { m: 3, size: 7, zero: true }));
/// assert_eq!(tally_list(Rule::Fourier, 2, &rows), Ok(Tally { m: 3, size: 3, zero: true }));
/// assert_eq!(tally_list(Rule::CosineA, 2, &[]), Ok(Tally::default()));
/// ```
pub fn tally_list(rule: Rule, d: usize, rows: &[i16]) -> Result<Tally, Refusal> {
    let mut told = sys::PlannerTally { m: 0, size: 0, zero: 0 };
    // SAFETY: the pointer and the length are those of a slice, and `told` is a local of our own.
    let number = unsafe {
        sys::planner_tally_list(rule as u8, d, rows.as_ptr(), rows.len(), &mut told.m, &mut told.size, &mut told.zero)
    };
    Refusal::told(number).map(|()| told.into())
}

/// One row more: from a list, its record and a row, the record of the longer list, which is the list and then the row. The caller
/// appends the row himself. Refusals: 1 to 5 as for the longer list, 3 also where the row has not d components, and after 5 again 3
/// where the record is not the one that [`tally_list`] gives for the list.
///
/// Five rows typed one after the other, and what is worth trying after each:
///
/// ```
/// use planner::{add_row, least_modulus, search_smallest, tally_list, Refusal, Rule, Tally};
///
/// let rule = Rule::CosineA;
/// let typed: [([i16; 2], u32, u16); 5] = [
///     ([1, 1], 4, 5), // four mirrors, and none of them may have residue 0
///     ([2, 0], 6, 7),
///     ([0, 0], 7, 7), // the zero row has residue 0
///     ([0, 1], 9, 9),
///     ([2, 1], 13, 13),
/// ];
/// let (mut rows, mut tally) = (vec![], Tally::default());
/// for (row, size, least) in typed {
///     tally = add_row(rule, 2, &rows, tally, &row)?;
///     rows.extend(row);
///     assert_eq!(tally.size, size);
///     assert_eq!(least_modulus(rule, tally)?, least);
/// }
/// assert_eq!(tally, Tally { m: 5, size: 13, zero: true });
/// assert_eq!(tally, tally_list(rule, 2, &rows)?);
///
/// // the smallest plan is not below 13: it is 15
/// let plan = search_smallest(rule, 2, &rows, 100)?;
/// assert_eq!(plan.n, 15);
/// assert!(plan.n >= least_modulus(rule, tally)?);
///
/// // a row that is in already, and a record that is not the list's
/// assert_eq!(add_row(rule, 2, &rows, tally, &[0, 1]), Err(Refusal::EqualRows));
/// assert_eq!(add_row(rule, 2, &rows, Tally::default(), &[3, 3]), Err(Refusal::Length));
/// # Ok::<(), Refusal>(())
/// ```
pub fn add_row(rule: Rule, d: usize, rows: &[i16], tally: Tally, row: &[i16]) -> Result<Tally, Refusal> {
    let mut told = sys::PlannerTally { m: 0, size: 0, zero: 0 };
    // SAFETY: the pointers and lengths are those of slices, and `told` is a local of our own.
    let number = unsafe {
        sys::planner_add_row(
            rule as u8,
            d,
            rows.as_ptr(),
            rows.len(),
            tally.into(),
            row.as_ptr(),
            row.len(),
            &mut told.m,
            &mut told.size,
            &mut told.zero,
        )
    };
    Refusal::told(number).map(|()| told.into())
}

/// The least modulus worth trying, from the record alone. Where it is the record of a list, no smaller modulus has an admissible
/// vector for this list; an answer above [`MOST_MODULUS`] (up to 32,769) says that no modulus has one. Refusals: 1, and 3 where
/// there are more than 512 rows, more than 64 mirrors for each row, or a zero row among no rows. A record that no list has may pass
/// these: its answer says nothing, and may be 0.
///
/// ```
/// use planner::{least_modulus, Refusal, Rule, Tally};
/// // the zero row and two others, with seven mirrors in all
/// let tally = Tally { m: 3, size: 7, zero: true };
/// assert_eq!(least_modulus(Rule::CosineA, tally), Ok(7));
/// assert_eq!(least_modulus(Rule::CosineB, tally), Ok(5));
/// assert_eq!(least_modulus(Rule::CosineC, tally), Ok(3));
/// // 512 rows with 64 mirrors each: nothing can be admissible
/// assert_eq!(least_modulus(Rule::CosineA, Tally { m: 512, size: 32768, zero: false }), Ok(32769));
/// assert_eq!(least_modulus(Rule::CosineA, Tally { m: 513, size: 513, zero: false }), Err(Refusal::Length));
/// ```
pub fn least_modulus(rule: Rule, tally: Tally) -> Result<u16, Refusal> {
    let mut found = 0;
    // SAFETY: `found` is a local of our own.
    let number = unsafe { sys::planner_least_modulus(rule as u8, tally.into(), &mut found) };
    Refusal::told(number).map(|()| found)
}

/// The list of some corners: every row from zero up to some corner (a row without negative components that is nowhere larger than
/// that corner), each once, in dictionary order, the first component most significant. The corners are 1 to [`MOST_CORNERS`] rows of
/// d numbers from 0 to 255, one after the other; equal ones are allowed. Such a list is lower ([`is_lower`]) and valid under every
/// rule. Refusals, in this order: 2, 3 where the length of the corners is no multiple of d, 4 also for a negative component, 13. It
/// is fast for any corners: at most 512 rows are made.
///
/// ```
/// use planner::{corner_list, is_lower, search_smallest, Plan, Refusal, Rule};
///
/// // the corners (2, 0) and (0, 1): the first axis alone up to 2, the second alone up to 1
/// let rows = corner_list(2, &[2, 0, 0, 1])?;
/// assert_eq!(rows, [0, 0, 0, 1, 1, 0, 2, 0]);
/// assert_eq!(is_lower(2, &rows), Ok(true));
/// assert_eq!(search_smallest(Rule::CosineA, 2, &rows, 100), Ok(Plan { n: 7, z: vec![2, 1] }));
///
/// // total degree at most 2 on three axes: the corners are the six rows of degree 2
/// let corners = [2, 0, 0, 0, 2, 0, 0, 0, 2, 1, 1, 0, 1, 0, 1, 0, 1, 1];
/// let rows = corner_list(3, &corners)?;
/// assert_eq!(rows.len() / 3, 10);
/// assert!(rows.chunks(3).all(|row| row.iter().sum::<i16>() <= 2));
///
/// // no corners, and a list of 256 * 256 rows
/// assert_eq!(corner_list(2, &[]), Err(Refusal::Corners));
/// assert_eq!(corner_list(2, &[255, 255]), Err(Refusal::Corners));
/// assert_eq!(corner_list(2, &[-1, 3]), Err(Refusal::Component));
/// # Ok::<(), Refusal>(())
/// ```
pub fn corner_list(d: usize, corners: &[i16]) -> Result<Vec<i16>, Refusal> {
    let mut out = vec![0; MOST_ROWS * d.min(MOST_AXES)];
    let count = corner_list_into(d, corners, &mut out)?;
    out.truncate(count * d);
    Ok(out)
}

/// The list of some corners, to the front of 512 * d lent places; the rest of them is kept. It answers with the number of rows.
/// Refusals, in this order: 2, 3, 4, 13 and 8.
///
/// ```
/// use planner::{corner_list_into, Refusal, MOST_ROWS};
/// let mut out = [-1; 2 * MOST_ROWS];
/// assert_eq!(corner_list_into(2, &[2, 0, 0, 1], &mut out), Ok(4));
/// assert_eq!(out[..9], [0, 0, 0, 1, 1, 0, 2, 0, -1]);
/// // four rows would fit in eight places, but 1024 are asked for
/// assert_eq!(corner_list_into(2, &[2, 0, 0, 1], &mut out[..8]), Err(Refusal::Places));
/// ```
pub fn corner_list_into(d: usize, corners: &[i16], out: &mut [i16]) -> Result<usize, Refusal> {
    let mut count = 0;
    // SAFETY: the pointers and lengths are those of slices, `out` is lent to us alone, and `count` is a local of our own.
    let number = unsafe {
        sys::planner_corner_list(d, corners.as_ptr(), corners.len(), out.as_mut_ptr(), out.len(), &mut count)
    };
    Refusal::told(number).map(|()| count)
}

/// Whether a list is lower: with a row, every row without negative components that is nowhere larger is in too. One with a negative
/// component never is; the list of no rows is. The order of the rows does not matter. Refusals: 2 to 5, 4 as for
/// [`Rule::Fourier`]: components may be negative.
///
/// ```
/// use planner::{is_lower, Refusal};
/// assert_eq!(is_lower(2, &[0, 0, 1, 0, 2, 0, 0, 1]), Ok(true));
/// // (1, 0) is missing below (2, 0)
/// assert_eq!(is_lower(2, &[0, 0, 2, 0, 0, 1]), Ok(false));
/// assert_eq!(is_lower(2, &[0, 0, -1, 0]), Ok(false));
/// assert_eq!(is_lower(2, &[]), Ok(true));
/// assert_eq!(is_lower(2, &[0, 0, 0, 0]), Err(Refusal::EqualRows));
/// ```
pub fn is_lower(d: usize, rows: &[i16]) -> Result<bool, Refusal> {
    let mut yes = 0;
    // SAFETY: the pointer and the length are those of a slice, and `yes` is a local of our own.
    let number = unsafe { sys::planner_is_lower(d, rows.as_ptr(), rows.len(), &mut yes) };
    Refusal::told(number).map(|()| yes == 1)
}

/// How many rows an output has room for: those of the list, where it is one.
fn row_count(d: usize, rows: &[i16]) -> usize {
    rows.len().checked_div(d).unwrap_or(0).min(MOST_ROWS)
}
