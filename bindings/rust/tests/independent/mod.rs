//! A planner written from the words of documents 01 and 02 alone, to hold the library against. It shares nothing with the crates and
//! knows no shortcut: every residue is a sum of products, every rule goes pair by pair, M is a set of rows, the list of some corners
//! is a set of rows too, and a search tries every vector at every modulus, each once, in the order of document 02, f.
//!
//! A call answers with what it would write, or with the number of the refusal.

use std::cmp::Ordering;
use std::collections::BTreeSet;

/// The number from 0 to n-1 that differs from h·z by a multiple of n.
fn residue(h: &[i64], n: i64, z: &[i64]) -> i64 {
    let mut sum = 0;
    for j in 0..h.len() {
        sum += h[j] * z[j];
    }
    sum.rem_euclid(n)
}

/// S(k): the different rows got by changing signs of components of k.
fn mirrors(k: &[i64]) -> Vec<Vec<i64>> {
    let mut all = vec![k.to_vec()];
    for j in 0..k.len() {
        let mut changed = all.clone();
        for s in &mut changed {
            s[j] = -s[j];
        }
        all.extend(changed);
    }
    all.sort();
    all.dedup();
    all
}

/// A row with its residue.
struct Placed {
    row: Vec<i64>,
    residue: i64,
}

fn placed(rows: Vec<Vec<i64>>, n: i64, z: &[i64]) -> Vec<Placed> {
    rows.into_iter().map(|row| Placed { residue: residue(&row, n, z), row }).collect()
}

/// Different members of `all` have different residues.
fn differ(all: &[Placed]) -> bool {
    for (i, s) in all.iter().enumerate() {
        for t in &all[..i] {
            if s.residue == t.residue && s.row != t.row {
                return false;
            }
        }
    }
    true
}

/// Whether the pair n, z meets the plan's rule.
fn admissible(plan: u8, list: &[Vec<i64>], n: i64, z: &[i64]) -> bool {
    let rows = placed(list.to_vec(), n, z);
    match plan {
        0 => rows.iter().all(|k| k.row.iter().all(|&x| x == 0) || k.residue != 0),
        1 => differ(&rows),
        2 => differ(&placed(list.iter().flat_map(|k| mirrors(k)).collect(), n, z)),
        _ => {
            for other in list {
                for s in placed(mirrors(other), n, z) {
                    for k in &rows {
                        let kept_apart = if plan == 3 { s.row != k.row } else { *other != k.row };
                        if kept_apart && s.residue == k.residue {
                            return false;
                        }
                    }
                }
            }
            true
        }
    }
}

/// The record of a list: m, the size of M, and whether the zero row is in.
pub type Record = (u32, u32, bool);

/// The record of the list, counted from its rows. For plans 0 and 1 the size kept is m.
fn recount(plan: u8, list: &[Vec<i64>]) -> Record {
    let m = list.len();
    let size = match plan {
        0 | 1 => m,
        _ => list.iter().flat_map(|k| mirrors(k)).collect::<BTreeSet<_>>().len(),
    };
    (m as u32, size as u32, list.iter().any(|k| k.iter().all(|&x| x == 0)))
}

/// The least modulus worth trying.
fn bound(plan: u8, (m, size, zero): Record) -> u32 {
    let others = m - u32::from(zero);
    match plan {
        0 if others > 0 => 2,
        0 => 1,
        2 if zero => size,
        2 => size + 1,
        3 if zero => 2 * m - 1,
        3 => 2 * m + 1,
        _ => m.max(1),
    }
}

/// How many rows without negative components are nowhere larger than `corner`, which has no negative components either.
fn box_size(corner: &[i64]) -> i64 {
    corner.iter().map(|x| x + 1).product()
}

/// These rows: the numbers below the size of the box, written with a digit for each axis.
fn box_rows(corner: &[i64]) -> impl Iterator<Item = Vec<i64>> + '_ {
    (0..box_size(corner)).map(|number| {
        let mut rest = number;
        corner
            .iter()
            .map(|x| {
                let digit = rest % (x + 1);
                rest /= x + 1;
                digit
            })
            .collect()
    })
}

/// Every row from zero up to some corner, in dictionary order, which is the set's own; `None` where there are more than 512.
fn rows_up_to(corners: &[Vec<i64>]) -> Option<BTreeSet<Vec<i64>>> {
    let mut rows = BTreeSet::new();
    for row in corners.iter().flat_map(|corner| box_rows(corner)) {
        rows.insert(row);
        if rows.len() > 512 {
            return None;
        }
    }
    Some(rows)
}

/// With a row, every row without negative components that is nowhere larger is in too. A list cannot hold a box of more rows than
/// it has itself.
fn lower(list: &[Vec<i64>]) -> bool {
    let rows: BTreeSet<_> = list.iter().cloned().collect();
    list.iter().flatten().all(|&x| x >= 0)
        && list.iter().all(|k| box_size(k) <= list.len() as i64 && box_rows(k).all(|h| rows.contains(&h)))
}

// The refusal table: the number where the condition applies.

fn refuse(number: u8, applies: bool) -> Result<(), u8> {
    if applies {
        Err(number)
    } else {
        Ok(())
    }
}

/// The rows of d numbers that stand one after the other.
fn rows_of(d: usize, numbers: &[i16]) -> Vec<Vec<i64>> {
    numbers.chunks(d).map(|k| k.iter().map(|&x| i64::from(x)).collect()).collect()
}

/// 1 to 5, and the list.
fn the_list(plan: u8, zero_allowed: bool, d: usize, rows: &[i16]) -> Result<Vec<Vec<i64>>, u8> {
    refuse(1, plan > 4 || (plan == 0 && !zero_allowed))?;
    refuse(2, !(1..=6).contains(&d))?;
    refuse(3, rows.chunks(d).any(|k| k.len() != d) || rows.len() / d > 512)?;
    let least = if plan >= 2 { 0 } else { -255 };
    refuse(4, rows.iter().any(|x| !(least..=255).contains(x)))?;
    let list = rows_of(d, rows);
    for (i, k) in list.iter().enumerate() {
        refuse(5, list[..i].contains(k))?;
    }
    Ok(list)
}

/// 6
fn the_modulus(n: u16) -> Result<i64, u8> {
    refuse(6, !(1..=8192).contains(&n))?;
    Ok(i64::from(n))
}

/// 6 and 7, and the pair.
fn the_pair(d: usize, n: u16, z: &[u16]) -> Result<(i64, Vec<i64>), u8> {
    let modulus = the_modulus(n)?;
    refuse(7, z.len() != d || z.iter().any(|&x| x >= n))?;
    Ok((modulus, z.iter().map(|&x| i64::from(x)).collect()))
}

// The calls.

pub fn check(plan: u8, d: usize, rows: &[i16], n: u16, z: &[u16]) -> Result<bool, u8> {
    let list = the_list(plan, true, d, rows)?;
    let (n, z) = the_pair(d, n, z)?;
    Ok(admissible(plan, &list, n, &z))
}

/// What map, spread and gather ask of their list, pair and places, and S(k) there: the list, the pair and the rows' mirrors.
struct Table {
    n: i64,
    z: Vec<i64>,
    list: Vec<Vec<i64>>,
    mirrors: Vec<Vec<Vec<i64>>>,
}

impl Table {
    fn of(plan: u8, d: usize, rows: &[i16], n: u16, z: &[u16], places: impl Fn(usize) -> bool) -> Result<Table, u8> {
        let list = the_list(plan, false, d, rows)?;
        let (n, z) = the_pair(d, n, z)?;
        refuse(8, !places(list.len()))?;
        refuse(10, !admissible(plan, &list, n, &z))?;
        let mirrors = list.iter().map(|k| if plan == 1 { vec![k.clone()] } else { mirrors(k) }).collect();
        Ok(Table { n, z, list, mirrors })
    }

    fn residue(&self, row: &[i64]) -> i64 {
        residue(row, self.n, &self.z)
    }

    /// The residue and c of each row.
    fn entries(&self) -> Vec<(i64, i64)> {
        let mut entries = Vec::new();
        for (k, mirrors) in self.list.iter().zip(&self.mirrors) {
            let at = self.residue(k);
            let mut c = 0;
            for s in mirrors {
                if self.residue(s) == at {
                    c += 1;
                }
            }
            entries.push((at, c));
        }
        entries
    }
}

pub fn residue_map(plan: u8, d: usize, rows: &[i16], n: u16, z: &[u16], places: usize) -> Result<Vec<u16>, u8> {
    let table = Table::of(plan, d, rows, n, z, |m| places == 2 * m)?;
    Ok(table.entries().iter().flat_map(|&(at, c)| [at as u16, c as u16]).collect())
}

pub fn spread(
    plan: u8,
    d: usize,
    rows: &[i16],
    n: u16,
    z: &[u16],
    terms: &[i32],
    places: usize,
) -> Result<Vec<i64>, u8> {
    let table = Table::of(plan, d, rows, n, z, |m| terms.len() == m && places == usize::from(n))?;
    let mut sums = vec![0; usize::from(n)];
    for (mirrors, &a) in table.mirrors.iter().zip(terms) {
        for s in mirrors {
            sums[table.residue(s) as usize] += i64::from(a);
        }
    }
    Ok(sums)
}

pub fn gather(
    plan: u8,
    d: usize,
    rows: &[i16],
    n: u16,
    z: &[u16],
    sums: &[i64],
    places: usize,
) -> Result<Vec<i32>, u8> {
    let table = Table::of(plan, d, rows, n, z, |m| places == m && sums.len() == usize::from(n))?;
    let mut terms = Vec::new();
    for (at, c) in table.entries() {
        let sum = sums[at as usize];
        refuse(11, sum % c != 0)?;
        terms.push(i32::try_from(sum / c).map_err(|_| 11)?);
    }
    Ok(terms)
}

/// Which of document 02's cases a residue meets (zero, below half, exactly half, above half: 0 to 3), and what it gives. `line` below
/// has document 01's minimum in its place.
pub fn tent_case(n: i64, r: i64) -> (usize, i64) {
    match (2 * r).cmp(&n) {
        _ if r == 0 => (0, 0),
        Ordering::Less => (1, 2 * r),
        Ordering::Equal => (2, n),
        Ordering::Greater => (3, 2 * n - 2 * r),
    }
}

/// Line i of the cutting list, listed or not.
pub fn line(plan: u8, n: i64, z: &[i64], i: i64) -> Vec<u16> {
    let residues = z.iter().map(|x| (i * x).rem_euclid(n));
    residues.map(|r| if plan >= 2 { (2 * r).min(2 * n - 2 * r) } else { r } as u16).collect()
}

/// Whether line i, of lines 0 to n - 1, is listed: under plans 2, 3 and 4 those up to half of n are.
pub fn listed(plan: u8, n: i64, i: i64) -> bool {
    plan < 2 || 2 * i <= n
}

pub fn point_list(plan: u8, d: usize, n: u16, z: &[u16], places: usize) -> Result<Vec<u16>, u8> {
    refuse(1, plan > 4)?;
    refuse(2, !(1..=6).contains(&d))?;
    let (n, z) = the_pair(d, n, z)?;
    let lines: Vec<_> = (0..n).filter(|&i| listed(plan, n, i)).map(|i| line(plan, n, &z, i)).collect();
    refuse(8, places != lines.len() * d)?;
    Ok(lines.concat())
}

/// The next vector in dictionary order with components up to `largest`; false behind the last.
fn advance(z: &mut [i64], largest: i64) -> bool {
    for x in z.iter_mut().rev() {
        if *x < largest {
            *x += 1;
            return true;
        }
        *x = 0;
    }
    false
}

/// The first admissible vector at n in dictionary order among those whose largest component is `largest`.
fn first_with(plan: u8, d: usize, list: &[Vec<i64>], n: i64, largest: i64) -> Option<Vec<i64>> {
    let mut z = vec![0; d];
    loop {
        if z.contains(&largest) && admissible(plan, list, n, &z) {
            return Some(z);
        }
        if !advance(&mut z, largest) {
            return None;
        }
    }
}

/// The admissible vector at n with the least largest component, then the first in dictionary order.
fn gentlest(plan: u8, d: usize, list: &[Vec<i64>], n: i64) -> Option<Vec<i64>> {
    (0..n).find_map(|largest| first_with(plan, d, list, n, largest))
}

fn search(plan: u8, d: usize, rows: &[i16], low: u16, high: u16, places: usize) -> Result<(u16, Vec<u16>), u8> {
    let list = the_list(plan, true, d, rows)?;
    the_modulus(high)?;
    refuse(8, places != d)?;
    for n in low..=high {
        if let Some(z) = gentlest(plan, d, &list, i64::from(n)) {
            return Ok((n, z.iter().map(|&x| x as u16).collect()));
        }
    }
    Err(9)
}

pub fn search_vector(plan: u8, d: usize, rows: &[i16], n: u16, places: usize) -> Result<(u16, Vec<u16>), u8> {
    search(plan, d, rows, n, n, places)
}

pub fn search_smallest(plan: u8, d: usize, rows: &[i16], ceiling: u16, places: usize) -> Result<(u16, Vec<u16>), u8> {
    search(plan, d, rows, 1, ceiling, places)
}

/// The winner of two vectors: the shorter, then the one with the smaller largest component, then the first in dictionary order;
/// `min_by_key` gives the left one on a full tie.
pub fn gentler<'a>(left: &'a [u16], right: &'a [u16]) -> &'a [u16] {
    [left, right].into_iter().min_by_key(|z| (z.len(), z.iter().max().copied(), *z)).unwrap()
}

pub fn tally_list(plan: u8, d: usize, rows: &[i16]) -> Result<Record, u8> {
    Ok(recount(plan, &the_list(plan, true, d, rows)?))
}

pub fn add_row(plan: u8, d: usize, rows: &[i16], tally: Record, row: &[i16]) -> Result<Record, u8> {
    refuse(1, plan > 4)?;
    refuse(2, !(1..=6).contains(&d))?;
    refuse(3, row.len() != d)?;
    let longer = the_list(plan, true, d, &[rows, row].concat())?;
    refuse(3, tally != recount(plan, &longer[..longer.len() - 1]))?;
    Ok(recount(plan, &longer))
}

pub fn least_modulus(plan: u8, tally: Record) -> Result<u16, u8> {
    refuse(1, plan > 4)?;
    let (m, size, zero) = tally;
    refuse(3, m > 512 || u64::from(size) > 64 * u64::from(m) || (zero && m == 0))?;
    Ok(bound(plan, tally) as u16)
}

pub fn corner_list(d: usize, corners: &[i16], places: usize) -> Result<Vec<i16>, u8> {
    refuse(2, !(1..=6).contains(&d))?;
    refuse(3, corners.chunks(d).any(|c| c.len() != d))?;
    refuse(4, corners.iter().any(|x| !(0..=255).contains(x)))?;
    let corners = rows_of(d, corners);
    refuse(13, !(1..=32).contains(&corners.len()))?;
    let rows = rows_up_to(&corners).ok_or(13)?;
    refuse(8, places != 512 * d)?;
    Ok(rows.iter().flatten().map(|&x| x as i16).collect())
}

pub fn is_lower(d: usize, rows: &[i16]) -> Result<bool, u8> {
    // 2 to 5, where a component may be negative as under plan 1
    Ok(lower(&the_list(1, true, d, rows)?))
}
