//! Every call of the library compared with an independent planner (`independent/mod.rs`), on many inputs: long and short, valid and
//! damaged, all plans. Each call is made on the library's own functions, on lent places that are filled with a pattern and stand
//! between guards, and again through the safe interface.

mod independent;
mod random;

use std::collections::{BTreeMap, BTreeSet};
use std::fmt::Debug;
use std::ptr::{self, null, null_mut};
use std::slice::from_ref;

use independent::Record;
use planner::{sys, Entry, Plan, Refusal, Rule, Tally, MOST_CORNERS, MOST_MODULUS, MOST_ROWS};
use random::Random;

/// The arguments that most calls share.
#[derive(Clone, Debug)]
struct Case {
    plan: u8,
    d: usize,
    rows: Vec<i16>,
    n: u16,
    z: Vec<u16>,
}

impl Case {
    fn new(plan: u8, d: usize, rows: &[i16], n: u16, z: &[u16]) -> Case {
        Case { plan, d, rows: rows.to_vec(), n, z: z.to_vec() }
    }

    /// m, where the list is one.
    fn row_count(&self) -> usize {
        self.rows.len() / self.d.clamp(1, 6)
    }

    fn axes(&self) -> usize {
        self.d.min(7)
    }
}

/// Places to lend, filled with a pattern, between guards of the same pattern.
struct Lent<T> {
    all: Vec<T>,
    pattern: T,
}

const GUARD: usize = 8;

impl<T: Copy + PartialEq + Debug> Lent<T> {
    fn new(places: usize, pattern: T) -> Lent<T> {
        Lent { all: vec![pattern; places + 2 * GUARD], pattern }
    }

    fn lend(&mut self) -> &mut [T] {
        let end = self.all.len() - GUARD;
        &mut self.all[GUARD..end]
    }

    /// The places hold `written`, or the pattern where the call was refused, and the guards are untouched.
    fn holds(&self, written: Option<&[T]>, told: &dyn Debug) {
        let end = self.all.len() - GUARD;
        let untouched = |part: &[T]| part.iter().all(|x| *x == self.pattern);
        assert!(untouched(&self.all[..GUARD]) && untouched(&self.all[end..]), "a guard was written: {told:?}");
        match written {
            Some(written) => assert_eq!(&self.all[GUARD..end], written, "{told:?}"),
            None => assert!(untouched(&self.all[GUARD..end]), "a refused call wrote: {told:?}"),
        }
    }

    /// The front of the places holds `written` and those behind it the pattern, as all do where the call was refused.
    fn holds_front(&self, written: Option<&[T]>, told: &dyn Debug) {
        let places = self.all.len() - 2 * GUARD;
        let whole = written.map(|front| {
            let mut whole = front.to_vec();
            whole.resize(places, self.pattern);
            whole
        });
        self.holds(whole.as_deref(), told);
    }

    /// What `holds` says, of a single place.
    fn holds_one(&self, written: Option<T>, told: &dyn Debug) {
        self.holds(written.as_ref().map(from_ref), told);
    }
}

/// How often each number was returned, so that a test can say that it reached what it is for.
#[derive(Default)]
struct Seen(BTreeMap<u8, usize>);

impl Seen {
    /// Counts the number that a call with this answer returns.
    fn add<T>(&mut self, answer: &Result<T, u8>) {
        *self.0.entry(number(answer)).or_default() += 1;
    }

    fn all_of(&self, numbers: &[u8], least: usize) {
        for number in numbers {
            let count = self.0.get(number).copied().unwrap_or(0);
            assert!(count >= least, "{number} was returned {count} times only: {:?}", self.0);
        }
        assert!(self.0.keys().all(|number| numbers.contains(number)), "a number that should not be: {:?}", self.0);
    }
}

/// The number that a call with this answer returns.
fn number<T>(answer: &Result<T, u8>) -> u8 {
    answer.as_ref().err().copied().unwrap_or(0)
}

/// The answer of a call of the safe interface; where the plan is none, of the conversion to a rule.
fn safely<T>(plan: u8, call: impl FnOnce(Rule) -> Result<T, Refusal>) -> Result<T, u8> {
    Rule::try_from(plan).and_then(call).map_err(Refusal::number)
}

/// A call that writes to lent places, made on the library's own function and again through the safe interface, each time on places
/// with a pattern of its own: it returns the number expected, and the places hold what is expected.
fn compare_places<T: Copy + PartialEq + Debug>(
    plan: u8,
    places: usize,
    patterns: [T; 2],
    expected: &Result<Vec<T>, u8>,
    told: &dyn Debug,
    raw: impl FnOnce(&mut [T]) -> u8,
    safe: impl FnOnce(Rule, &mut [T]) -> Result<(), Refusal>,
) {
    let mut lent = Lent::new(places, patterns[0]);
    assert_eq!(raw(lent.lend()), number(expected), "{told:?}");
    lent.holds(expected.as_deref().ok(), told);

    let mut lent = Lent::new(places, patterns[1]);
    let answer = safely(plan, |rule| safe(rule, lent.lend()));
    assert_eq!(answer.as_ref(), expected.as_ref().map(|_| &()), "{told:?}");
    lent.holds(expected.as_deref().ok(), told);
}

/// A function of the library on the arguments of a case, and then its own.
macro_rules! raw {
    ($function:ident, $c:ident, $($own:expr),+) => {
        unsafe {
            let (rows, z) = (&$c.rows, &$c.z);
            sys::$function($c.plan, $c.d, rows.as_ptr(), rows.len(), $c.n, z.as_ptr(), z.len(), $($own),+)
        }
    };
}

fn compare_check(c: &Case) -> Result<bool, u8> {
    let expected = independent::check(c.plan, c.d, &c.rows, c.n, &c.z);
    let mut yes = Lent::new(1, 0xa5);
    assert_eq!(raw!(planner_check, c, yes.lend().as_mut_ptr()), number(&expected), "{c:?}");
    yes.holds_one(expected.ok().map(u8::from), c);
    assert_eq!(safely(c.plan, |rule| planner::check(rule, c.d, &c.rows, c.n, &c.z)), expected, "{c:?}");
    expected
}

fn compare_map(c: &Case, places: usize) -> Result<Vec<u16>, u8> {
    let told = (c, places);
    let expected = independent::residue_map(c.plan, c.d, &c.rows, c.n, &c.z, places);
    compare_places(
        c.plan,
        places,
        [0xa5a5, 0x5a5a],
        &expected,
        &told,
        |out| raw!(planner_residue_map, c, out.as_mut_ptr(), out.len()),
        |rule, out| planner::residue_map_into(rule, c.d, &c.rows, c.n, &c.z, out),
    );
    let entries = independent::residue_map(c.plan, c.d, &c.rows, c.n, &c.z, 2 * c.row_count())
        .map(|map| map.chunks(2).map(|e| Entry { residue: e[0], copies: e[1] }).collect());
    assert_eq!(safely(c.plan, |rule| planner::residue_map(rule, c.d, &c.rows, c.n, &c.z)), entries, "{c:?}");
    expected
}

fn compare_spread(c: &Case, terms: &[i32], places: usize) -> Result<Vec<i64>, u8> {
    let told = (c, terms.len(), places);
    let expected = independent::spread(c.plan, c.d, &c.rows, c.n, &c.z, terms, places);
    compare_places(
        c.plan,
        places,
        [0x5aa5_a55a_1234_8765, -1],
        &expected,
        &told,
        |sums| raw!(planner_spread, c, terms.as_ptr(), terms.len(), sums.as_mut_ptr(), sums.len()),
        |rule, sums| planner::spread_into(rule, c.d, &c.rows, c.n, &c.z, terms, sums),
    );
    if places == usize::from(c.n) {
        let answer = safely(c.plan, |rule| planner::spread(rule, c.d, &c.rows, c.n, &c.z, terms));
        assert_eq!(answer, expected, "{told:?}");
    }
    expected
}

fn compare_gather(c: &Case, sums: &[i64], places: usize) -> Result<Vec<i32>, u8> {
    let told = (c, sums.len(), places);
    let expected = independent::gather(c.plan, c.d, &c.rows, c.n, &c.z, sums, places);
    compare_places(
        c.plan,
        places,
        [0x5aa5_8765, -1],
        &expected,
        &told,
        |terms| raw!(planner_gather, c, sums.as_ptr(), sums.len(), terms.as_mut_ptr(), terms.len()),
        |rule, terms| planner::gather_into(rule, c.d, &c.rows, c.n, &c.z, sums, terms),
    );
    if places == c.row_count() {
        let answer = safely(c.plan, |rule| planner::gather(rule, c.d, &c.rows, c.n, &c.z, sums));
        assert_eq!(answer, expected, "{told:?}");
    }
    expected
}

/// As many places as the cutting list asks for.
fn point_places(c: &Case) -> usize {
    let n = i64::from(c.n);
    (0..n).filter(|&i| independent::listed(c.plan, n, i)).count() * c.axes()
}

fn compare_points(c: &Case, places: usize) -> Result<Vec<u16>, u8> {
    let told = (c.plan, c.d, c.n, &c.z, places);
    let expected = independent::point_list(c.plan, c.d, c.n, &c.z, places);
    compare_places(
        c.plan,
        places,
        [0xa5a5, 0x5a5a],
        &expected,
        &told,
        |out| unsafe {
            sys::planner_point_list(c.plan, c.d, c.n, c.z.as_ptr(), c.z.len(), out.as_mut_ptr(), out.len())
        },
        |rule, out| planner::point_list_into(rule, c.d, c.n, &c.z, out),
    );
    if places == point_places(c) {
        let answer = safely(c.plan, |rule| planner::point_list(rule, c.d, c.n, &c.z));
        assert_eq!(answer, expected, "{told:?}");
    }
    expected
}

/// The two searches have the same form: `n` is the modulus, or the ceiling.
#[derive(Clone, Copy, Debug)]
enum Search {
    Vector,
    Smallest,
}

fn compare_search(search: Search, c: &Case, places: usize) -> Result<(u16, Vec<u16>), u8> {
    let told = (search, c, places);
    let independent = match search {
        Search::Vector => independent::search_vector,
        Search::Smallest => independent::search_smallest,
    };
    let raw = match search {
        Search::Vector => sys::planner_search_vector,
        Search::Smallest => sys::planner_search_smallest,
    };
    let into = match search {
        Search::Vector => planner::search_vector_into,
        Search::Smallest => planner::search_smallest_into,
    };
    let whole = match search {
        Search::Vector => planner::search_vector,
        Search::Smallest => planner::search_smallest,
    };
    let expected = independent(c.plan, c.d, &c.rows, c.n, places);
    let vector = expected.clone().map(|(_, z)| z);
    let modulus = expected.as_ref().ok().map(|(n, _)| *n);
    let mut found = Lent::new(1, 0x5a5a);
    compare_places(
        c.plan,
        places,
        [0xa5a5, 0x5a5a],
        &vector,
        &told,
        |z| unsafe {
            let (rows, found) = (&c.rows, found.lend().as_mut_ptr());
            raw(c.plan, c.d, rows.as_ptr(), rows.len(), c.n, z.as_mut_ptr(), z.len(), found)
        },
        |rule, z| into(rule, c.d, &c.rows, c.n, z).map(|n| assert_eq!(Some(n), modulus, "{told:?}")),
    );
    found.holds_one(modulus, &told);
    if places == c.axes() {
        let plan = expected.clone().map(|(n, z)| Plan { n, z });
        assert_eq!(safely(c.plan, |rule| whole(rule, c.d, &c.rows, c.n)), plan, "{told:?}");
    }
    expected
}

/// The winner of two vectors, by its number and as the very slice that was lent.
fn compare_gentler<'a>(left: &'a [u16], right: &'a [u16]) -> &'a [u16] {
    let winner = independent::gentler(left, right);
    let answer = unsafe { sys::planner_gentler(left.as_ptr(), left.len(), right.as_ptr(), right.len()) };
    assert_eq!(answer, u8::from(!ptr::eq(winner, left)), "{left:?} {right:?}");
    assert!(ptr::eq(planner::gentler(left, right), winner), "{left:?} {right:?}");
    winner
}

/// What adding a row takes: a list, its record and the row.
#[derive(Clone, Debug)]
struct Addition {
    plan: u8,
    d: usize,
    rows: Vec<i16>,
    tally: Record,
    row: Vec<i16>,
}

/// The record for the library's own functions, once for each of the numbers that may stand for its flag: 0 is no, any other is yes.
fn lent_records((m, size, zero): Record) -> impl Iterator<Item = sys::PlannerTally> {
    let flags: &[u8] = if zero { &[1, 2, 128, 255] } else { &[0] };
    flags.iter().map(move |&zero| sys::PlannerTally { m, size, zero })
}

/// The record for the safe interface.
fn record((m, size, zero): Record) -> Tally {
    Tally { m, size, zero }
}

/// A function of the library that writes a record: it returns the number expected, and the three places hold what is expected.
fn compare_record(expected: Result<Record, u8>, told: &dyn Debug, raw: impl Fn(*mut u32, *mut u32, *mut u8) -> u8) {
    let (mut m, mut size, mut zero) = (Lent::new(1, 0xa5a5_a5a5), Lent::new(1, 0x5a5a_5a5a), Lent::new(1, 0xa5));
    let answer = raw(m.lend().as_mut_ptr(), size.lend().as_mut_ptr(), zero.lend().as_mut_ptr());
    assert_eq!(answer, number(&expected), "{told:?}");
    m.holds_one(expected.ok().map(|(m, _, _)| m), told);
    size.holds_one(expected.ok().map(|(_, size, _)| size), told);
    zero.holds_one(expected.ok().map(|(_, _, zero)| u8::from(zero)), told);
}

fn compare_tally(plan: u8, d: usize, rows: &[i16]) -> Result<Record, u8> {
    let told = (plan, d, rows);
    let expected = independent::tally_list(plan, d, rows);
    compare_record(expected, &told, |m, size, zero| unsafe {
        sys::planner_tally_list(plan, d, rows.as_ptr(), rows.len(), m, size, zero)
    });
    assert_eq!(safely(plan, |rule| planner::tally_list(rule, d, rows)), expected.map(record), "{told:?}");
    expected
}

fn compare_add(a: &Addition) -> Result<Record, u8> {
    let (rows, row) = (&a.rows, &a.row);
    let expected = independent::add_row(a.plan, a.d, rows, a.tally, row);
    for tally in lent_records(a.tally) {
        compare_record(expected, &(a, tally), |m, size, zero| unsafe {
            let (rows_len, row_len) = (rows.len(), row.len());
            sys::planner_add_row(a.plan, a.d, rows.as_ptr(), rows_len, tally, row.as_ptr(), row_len, m, size, zero)
        });
    }
    let answer = safely(a.plan, |rule| planner::add_row(rule, a.d, rows, record(a.tally), row));
    assert_eq!(answer, expected.map(record), "{a:?}");
    expected
}

fn compare_bound(plan: u8, tally: Record) -> Result<u16, u8> {
    let expected = independent::least_modulus(plan, tally);
    for lent in lent_records(tally) {
        let mut found = Lent::new(1, 0x5a5a);
        let answer = unsafe { sys::planner_least_modulus(plan, lent, found.lend().as_mut_ptr()) };
        assert_eq!(answer, number(&expected), "{plan} {lent:?}");
        found.holds_one(expected.ok(), &(plan, lent));
    }
    assert_eq!(safely(plan, |rule| planner::least_modulus(rule, record(tally))), expected, "{plan} {tally:?}");
    expected
}

/// What the list of some corners takes.
#[derive(Clone, Debug)]
struct Corners {
    d: usize,
    corners: Vec<i16>,
    places: usize,
}

impl Corners {
    /// With places of the right length.
    fn new(d: usize, corners: &[i16]) -> Corners {
        Corners { d, corners: corners.to_vec(), places: MOST_ROWS * d }
    }
}

fn compare_corners(c: &Corners) -> Result<Vec<i16>, u8> {
    let corners = &c.corners;
    let expected = independent::corner_list(c.d, corners, c.places);
    let rows = expected.as_ref().map(|list| list.len() / c.d).map_err(|refused| *refused);

    let (mut out, mut count) = (Lent::new(c.places, 0x5a5a), Lent::new(1, usize::MAX / 3));
    let answer = unsafe {
        let (out, count) = (out.lend(), count.lend().as_mut_ptr());
        sys::planner_corner_list(c.d, corners.as_ptr(), corners.len(), out.as_mut_ptr(), out.len(), count)
    };
    assert_eq!(answer, number(&expected), "{c:?}");
    out.holds_front(expected.as_deref().ok(), c);
    count.holds_one(rows.ok(), c);

    let mut out = Lent::new(c.places, -1);
    let answer = planner::corner_list_into(c.d, corners, out.lend());
    assert_eq!(answer.map_err(Refusal::number), rows, "{c:?}");
    out.holds_front(expected.as_deref().ok(), c);
    if c.places == MOST_ROWS * c.d.min(7) {
        assert_eq!(planner::corner_list(c.d, corners).map_err(Refusal::number), expected, "{c:?}");
    }
    expected
}

fn compare_lower(d: usize, rows: &[i16]) -> Result<bool, u8> {
    let told = (d, rows);
    let expected = independent::is_lower(d, rows);
    let mut yes = Lent::new(1, 0xa5);
    let answer = unsafe { sys::planner_is_lower(d, rows.as_ptr(), rows.len(), yes.lend().as_mut_ptr()) };
    assert_eq!(answer, number(&expected), "{told:?}");
    yes.holds_one(expected.ok().map(u8::from), &told);
    assert_eq!(planner::is_lower(d, rows).map_err(Refusal::number), expected, "{told:?}");
    expected
}

/// Check, map, spread, gather and point list on one case with places of the right length; gathering after spreading gives the terms
/// back. The numbers returned are counted for each call.
fn compare_all(c: &Case, random: &mut Random, seen: &mut [Seen; 5]) {
    seen[0].add(&compare_check(c));
    seen[1].add(&compare_map(c, 2 * c.row_count()));
    let terms = random.terms(c.row_count());
    let spread = compare_spread(c, &terms, usize::from(c.n));
    seen[2].add(&spread);
    // gathering is refused as spreading was
    let (mut sums, back) = match spread {
        Ok(sums) => (sums, Ok(terms.clone())),
        Err(refused) => (vec![0; usize::from(c.n)], Err(refused)),
    };
    let gathered = compare_gather(c, &sums, terms.len());
    assert_eq!(gathered, back, "{c:?}");
    seen[3].add(&gathered);
    if gathered.is_ok() {
        // sums that no spreading gave
        let at = random.below(sums.len());
        sums[at] = random.sum();
        seen[3].add(&compare_gather(c, &sums, terms.len()));
    }
    seen[4].add(&compare_points(c, point_places(c)));
}

/// A component from -bound to bound, from 0 for plans 2 to 4.
fn component(plan: u8, bound: usize, random: &mut Random) -> i16 {
    let x = random.below(bound + 1) as i16;
    if plan < 2 && random.below(2) == 0 {
        -x
    } else {
        x
    }
}

/// The different ones of `count` rows drawn from a box.
fn different_rows(plan: u8, count: usize, bounds: &[i64], random: &mut Random) -> Vec<Vec<i16>> {
    let mut rows = Vec::new();
    for _ in 0..count {
        let row: Vec<i16> = bounds.iter().map(|&b| component(plan, b as usize, random)).collect();
        if !rows.contains(&row) {
            rows.push(row);
        }
    }
    rows
}

/// Different rows of a box, in random order, and a pair that keeps all of them and their mirrors apart: the components of z are the
/// places of a number system with a digit for each axis.
fn admissible_case(plan: u8, most_rows: usize, random: &mut Random) -> Case {
    let d = 1 + random.below(6);
    let mut bounds = vec![1; d];
    let width = |bounds: &[i64]| bounds.iter().map(|b| 2 * b + 1).product::<i64>();
    for _ in 0..random.below(400) {
        let j = random.below(d);
        bounds[j] += 1;
        if width(&bounds) > 8192 || bounds[j] > 255 {
            bounds[j] -= 1;
        }
    }
    let whole = width(&bounds);
    let n = whole + random.below((8193 - whole) as usize) as i64;
    let mut z = Vec::new();
    let mut place = 1;
    for b in &bounds {
        z.push(place);
        place *= 2 * b + 1;
    }
    // a factor that has no divisor in common with n keeps all apart
    let mut factor = 1 + random.below(n as usize) as i64;
    while greatest_divisor(factor, n) != 1 {
        factor -= 1;
    }
    let z: Vec<u16> = z.iter().map(|x| (x * factor % n) as u16).collect();

    let count = 1 + random.below(most_rows);
    let mut rows = different_rows(plan, 2 * count, &bounds, random);
    rows.truncate(count);
    Case { plan, d, rows: rows.concat(), n: n as u16, z }
}

fn greatest_divisor(a: i64, b: i64) -> i64 {
    if b == 0 {
        a
    } else {
        greatest_divisor(b, a % b)
    }
}

/// Any rows of small components with any small pair: some admissible, most not.
fn any_case(plan: u8, random: &mut Random) -> Case {
    let d = 1 + random.below(6);
    let span = random.pick(&[1, 1, 2, 3, 10, 255]);
    let count = 1 + random.below(6);
    let rows = (0..count * d).map(|_| component(plan, span, random)).collect();
    let most = random.pick(&[5, 20, 100, 8192]);
    let n = 1 + random.below(most) as u16;
    let z = (0..d).map(|_| random.below(usize::from(n)) as u16).collect();
    Case { plan, d, rows, n, z }
}

/// One to `most` things of the case are made wrong, or at least other.
fn damage_some(c: &mut Case, most: usize, random: &mut Random) {
    for _ in 0..=random.below(most) {
        damage(c, random);
    }
}

/// One thing of the case is made wrong, or at least other.
fn damage(c: &mut Case, random: &mut Random) {
    let n = usize::from(c.n);
    match random.below(15) {
        0 => c.plan = random.pick(&[0, 5, 6, 255]),
        1 => c.d = random.pick(&[0, 1, 2, 3, 4, 5, 6, 7, 8, 64, 1 << 32, usize::MAX]),
        2 => c.rows.clear(),
        3 => {
            c.rows.pop();
        }
        4 => c.rows.push(7),
        5 => {
            // too many rows, by one or by many
            let wanted = (513 + random.below(2) * random.below(600)) * c.axes();
            while c.rows.len() < wanted {
                c.rows.push(random.below(256) as i16);
            }
        }
        6 | 7 if !c.rows.is_empty() => {
            let at = random.below(c.rows.len());
            c.rows[at] = random.pick(&[-1, -255, 255, 256, -256, 0, i16::MAX, i16::MIN]);
        }
        8 if c.axes() > 0 && c.rows.len() >= c.axes() => {
            // a row again, at another place
            let from = random.below(c.row_count().max(1)) * c.axes();
            if let Some(row) = c.rows.get(from..from + c.axes()) {
                let row = row.to_vec();
                c.rows.extend(row);
            }
        }
        9 => c.n = random.pick(&[0, 1, 8192, 8193, u16::MAX]),
        10 => {
            c.z.pop();
        }
        11 => c.z.push(0),
        12 if !c.z.is_empty() => {
            let at = random.below(c.z.len());
            c.z[at] = random.pick(&[c.n, c.n.wrapping_add(1), c.n.wrapping_sub(1), 0, u16::MAX]);
        }
        13 => c.z = vec![0; c.z.len()],
        _ if n > 1 => c.n -= 1,
        _ => c.n = 2,
    }
}

/// The numbers that each of the five calls of `compare_all` may return with places of the right length.
fn all_seen(seen: &[Seen; 5], least: usize) {
    seen[0].all_of(&[0, 1, 2, 3, 4, 5, 6, 7], least);
    seen[1].all_of(&[0, 1, 2, 3, 4, 5, 6, 7, 10], least);
    seen[2].all_of(&[0, 1, 2, 3, 4, 5, 6, 7, 10], least);
    seen[3].all_of(&[0, 1, 2, 3, 4, 5, 6, 7, 10, 11], least);
    seen[4].all_of(&[0, 1, 2, 6, 7], least);
}

#[test]
fn short_lists() {
    let mut random = Random::new(1);
    let mut seen = Default::default();
    let (mut yes, mut no) = (0, 0);
    for turn in 0..4000 {
        let plan = (turn % 5) as u8;
        let mut c = if turn % 3 == 0 { admissible_case(plan, 8, &mut random) } else { any_case(plan, &mut random) };
        match compare_check(&c) {
            Ok(true) => yes += 1,
            Ok(false) => no += 1,
            Err(_) => {}
        }
        if turn % 2 == 0 {
            damage_some(&mut c, 3, &mut random);
        }
        compare_all(&c, &mut random, &mut seen);
    }
    assert!(yes > 1000 && no > 500, "yes {yes}, no {no}");
    all_seen(&seen, 20);
}

#[test]
fn long_lists() {
    let mut random = Random::new(2);
    let mut seen = Default::default();
    let mut longest = 0;
    for turn in 0..150 {
        let plan = (turn % 5) as u8;
        let mut c = admissible_case(plan, 512, &mut random);
        longest = longest.max(c.row_count());
        assert_eq!(compare_check(&c), Ok(true), "{c:?}");
        if turn >= 50 {
            damage_some(&mut c, 2, &mut random);
        }
        compare_all(&c, &mut random, &mut seen);
    }
    assert!(longest > 400, "{longest}");
    all_seen(&seen, 1);
}

/// Rows over six axes with all components above 0, so that each has 64 mirrors: 512 rows have 32768.
fn wide_rows(count: i16) -> Vec<i16> {
    (0..count).flat_map(|i| [1 + i % 8, 1 + i / 8 % 8, 1 + i / 64, 1, 2, 3]).collect()
}

/// Rows over two axes: 512 rows are those from 0 to (31, 15), with 31 * 15 * 4 + (31 + 15) * 2 + 1 = 1953 mirrors.
fn square_rows(count: i16) -> Vec<i16> {
    (0..count).flat_map(|i| [i / 16, i % 16]).collect()
}

/// 512 rows, the most there may be, and 513, in every plan.
#[test]
fn full_lists() {
    let mut random = Random::new(3);
    let mut seen = Default::default();
    for plan in 0..5 {
        // 512 rows over 1, 2, 3 and 6 axes, admissible by the digits of a number
        let mut line: Vec<i16> = (-255..=255).collect();
        let square = square_rows(512);
        let cube: Vec<i16> =
            (0..8).flat_map(|a| (0..8).flat_map(move |b| (0..8).flat_map(move |e| [a, b, e]))).collect();
        let mut cases =
            vec![Case::new(plan, 2, &square, 2048, &[1, 64]), Case::new(plan, 3, &cube, 3375, &[1, 15, 225])];
        if plan < 2 {
            cases.push(Case::new(plan, 1, &line, 511, &[1]));
            cases.push(Case::new(plan, 1, &line, 8191, &[8190]));
            line.push(256);
            cases.push(Case::new(plan, 1, &line, 8191, &[8190]));
        }
        let many = wide_rows(512);
        cases.push(Case::new(plan, 6, &many, 8192, &[1, 8, 64, 512, 1024, 2048]));
        cases.push(Case::new(plan, 6, &many, 8191, &[1, 17, 289, 4913, 301, 5117]));
        for mut c in cases {
            compare_all(&c, &mut random, &mut seen);
            let row = vec![9; c.d];
            c.rows.extend(row);
            compare_all(&c, &mut random, &mut seen);
        }
    }
    seen[3].all_of(&[0, 1, 3, 4, 5, 10, 11], 1);
}

/// Places, terms and sums of every wrong length, whatever else is wrong.
#[test]
fn wrong_lengths() {
    let mut random = Random::new(4);
    let mut seen = Seen::default();
    for turn in 0..1500 {
        let plan = (turn % 5) as u8;
        let mut c = if turn % 2 == 0 { admissible_case(plan, 20, &mut random) } else { any_case(plan, &mut random) };
        if turn % 4 == 0 {
            damage(&mut c, &mut random);
        }
        let m = c.row_count();
        let n = usize::from(c.n);
        let mut other = |right: usize| match random.below(6) {
            0 => 0,
            1 => right + 1,
            2 => right.saturating_sub(1),
            3 => right / 2,
            4 => 2 * right,
            _ => right,
        };
        let (map, terms, sums, points) = (other(2 * m), other(m), other(n), other(point_places(&c)));
        let given = random.terms(terms);
        seen.add(&compare_map(&c, map));
        seen.add(&compare_spread(&c, &given, sums));
        seen.add(&compare_gather(&c, &vec![0; sums], terms));
        seen.add(&compare_points(&c, points));
    }
    assert!(seen.0[&8] > 1000, "{:?}", seen.0);
}

/// A small list with its smallest plan, where under plan C mirrors of a row may share its residue.
fn tight_case(plan: u8, random: &mut Random) -> Case {
    loop {
        let mut c = any_case(plan, random);
        c.rows.truncate(2 * c.d);
        let d = c.d.min(3);
        c.d = d;
        c.rows.truncate(c.rows.len() / d * d);
        if let Ok((n, z)) = independent::search_smallest(plan, d, &c.rows, 6, d) {
            return Case { n, z, ..c };
        }
    }
}

/// Gathering after spreading gives the terms back, to the ends of 32 bits; and sums at the ends of 64 bits are refused or divided.
#[test]
fn gathering() {
    let mut random = Random::new(5);
    let mut seen = Seen::default();
    let mut shared = 0;
    for turn in 0..480 {
        let plan = 1 + (turn % 4) as u8;
        let c = match turn % 3 {
            0 => admissible_case(plan, 60, &mut random),
            1 => any_case(plan, &mut random),
            _ => tight_case(plan, &mut random),
        };
        let Ok(map) = compare_map(&c, 2 * c.row_count()) else { continue };
        if map.chunks(2).any(|entry| entry[1] > 1) {
            shared += 1;
        }
        for terms in [vec![i32::MAX; c.row_count()], vec![i32::MIN; c.row_count()], random.terms(c.row_count())] {
            let sums = compare_spread(&c, &terms, usize::from(c.n)).unwrap();
            assert_eq!(compare_gather(&c, &sums, terms.len()), Ok(terms), "{c:?}");
            for _ in 0..4 {
                let mut sums = sums.clone();
                for _ in 0..1 + random.below(3) {
                    // at a residue that a row has, or at any
                    let row = random.below(c.row_count());
                    let any = random.below(sums.len());
                    let at = random.pick(&[usize::from(map[2 * row]), any]);
                    sums[at] = match random.below(3) {
                        0 => random.sum(),
                        1 => sums[at].wrapping_add(1),
                        _ => sums[at].wrapping_mul(2),
                    };
                }
                seen.add(&compare_gather(&c, &sums, c.row_count()));
            }
        }
    }
    assert!(shared > 30, "{shared}");
    seen.all_of(&[0, 11], 500);
}

#[test]
fn cutting_lists() {
    let mut random = Random::new(6);
    let mut seen = Seen::default();
    for turn in 0..400 {
        let plan = (turn % 6) as u8;
        let d = random.below(8);
        let n = random.pick(&[0, 1, 2, 3, 4, 5, 16, 97, 4096, 8191, 8192, 8193]);
        let z = (0..d)
            .map(|_| random.below(usize::from(n) + 1) as u16)
            .map(|x| if turn % 8 > 0 { x.min(n.max(1) - 1) } else { x })
            .collect();
        let c = Case { plan, d, rows: vec![], n, z };
        seen.add(&compare_points(&c, point_places(&c)));
    }
    seen.all_of(&[0, 1, 2, 6, 7], 5);
}

/// Of all numbers of places one is taken, and it is that of `line_count`. All n lines are then there: under plans 2, 3 and 4 a line
/// that is not listed is line n - i of the list.
#[test]
fn twin_lines() {
    let mut random = Random::new(20);
    for n in 1..=33u16 {
        for plan in 0..=4 {
            let d = 1 + random.below(3);
            let z: Vec<_> = (0..d).map(|_| random.below(usize::from(n)) as u16).collect();
            let c = Case { plan, d, rows: vec![], n, z };
            let answers = (0..=(usize::from(n) + 2) * d).filter_map(|places| compare_points(&c, places).ok());
            let lists: Vec<_> = answers.collect();
            assert_eq!(lists.len(), 1, "{c:?}");
            let lines: Vec<_> = lists[0].chunks(d).collect();
            assert_eq!(safely(plan, |rule| Ok(planner::line_count(rule, n))), Ok(lines.len()), "{c:?}");
            let z: Vec<_> = c.z.iter().map(|&x| i64::from(x)).collect();
            for i in 0..usize::from(n) {
                let at = if i < lines.len() { i } else { usize::from(n) - i };
                assert_eq!(lines[at], independent::line(plan, i64::from(n), &z, i as i64), "{c:?} {i}");
            }
        }
    }
}

/// Every residue of a modulus has what its case gives (02, e): with z = (1, n - 1) line i has the residues i and n - i.
#[test]
fn tent_cases() {
    let mut met = [0; 4];
    for n in (1..=300).chain(8189..=8192) {
        for plan in 2..=4 {
            let c = Case { plan, d: 2, rows: vec![], n, z: vec![1 % n, n - 1] };
            let list = compare_points(&c, point_places(&c)).unwrap();
            let residues = (0..=n / 2).flat_map(|i| [i, (n - i) % n]);
            assert_eq!(list.len(), residues.clone().count(), "{c:?}");
            for (&numerator, r) in list.iter().zip(residues) {
                let (case, given) = independent::tent_case(i64::from(n), i64::from(r));
                assert_eq!(i64::from(numerator), given, "{c:?} {r}");
                met[case] += 1;
            }
        }
    }
    assert!(met.iter().all(|&count| count > 400), "{met:?}");
}

/// The searches against every modulus and every vector in order, on small lists.
#[test]
fn searches() {
    let mut random = Random::new(7);
    let mut seen = [Seen::default(), Seen::default()];
    for turn in 0..3000 {
        let plan = (turn % 5) as u8;
        let d = 1 + random.below(3);
        let span = random.pick(&[1, 2, 3, 6, 40]);
        let count = 1 + random.below([6, 4, 3][d - 1]);
        let rows = different_rows(plan, count, &vec![span; d], &mut random);
        let ceiling = 1 + random.below([40, 14, 9][d - 1]) as u16;
        let mut c = Case { plan, d, rows: rows.concat(), n: ceiling, z: vec![] };
        let mut places = d;
        if turn % 4 == 0 {
            match random.below(6) {
                0 => places = random.below(8),
                1 => c.n = random.pick(&[0, 8193, u16::MAX]),
                2 => c.rows.extend(rows[0].clone()),
                3 => c.d = random.pick(&[0, 7, usize::MAX]),
                4 => c.rows[0] = random.pick(&[256, -256, i16::MIN]),
                _ => {
                    c.plan = random.pick(&[5, 255]);
                    places = 0;
                }
            }
            if random.below(4) == 0 {
                c.rows.push(3);
            }
        }
        seen[0].add(&compare_search(Search::Vector, &c, places));
        seen[1].add(&compare_search(Search::Smallest, &c, places));
    }
    for seen in &seen {
        seen.all_of(&[0, 1, 2, 3, 4, 5, 6, 8, 9], 20);
    }
}

/// The vector search at moduli up to 8192. The vector of 1, w, w * w and so on with w = 4 * span + 1 is admissible where n is at least
/// w to the number of axes: no difference of two mirrors has residue 0. So the second planner need not go far.
#[test]
fn searches_at_large_moduli() {
    let mut random = Random::new(21);
    for turn in 0..500 {
        let plan = (turn % 5) as u8;
        let d = 2 + random.below(2);
        let span = 1 + random.below(4);
        let count = 1 + random.below(4);
        let rows = different_rows(plan, count, &vec![span as i64; d], &mut random).concat();
        let least = (4 * span + 1).pow(d as u32);
        let any = least + random.below(8193 - least);
        let n = random.pick(&[least, least + 1, 8191, 8192, any]) as u16;
        let c = Case { plan, d, rows, n, z: vec![] };
        assert!(compare_search(Search::Vector, &c, d).is_ok(), "{c:?}");
    }
}

/// The search at one n gives the vector that wins against every other admissible one there, in whatever order they come. Often it is
/// not the first of them in dictionary order.
#[test]
fn winners() {
    let mut random = Random::new(22);
    let (mut first, mut other, mut none) = (0, 0, 0);
    for turn in 0..1500 {
        let rule = Rule::ALL[turn % 5];
        let d = 2 + random.below(2);
        let span = random.pick(&[1, 2, 3, 6]);
        let count = 2 + random.below(6);
        let rows = different_rows(rule as u8, count, &vec![span; d], &mut random).concat();
        let Ok(smallest) = planner::search_smallest(rule, d, &rows, [24, 11][d - 2]) else { continue };
        let n = random.pick(&[smallest.n - 1, smallest.n, smallest.n, smallest.n + 1]).max(1);
        let vectors = all_vectors(d, n);
        let admissible = |z: &&[u16]| planner::check(rule, d, &rows, n, z).unwrap();
        let admissible: Vec<&[u16]> = vectors.iter().map(|z| &z[..]).filter(admissible).collect();
        let winner = shuffled(1, &admissible, &mut random).into_iter().reduce(compare_gentler);
        let found = planner::search_vector(rule, d, &rows, n).ok().map(|plan| plan.z);
        assert_eq!(found.as_deref(), winner, "{rule:?} {rows:?} {n}");
        match winner {
            None => none += 1,
            _ if admissible.first().copied() == winner => first += 1,
            _ => other += 1,
        }
    }
    assert!(first > 100 && other > 100 && none > 100, "{first} {other} {none}");
}

/// Tickets whose answer is not the first admissible vector in dictionary order, one for each plan and one over three axes: the rows, n,
/// the gentlest vector there, and the first in dictionary order.
#[test]
fn orders_apart() {
    type Ticket<'a> = (u8, &'a [i16], u16, &'a [u16], &'a [u16]);
    let tickets: [Ticket; 6] = [
        (0, &[0, 2, 1, 3, 3, 0], 4, &[2, 1], &[1, 3]),
        (1, &[0, 1, 1, 0, 1, 1, 2, 0], 4, &[2, 1], &[1, 3]),
        (2, &[1, 0, 1, 1], 7, &[2, 1], &[1, 3]),
        (3, &[1, 0, 1, 2], 5, &[2, 1], &[1, 3]),
        (4, &[0, 3, 1, 2, 1, 3], 6, &[2, 1], &[1, 3]),
        (1, &[0, 0, 0, 0, 0, 1, 1, 1, 0], 3, &[1, 1, 1], &[0, 1, 2]),
    ];
    for (plan, rows, n, gentlest, first) in tickets {
        let d = gentlest.len();
        let c = |n: u16, z: &[u16]| Case::new(plan, d, rows, n, z);
        for ceiling in [n, n + 1, MOST_MODULUS] {
            assert_eq!(compare_search(Search::Smallest, &c(ceiling, &[]), d), Ok((n, gentlest.to_vec())), "{rows:?}");
        }
        assert_eq!(compare_search(Search::Smallest, &c(n - 1, &[]), d), Err(9), "{rows:?}");
        assert_eq!(compare_search(Search::Vector, &c(n, &[]), d), Ok((n, gentlest.to_vec())), "{rows:?}");
        let admissible = all_vectors(d, n).into_iter().find(|z| compare_check(&c(n, z)).unwrap());
        assert_eq!(admissible.as_deref(), Some(first), "{rows:?}");
        assert!(ptr::eq(compare_gentler(first, gentlest), gentlest), "{rows:?}");
    }
}

/// A vector of numbers below an end.
fn any_vector(length: usize, end: usize, random: &mut Random) -> Vec<u16> {
    (0..length).map(|_| random.below(end) as u16).collect()
}

/// A vector beside another: of any length, of its length, its numbers in another order or with one of them changed, its front, or the
/// same numbers at another place.
fn vector_beside(z: &[u16], end: usize, random: &mut Random) -> Vec<u16> {
    let mut other = z.to_vec();
    match random.below(6) {
        0 => {
            let length = random.below(8);
            other = any_vector(length, end, random);
        }
        1 => other = any_vector(z.len(), end, random),
        2 => other = shuffled(1, z, random),
        3 if !z.is_empty() => {
            let at = random.below(z.len());
            other[at] = random.pick(&[0, 1, z[at].wrapping_add(1), u16::MAX]);
        }
        4 => other.truncate(random.below(z.len() + 1)),
        _ => {}
    }
    other
}

/// What decides between two vectors: their lengths (0), their largest components (1), dictionary order (2), or nothing (3).
fn decided_by(left: &[u16], right: &[u16]) -> usize {
    let differ = [left.len() != right.len(), left.iter().max() != right.iter().max(), left != right];
    differ.iter().position(|differ| *differ).unwrap_or(3)
}

/// The gentler of two vectors (document 02, f), of any lengths and numbers: both ways round, against itself and against its own front.
#[test]
fn gentler_vectors() {
    let mut random = Random::new(23);
    let mut won = [[0; 2]; 4];
    for turn in 0..20000 {
        let end = random.pick(&[1, 2, 2, 3, 5, 1000, 65536]);
        let length = if turn % 500 == 0 { 8192 } else { random.below(8) };
        let one = any_vector(length, end, &mut random);
        let other = vector_beside(&one, end, &mut random);
        for (left, right) in [(&one[..], &other[..]), (&other, &one)] {
            let right_won = !ptr::eq(compare_gentler(left, right), left);
            won[decided_by(left, right)][usize::from(right_won)] += 1;
        }
        let front = &one[..random.below(length + 1)];
        assert!(ptr::eq(compare_gentler(&one, &one), &one[..]), "{one:?}");
        assert!(ptr::eq(compare_gentler(&one, front), front), "{one:?} {front:?}");
        assert!(ptr::eq(compare_gentler(front, &one), front), "{one:?} {front:?}");
    }
    let [length, largest, order, tie] = won;
    assert!([length, largest, order].iter().flatten().all(|count| *count > 1000), "{won:?}");
    assert!(tie[0] > 1000 && tie[1] == 0, "{won:?}");
}

/// Pairs of vectors with the number of the winner, by hand.
#[test]
fn gentler_by_hand() {
    let pairs: [(&[u16], &[u16], u8); 16] = [
        (&[2, 1], &[1, 3], 0),
        (&[1, 3], &[2, 1], 1),
        (&[3, 1], &[1, 3], 1),
        (&[0, 2, 2], &[2, 0, 0], 0),
        (&[1, 2, 3], &[1, 3, 2], 0),
        (&[1, 2], &[1, 2], 0),
        (&[0, 65535], &[65535, 0], 0),
        (&[65535, 0], &[65534, 65534], 1),
        (&[0], &[1], 0),
        (&[9, 9], &[0, 0, 0], 0),
        (&[0, 0, 0], &[9, 9], 1),
        (&[1, 2], &[1, 2, 0], 0),
        (&[1, 2, 0], &[1, 2], 1),
        (&[], &[0], 0),
        (&[0], &[], 1),
        (&[], &[], 0),
    ];
    for (left, right, number) in pairs {
        let winner = if number == 0 { left } else { right };
        assert!(ptr::eq(compare_gentler(left, right), winner), "{left:?} {right:?}");
    }
}

/// The list of no rows (document 02, a): every pair is admissible, the smallest plan is n = 1 with the zero vector, the map and the
/// terms have no places, and the sums are zeros. Its record is the default one, and 1 is worth trying.
#[test]
fn no_rows() {
    let mut random = Random::new(8);
    let mut seen = Default::default();
    for turn in 0..600 {
        let plan = (turn % 5) as u8;
        let d = 1 + turn % 6;
        let most = random.pick(&[1, 5, 100, 8192]);
        let n = 1 + random.below(most) as u16;
        let z: Vec<u16> = (0..d).map(|_| random.below(usize::from(n)) as u16).collect();
        let mut c = Case { plan, d, rows: vec![], n, z };
        assert_eq!(compare_check(&c), Ok(true), "{c:?}");
        assert_eq!(compare_search(Search::Vector, &c, d), Ok((n, vec![0; d])), "{c:?}");
        assert_eq!(compare_search(Search::Smallest, &c, d), Ok((1, vec![0; d])), "{c:?}");
        assert_eq!(compare_tally(plan, d, &[]).map(record), Ok(Tally::default()), "{c:?}");
        assert_eq!(compare_bound(plan, (0, 0, false)), Ok(1), "{c:?}");
        if plan != 0 {
            assert_eq!(compare_map(&c, 0), Ok(vec![]), "{c:?}");
            assert_eq!(compare_spread(&c, &[], usize::from(n)), Ok(vec![0; usize::from(n)]), "{c:?}");
            assert_eq!(compare_gather(&c, &vec![random.sum(); usize::from(n)], 0), Ok(vec![]), "{c:?}");
            assert_eq!(compare_map(&c, 2), Err(8), "{c:?}");
            assert_eq!(compare_spread(&c, &[1], usize::from(n)), Err(8), "{c:?}");
            assert_eq!(compare_gather(&c, &vec![0; usize::from(n)], 1), Err(8), "{c:?}");
        }
        damage_some(&mut c, 2, &mut random);
        compare_all(&c, &mut random, &mut seen);
    }
}

/// One thing of an addition is made wrong, or at least other.
fn damage_addition(a: &mut Addition, random: &mut Random) {
    let axes = a.d.clamp(1, 6);
    let m = a.rows.len() / axes;
    match random.below(14) {
        0 => a.plan = random.pick(&[0, 1, 2, 3, 4, 5, 6, 255]),
        1 => a.d = random.pick(&[0, 1, 2, 3, 4, 5, 6, 7, 8, 64, 1 << 32, usize::MAX]),
        2 => {
            a.rows.pop();
        }
        3 => a.rows.push(7),
        4 => {
            a.row.pop();
        }
        5 => a.row.push(7),
        // the list is no whole number of rows, but is with the row
        6 => a.row.extend(a.rows.pop()),
        7 if !a.rows.is_empty() => {
            let at = random.below(a.rows.len());
            a.rows[at] = random.pick(&[-1, -255, 255, 256, -256, 0, i16::MAX, i16::MIN]);
        }
        8 if !a.row.is_empty() => {
            let at = random.below(a.row.len());
            a.row[at] = random.pick(&[-1, -255, 255, 256, -256, 0, i16::MAX, i16::MIN]);
        }
        // a row of the list again: as the new row, or in the list
        9 if m > 0 => a.row = a.rows[random.below(m) * axes..][..axes].to_vec(),
        10 if m > 0 => a.rows.extend_from_within(..axes),
        11 => a.tally.0 = other_number(a.tally.0, random),
        12 => a.tally.1 = other_number(a.tally.1, random),
        _ => a.tally.2 = !a.tally.2,
    }
}

fn other_number(x: u32, random: &mut Random) -> u32 {
    let any = random.next() as u32;
    random.pick(&[x.wrapping_add(1), x.wrapping_sub(1), x.wrapping_add(256), x ^ 1 << 16, x ^ 1 << 31, u32::MAX, any])
}

/// A row over d axes, every eighth the zero row.
fn any_row(plan: u8, d: usize, span: usize, random: &mut Random) -> Vec<i16> {
    let span = if random.below(8) == 0 { 0 } else { span };
    (0..d).map(|_| component(plan, span, random)).collect()
}

/// The running tally (document 02, b), row after row from no rows on: each time the record is the recount of the longer list, and a
/// row that is in already is refused. Beside it the same addition with some things damaged.
#[test]
fn growing_lists() {
    let mut random = Random::new(9);
    let (mut added, mut damaged, mut counted) = (Seen::default(), Seen::default(), Seen::default());
    let mut with_zero = 0;
    for turn in 0..1000 {
        let plan = (turn % 5) as u8;
        let d = 1 + random.below(6);
        let span = random.pick(&[1, 1, 2, 3, 10, 255]);
        let mut a = Addition { plan, d, rows: vec![], tally: (0, 0, false), row: vec![] };
        assert_eq!(compare_tally(plan, d, &a.rows), Ok(a.tally), "{a:?}");
        for _ in 0..random.below(20) {
            a.row = any_row(plan, d, span, &mut random);

            let mut other = a.clone();
            for _ in 0..=random.below(2) {
                damage_addition(&mut other, &mut random);
            }
            damaged.add(&compare_add(&other));
            counted.add(&compare_tally(other.plan, other.d, &[&other.rows[..], &other.row].concat()));

            let answer = compare_add(&a);
            added.add(&answer);
            if let Ok(tally) = answer {
                a.rows.extend(&a.row);
                a.tally = tally;
                assert_eq!(compare_tally(plan, d, &a.rows), Ok(tally), "{a:?}");
                assert_eq!(tally.0 as usize * d, a.rows.len(), "{a:?}");
                assert!(compare_bound(plan, tally).unwrap() >= 1, "{a:?}");
            }
        }
        with_zero += usize::from(a.tally.2);
    }
    added.all_of(&[0, 5], 500);
    damaged.all_of(&[0, 1, 2, 3, 4, 5], 100);
    counted.all_of(&[0, 1, 2, 3, 4, 5], 100);
    assert!((200..800).contains(&with_zero), "{with_zero}");
}

/// A record that is other than the recount in one field is refused with 3, after everything that is wrong with the longer list.
#[test]
fn wrong_records() {
    let mut random = Random::new(10);
    let mut others = 0;
    for turn in 0..600 {
        let plan = (turn % 5) as u8;
        let d = 1 + random.below(6);
        let count = random.below(12);
        let rows = different_rows(plan, count, &vec![3; d], &mut random).concat();
        let tally = compare_tally(plan, d, &rows).unwrap();
        // no row of the list has a 4
        let mut a = Addition { plan, d, rows, tally, row: vec![4; d] };
        let longer = compare_add(&a);
        assert!(longer.is_ok(), "{a:?}");

        let (m, size, zero) = tally;
        let mut wrong = vec![(m, size, !zero), (size, m, zero), (m, m, zero), longer.unwrap()];
        wrong.extend((0..3).map(|_| (other_number(m, &mut random), size, zero)));
        wrong.extend((0..3).map(|_| (m, other_number(size, &mut random), zero)));
        for other in wrong.into_iter().filter(|other| *other != tally) {
            others += 1;
            a.tally = other;
            assert_eq!(compare_add(&a), Err(3), "{a:?}");
            if m > 0 {
                let equal = Addition { row: a.rows[..d].to_vec(), ..a.clone() };
                assert_eq!(compare_add(&equal), Err(5), "{equal:?}");
            }
            let outside = Addition { row: vec![256; d], ..a.clone() };
            assert_eq!(compare_add(&outside), Err(4), "{outside:?}");
        }
    }
    assert!(others > 3000, "{others}");
}

/// Lists of up to 512 rows grow row by row, and not to 513: counted again at some rows and at the last ones.
#[test]
fn growing_to_full_lists() {
    let line: Vec<i16> = (-255..=255).collect();
    let (square, wide) = (square_rows(513), wide_rows(513));
    for plan in 0..5 {
        let lists = if plan < 2 {
            vec![(1, &line, (511, 511, true)), (2, &square, (512, 512, true)), (6, &wide, (512, 512, false))]
        } else {
            vec![(2, &square, (512, 1953, true)), (6, &wide, (512, 32768, false))]
        };
        for (d, whole, last) in lists {
            let mut a = Addition { plan, d, rows: vec![], tally: (0, 0, false), row: vec![] };
            for (i, row) in whole.chunks(d).enumerate().take(512) {
                a.row = row.to_vec();
                let tally = safely(plan, |rule| planner::add_row(rule, d, &a.rows, record(a.tally), row)).unwrap();
                if i % 64 == 0 || i > 509 {
                    assert_eq!(compare_add(&a).map(record), Ok(tally), "{i} {a:?}");
                }
                a.rows.extend(row);
                a.tally = (tally.m, tally.size, tally.zero);
            }
            assert_eq!(a.tally, last);
            assert_eq!(compare_tally(plan, d, &a.rows), Ok(last));
            if a.tally.0 == 512 {
                // one row too many is refused before anything else that is wrong with it
                for row in [&whole[512 * d..], &whole[..d], &vec![256; d]] {
                    a.row = row.to_vec();
                    assert_eq!(compare_add(&a), Err(3), "{a:?}");
                }
                assert_eq!(compare_tally(plan, d, whole), Err(3));
            }
        }
    }
}

/// The bound at every border of a record, and beyond: m at 512, the size at 64 m, the zero row at m = 0.
#[test]
fn bounds() {
    let mut random = Random::new(11);
    let mut seen = Seen::default();
    let (mut largest, mut least) = (0, u16::MAX);
    for plan in [0, 1, 2, 3, 4, 5, 6, 255] {
        for m in [0, 1, 2, 3, 4, 63, 64, 65, 255, 256, 511, 512, 513, 514, 1 << 16, 1 << 26, (1 << 26) + 1, u32::MAX] {
            let most = m.wrapping_mul(64);
            let near = [most.wrapping_sub(1), most, most.wrapping_add(1), m.wrapping_sub(1), m, m.wrapping_add(1)];
            let far =
                [0, 1, 2, 32767, 32768, 32769, 1 << 16, u32::MAX, random.next() as u32, random.below(32769) as u32];
            for size in near.into_iter().chain(far) {
                for zero in [false, true] {
                    let answer = compare_bound(plan, (m, size, zero));
                    seen.add(&answer);
                    if let Ok(bound) = answer {
                        (largest, least) = (largest.max(bound), least.min(bound));
                    }
                }
            }
        }
    }
    assert_eq!((least, largest), (0, 32769));
    for _ in 0..20000 {
        let plan = random.below(6) as u8;
        let m = random.below(520) as u32;
        let size = random.below(64 * m as usize + 20) as u32;
        let zero = random.below(2) == 0;
        seen.add(&compare_bound(plan, (m, size, zero)));
    }
    seen.all_of(&[0, 1, 3], 500);

    // one step on each side of each border
    for plan in 0..5 {
        assert!(compare_bound(plan, (512, 512, false)).is_ok());
        assert_eq!(compare_bound(plan, (513, 513, false)), Err(3));
        assert!(compare_bound(plan, (3, 192, true)).is_ok());
        assert_eq!(compare_bound(plan, (3, 193, true)), Err(3));
        assert_eq!(compare_bound(plan, (0, 0, false)), Ok(1));
        assert_eq!(compare_bound(plan, (0, 1, false)), Err(3));
        assert_eq!(compare_bound(plan, (0, 0, true)), Err(3));
        assert_eq!(compare_bound(plan, (u32::MAX, u32::MAX, true)), Err(3));
        // 64 m is 0 in 32 bits
        assert_eq!(compare_bound(plan, (1 << 26, 0, false)), Err(3));
    }
    // what no list has may get the bound 0
    assert_eq!(compare_bound(2, (1, 0, true)), Ok(0));
}

/// All vectors of d components from 0 to n - 1.
fn all_vectors(d: usize, n: u16) -> Vec<Vec<u16>> {
    (0..d)
        .fold(vec![vec![]], |shorter, _| shorter.iter().flat_map(|z| (0..n).map(|x| [&z[..], &[x]].concat())).collect())
}

/// Below the bound no vector is admissible, by the second planner and by the library's check; the vector search there is refused with
/// 9, so is the smallest plan with a ceiling there, and the smallest plan of all is not below it.
#[test]
fn hopeless_moduli() {
    let mut random = Random::new(12);
    let (mut at, mut above) = ([0; 5], [0; 5]);
    for turn in 0..1500 {
        let plan = turn % 5;
        let rule = Rule::ALL[plan];
        let d = 1 + random.below(3);
        let span = random.pick(&[1, 1, 2, 3, 10]);
        let count = random.below([8, 5, 3][d - 1]);
        let rows = different_rows(plan as u8, count, &vec![span; d], &mut random).concat();
        let tally = compare_tally(plan as u8, d, &rows).unwrap();
        let bound = compare_bound(plan as u8, tally).unwrap();
        if bound > [30, 14, 9][d - 1] {
            continue;
        }
        for n in 1..bound {
            let c = Case::new(plan as u8, d, &rows, n, &[]);
            assert_eq!(compare_search(Search::Vector, &c, d), Err(9), "{c:?}");
            for z in all_vectors(d, n) {
                assert_eq!(planner::check(rule, d, &rows, n, &z), Ok(false), "{c:?} {z:?}");
            }
        }
        if bound > 1 {
            let c = Case::new(plan as u8, d, &rows, bound - 1, &[]);
            assert_eq!(compare_search(Search::Smallest, &c, d), Err(9), "{c:?}");
        }
        let smallest = planner::search_smallest(rule, d, &rows, MOST_MODULUS).unwrap();
        assert!(smallest.n >= bound, "{plan} {rows:?}");
        at[plan] += usize::from(smallest.n == bound);
        above[plan] += usize::from(smallest.n > bound);
    }
    assert!(at.iter().all(|count| *count > 30) && above.iter().all(|count| *count > 5), "{at:?} {above:?}");
}

/// Long lists too are hopeless below the bound; where it is above 8192, everywhere.
#[test]
fn hopeless_long_lists() {
    let lists = [(6, wide_rows(512), [2, 512, 32769, 1025, 512]), (2, square_rows(512), [2, 512, 1953, 1023, 512])];
    for (d, rows, bounds) in lists {
        for (rule, bound) in Rule::ALL.into_iter().zip(bounds) {
            let tally = planner::tally_list(rule, d, &rows).unwrap();
            assert_eq!(planner::least_modulus(rule, tally), Ok(bound));
            for n in [1, bound / 2, bound - 1, MOST_MODULUS].into_iter().filter(|n| *n < bound && *n <= MOST_MODULUS) {
                assert_eq!(planner::search_vector(rule, d, &rows, n), Err(Refusal::NothingAdmissible));
                assert_eq!(planner::search_smallest(rule, d, &rows, n), Err(Refusal::NothingAdmissible));
            }
        }
    }
}

/// Corners over d axes: few that are high or many that are low, on all axes or on some, and some of them equal.
fn any_corners(d: usize, random: &mut Random) -> Corners {
    let count = random.pick(&[1, 1, 2, 3, 4, 6, 12, 31, 32]);
    let span = random.pick(&[1, 1, 2, 2, 3, 5, 9, 30, 255]);
    let sparse = random.below(2) == 0;
    let mut corners = Vec::new();
    for i in 0..count {
        if i > 0 && random.below(8) == 0 {
            corners.extend_from_within(..d);
        } else {
            corners.extend((0..d).map(|_| if sparse && random.below(3) > 0 { 0 } else { component(2, span, random) }));
        }
    }
    Corners::new(d, &corners)
}

/// One thing of the corners is made wrong, or at least other.
fn damage_corners(c: &mut Corners, random: &mut Random) {
    let axes = c.d.clamp(1, 6);
    match random.below(10) {
        0 => c.d = random.pick(&[0, 1, 2, 3, 4, 5, 6, 7, 8, 64, 1 << 32, usize::MAX]),
        1 => {
            c.corners.pop();
        }
        2 => c.corners.push(7),
        3 | 4 if !c.corners.is_empty() => {
            let at = random.below(c.corners.len());
            c.corners[at] = random.pick(&[-1, -255, 255, 256, -256, 0, i16::MAX, i16::MIN]);
        }
        5 => c.corners.clear(),
        // corners again, until there are too many
        6 if c.corners.len() >= axes => {
            let wanted = (33 + random.below(2) * random.below(600)) * axes;
            while c.corners.len() < wanted {
                c.corners.extend_from_within(..axes);
            }
        }
        7 => c.corners.extend(vec![255; axes]),
        _ => {
            let right = MOST_ROWS * axes;
            c.places =
                random.pick(&[0, axes, c.corners.len(), right / 2, right - 1, right + 1, right + axes, 2 * right]);
        }
    }
}

/// What the list of any corners is: lower, with the zero row first, and valid for all plans, so that no call refuses it but for a
/// pair that is not admissible.
fn lower_and_valid(d: usize, list: &[i16]) {
    assert_eq!(planner::is_lower(d, list), Ok(true), "{d} {list:?}");
    assert_eq!(list[..d], vec![0; d], "{d} {list:?}");
    let m = (list.len() / d) as u32;
    for rule in Rule::ALL {
        let told = (rule, d, list);
        let (n, z) = (1, vec![0; d]);
        assert!(planner::check(rule, d, list, n, &z).is_ok(), "{told:?}");
        let tally = planner::tally_list(rule, d, list).unwrap();
        assert_eq!((tally.m, tally.zero), (m, true), "{told:?}");
        let refused = planner::search_vector(rule, d, list, n).err();
        assert!(matches!(refused, None | Some(Refusal::NothingAdmissible)), "{told:?} {refused:?}");
        if rule != Rule::ExactIntegration {
            let refused = planner::residue_map(rule, d, list, n, &z).err();
            assert!(matches!(refused, None | Some(Refusal::Inadmissible)), "{told:?} {refused:?}");
        }
    }
}

/// Lists given by corners (document 02, c): the list of any corners, and the same corners with some things damaged.
#[test]
fn corner_lists() {
    let mut random = Random::new(13);
    let (mut seen, mut damaged) = (Seen::default(), Seen::default());
    let mut long = 0;
    for turn in 0..3000 {
        let c = any_corners(1 + turn % 6, &mut random);
        let answer = compare_corners(&c);
        seen.add(&answer);
        if let Ok(list) = answer {
            lower_and_valid(c.d, &list);
            long += usize::from(list.len() > 200 * c.d);
        }
        let mut other = c.clone();
        for _ in 0..=random.below(3) {
            damage_corners(&mut other, &mut random);
        }
        damaged.add(&compare_corners(&other));
    }
    seen.all_of(&[0, 13], 500);
    damaged.all_of(&[0, 2, 3, 4, 8, 13], 100);
    assert!(long > 100, "{long}");
}

/// All rows over d axes whose components have the sum `degree`.
fn rows_of_degree(d: usize, degree: i16) -> Vec<Vec<i16>> {
    if d == 1 {
        return vec![vec![degree]];
    }
    let behind = |x: i16| rows_of_degree(d - 1, degree - x);
    (0..=degree).flat_map(|x| behind(x).into_iter().map(move |rest| [&[x], &rest[..]].concat())).collect()
}

/// The number of rows of a list given by corners.
fn rows_given(d: usize, corners: &[i16]) -> Result<usize, u8> {
    compare_corners(&Corners::new(d, corners)).map(|list| {
        assert!(list.chunks(d).zip(list.chunks(d).skip(1)).all(|(k, h)| k < h), "no dictionary order: {corners:?}");
        lower_and_valid(d, &list);
        list.len() / d
    })
}

/// The corners of a total degree are the rows that have it, and its list has all rows of this degree or less: they can be counted.
#[test]
fn total_degrees() {
    for (d, degree, corners, rows) in
        [(4, 3, 20, 35), (2, 20, 21, 231), (2, 30, 31, 496), (3, 6, 28, 84), (5, 2, 15, 21), (6, 2, 21, 28)]
    {
        let full = rows_of_degree(d, degree);
        assert_eq!(full.len(), corners);
        assert_eq!(rows_given(d, &full.concat()), Ok(rows), "{d} {degree}");
        let list = planner::corner_list(d, &full.concat()).unwrap();
        assert!(list.chunks(d).all(|row| row.iter().sum::<i16>() <= degree), "{d} {degree}");
    }
    // 32 corners, but 528 rows
    assert_eq!(rows_given(2, &rows_of_degree(2, 31).concat()), Err(13));
}

/// A corner for each axis: this axis alone, up to its end.
fn axes_alone(ends: &[i16]) -> Vec<i16> {
    let corner = |j: usize| (0..ends.len()).map(move |i| if i == j { ends[j] } else { 0 });
    (0..ends.len()).flat_map(corner).collect()
}

/// One corner is a box, and a corner on an axis adds what reaches out of it: lists of 512 rows, and of 513.
#[test]
fn boxes_and_axes() {
    assert_eq!(rows_given(3, &[3, 4, 9]), Ok(200));
    assert_eq!(rows_given(1, &[255]), Ok(256));
    assert_eq!(rows_given(2, &[255, 1]), Ok(512));
    assert_eq!(rows_given(2, &[255, 1, 0, 2]), Err(13));
    assert_eq!(rows_given(2, &[0, 2, 255, 1]), Err(13));
    assert_eq!(rows_given(2, &[255, 2]), Err(13));
    assert_eq!(rows_given(3, &[7, 7, 7]), Ok(512));
    assert_eq!(rows_given(3, &[7, 7, 7, 8, 0, 0]), Err(13));
    assert_eq!(rows_given(6, &[1, 1, 1, 1, 1, 15]), Ok(512));
    assert_eq!(rows_given(6, &[1, 1, 1, 1, 1, 15, 0, 0, 0, 0, 0, 16]), Err(13));

    assert_eq!(rows_given(6, &axes_alone(&[86, 85, 85, 85, 85, 85])), Ok(512));
    assert_eq!(rows_given(6, &axes_alone(&[85, 85, 85, 85, 85, 86])), Ok(512));
    assert_eq!(rows_given(6, &axes_alone(&[86, 85, 85, 85, 85, 86])), Err(13));
    assert_eq!(rows_given(2, &axes_alone(&[255, 255])), Ok(511));
    assert_eq!(rows_given(2, &[255, 0, 0, 255, 1, 1]), Ok(512));
    assert_eq!(rows_given(2, &[255, 0, 0, 255, 1, 2]), Err(13));
}

/// As many corners as there may be, and one more, on all numbers of axes; equal ones count. No corners; and the highest there are,
/// whose list has more rows than could be made one by one.
#[test]
fn numbers_of_corners() {
    for d in 1..=6 {
        for corner in [vec![0; d], vec![1; d]] {
            let rows = Ok(if corner[0] == 0 { 1 } else { 1 << d });
            assert_eq!(rows_given(d, &corner), rows);
            assert_eq!(rows_given(d, &corner.repeat(MOST_CORNERS)), rows);
            assert_eq!(rows_given(d, &corner.repeat(MOST_CORNERS + 1)), Err(13));
            assert_eq!(rows_given(d, &corner.repeat(10_000)), Err(13));
        }
        assert_eq!(rows_given(d, &[]), Err(13));
        let highest = vec![255; d];
        let rows = if d == 1 { Ok(256) } else { Err(13) };
        assert_eq!(rows_given(d, &highest), rows);
        assert_eq!(rows_given(d, &highest.repeat(MOST_CORNERS)), rows);
        assert_eq!(rows_given(d, &highest.repeat(MOST_CORNERS + 1)), Err(13));
        // different corners of one axis each: the list is that of the highest
        let line: Vec<i16> = (0..32).flat_map(|x| [&vec![0; d - 1][..], &[x]].concat()).collect();
        assert_eq!(rows_given(d, &line), Ok(32));
    }
}

/// A row that is not in the lower list, though every other row up to it is.
fn row_above(d: usize, list: &[i16], random: &mut Random) -> Vec<i16> {
    let rows: BTreeSet<&[i16]> = list.chunks(d).collect();
    loop {
        let mut row = list[random.below(list.len() / d) * d..][..d].to_vec();
        row[random.below(d)] += 1;
        let reached = (0..d).filter(|j| row[*j] > 0).all(|j| {
            let mut below = row.clone();
            below[j] -= 1;
            rows.contains(&below[..])
        });
        if reached && !rows.contains(&row[..]) && row.iter().all(|x| *x <= 255) {
            return row;
        }
    }
}

/// Boxes of nearly 512 rows, and then corners that add one row each: a list of 512 rows is given, one of 513 is not.
#[test]
fn growing_by_corners() {
    let mut random = Random::new(14);
    let boxes: [&[i16]; 16] = [
        &[21, 21],
        &[254, 1],
        &[1, 254],
        &[30, 15],
        &[99, 4],
        &[7, 7, 7],
        &[4, 9, 9],
        &[6, 7, 8],
        &[0, 30, 15],
        &[4, 4, 4, 3],
        &[1, 1, 10, 10],
        &[2, 2, 2, 2, 5],
        &[1, 1, 4, 4, 4],
        &[2, 2, 2, 2, 2, 1],
        &[1, 1, 1, 1, 0, 30],
        &[0, 4, 4, 0, 4, 3],
    ];
    for corner in boxes {
        let d = corner.len();
        let mut c = Corners::new(d, corner);
        let mut list = compare_corners(&c).unwrap();
        assert!(list.len() >= 483 * d, "{corner:?}");
        while list.len() < 512 * d {
            c.corners.extend(row_above(d, &list, &mut random));
            let longer = compare_corners(&c).unwrap();
            assert_eq!(longer.len(), list.len() + d, "{c:?}");
            list = longer;
        }
        lower_and_valid(d, &list);
        c.corners.extend(row_above(d, &list, &mut random));
        assert!(c.corners.len() <= MOST_CORNERS * d, "{c:?}");
        assert_eq!(compare_corners(&c), Err(13), "{c:?}");
    }
}

/// The sets of numbers that can be made of these, each in the order in which they stand here.
fn all_sets(numbers: &[u8]) -> Vec<Vec<u8>> {
    numbers.iter().fold(vec![vec![]], |sets, number| {
        let with: Vec<Vec<u8>> = sets.iter().map(|set| [&set[..], &[*number]].concat()).collect();
        [sets, with].concat()
    })
}

/// Corners for which all of these refusals apply: 13 by their number or by the length of their list.
fn wrong_corners(d: usize, wrong: &[u8], too_many: bool, random: &mut Random) -> Corners {
    let mut c = Corners::new(d, &vec![1; d]);
    if wrong.contains(&13) {
        c.corners = if too_many { vec![1; 33 * d] } else { vec![255; 2 * d] };
    }
    if wrong.contains(&4) {
        let at = random.below(c.corners.len());
        c.corners[at] = random.pick(&[-1, -255, 256, i16::MIN, i16::MAX]);
    }
    if wrong.contains(&3) {
        c.corners.push(1);
    }
    if wrong.contains(&8) {
        c.places = random.pick(&[0, d, 512 * d - 1, 512 * d + 1, 1024 * d]);
    }
    if wrong.contains(&2) {
        c.d = random.pick(&[0, 7, usize::MAX]);
    }
    c
}

/// A number of axes and a list for which all of these refusals apply: 3 by its length or by its number of rows.
fn wrong_list(d: usize, wrong: &[u8], too_many: bool, random: &mut Random) -> (usize, Vec<i16>) {
    let mut rows = vec![0; d];
    if wrong.contains(&4) {
        rows[random.below(d)] = random.pick(&[-256, 256, i16::MIN, i16::MAX]);
    }
    if wrong.contains(&5) {
        rows.extend_from_within(..);
    }
    if wrong.contains(&3) {
        let more = if too_many { (0..513).flat_map(|i| vec![i % 256; d]).collect() } else { vec![0] };
        rows.extend::<Vec<i16>>(more);
    }
    (if wrong.contains(&2) { random.pick(&[0, 7, usize::MAX]) } else { d }, rows)
}

/// Whatever is wrong at once, the first of the call's order is returned: 2 3 4 13 8 for corners, 2 3 4 5 for a list. With one axis
/// every length is whole, and no list of corners has more than 256 rows.
#[test]
fn orders_of_refusals() {
    let mut random = Random::new(15);
    for (d, too_many) in (1..=6).flat_map(|d| [(d, false), (d, true)]) {
        for wrong in all_sets(&[2, 3, 4, 13, 8]) {
            if d > 1 || !wrong.contains(&3) && (too_many || !wrong.contains(&13)) {
                let c = wrong_corners(d, &wrong, too_many, &mut random);
                assert_eq!(compare_corners(&c).err(), wrong.first().copied(), "{wrong:?} {c:?}");
            }
        }
        for wrong in all_sets(&[2, 3, 4, 5]) {
            if d > 1 || too_many || !wrong.contains(&3) {
                let (d, rows) = wrong_list(d, &wrong, too_many, &mut random);
                assert_eq!(compare_lower(d, &rows).err(), wrong.first().copied(), "{wrong:?} {d} {rows:?}");
            }
        }
    }
}

/// The same rows in another order.
fn shuffled<T: Copy>(d: usize, list: &[T], random: &mut Random) -> Vec<T> {
    let mut rows: Vec<&[T]> = list.chunks(d).collect();
    for i in (1..rows.len()).rev() {
        rows.swap(i, random.below(i + 1));
    }
    rows.concat()
}

/// The list without the row at a place.
fn without_row(d: usize, list: &[i16], at: usize) -> Vec<i16> {
    [&list[..at * d], &list[(at + 1) * d..]].concat()
}

/// Whether the row stands below another one of the list: is nowhere larger.
fn below_another(row: &[i16], list: &[i16]) -> bool {
    list.chunks(row.len()).any(|k| k != row && k.iter().zip(row).all(|(x, y)| x >= y))
}

/// The list of some corners is lower in every order. Without a row that stands below another it is not; without another row it is.
/// With a negative component it is not. Its rows, taken as corners, give the list again, and so do those below no other.
#[test]
fn lower_lists() {
    let mut random = Random::new(16);
    let (mut whole, mut broken, mut back, mut damaged) = (0, 0, 0, Seen::default());
    for turn in 0..1200 {
        let d = 1 + turn % 6;
        let Ok(list) = compare_corners(&any_corners(d, &mut random)) else { continue };
        let rows = shuffled(d, &list, &mut random);
        assert_eq!(compare_lower(d, &rows), Ok(true), "{d} {rows:?}");
        let m = rows.len() / d;

        let at = random.below(m);
        let (fewer, inner) = (without_row(d, &rows, at), below_another(&rows[at * d..][..d], &rows));
        assert_eq!(compare_lower(d, &fewer), Ok(!inner), "{d} {fewer:?}");
        *(if inner { &mut broken } else { &mut whole }) += 1;

        let mut negative = rows.clone();
        negative[random.below(rows.len())] = random.pick(&[-1, -2, -255]);
        assert_eq!(compare_lower(d, &negative), Ok(false), "{d} {negative:?}");

        let taken = compare_corners(&Corners::new(d, &rows));
        assert_eq!(taken, if m <= MOST_CORNERS { Ok(list.clone()) } else { Err(13) }, "{d} {rows:?}");
        let highest: Vec<&[i16]> = rows.chunks(d).filter(|row| !below_another(row, &rows)).collect();
        assert_eq!(planner::corner_list(d, &highest.concat()), Ok(list), "{d} {rows:?}");
        back += usize::from(taken.is_ok());

        let mut c = Case { plan: 1, d, rows, n: 9, z: vec![] };
        damage_some(&mut c, 3, &mut random);
        damaged.add(&compare_lower(c.d, &c.rows));
    }
    assert!(whole > 100 && broken > 400 && back > 200, "{whole} {broken} {back}");
    damaged.all_of(&[0, 2, 3, 4, 5], 20);
}

/// Any rows of small components, of one sign or of both: few lists of them are lower.
#[test]
fn lists_that_may_be_lower() {
    let mut random = Random::new(17);
    let (mut yes, mut no) = (0, 0);
    for turn in 0..6000 {
        let d = 1 + turn % 6;
        let plan = random.pick(&[1, 2, 2, 2]);
        let count = random.pick(&[0, 1, 2, 4, 8, 20, 60]);
        let span = random.pick(&[1, 1, 2, 3]);
        let rows = different_rows(plan, count, &vec![span; d], &mut random).concat();
        *(if compare_lower(d, &rows).unwrap() { &mut yes } else { &mut no }) += 1;
    }
    assert!(yes > 1000 && no > 1000, "{yes} {no}");
}

/// Of all lists that can be chosen from the rows of a box, as many are lower as is known: paths through a grid, plane partitions and
/// Dedekind's numbers.
#[test]
fn counted_lower_lists() {
    let boxes: [(&[i16], usize); 6] =
        [(&[7], 9), (&[2, 1], 10), (&[2, 2], 20), (&[1, 1, 1], 20), (&[1, 1, 2], 50), (&[1, 1, 1, 1], 168)];
    for (corner, wanted) in boxes {
        let d = corner.len();
        let list = planner::corner_list(d, corner).unwrap();
        let rows: Vec<&[i16]> = list.chunks(d).collect();
        let chosen = |set: u32| -> Vec<i16> {
            rows.iter().enumerate().filter(|(i, _)| set >> i & 1 == 1).flat_map(|(_, row)| row.to_vec()).collect()
        };
        let lower = (0..1 << rows.len()).filter(|set| planner::is_lower(d, &chosen(*set)).unwrap()).count();
        assert_eq!(lower, wanted, "{corner:?}");
    }
}

/// A list for a search, of a few corners with small components, in any order.
fn small_lower_list(d: usize, random: &mut Random) -> Vec<i16> {
    loop {
        let count = 1 + random.below(3);
        let corners: Vec<i16> = (0..count * d).map(|_| random.pick(&[0, 0, 1, 1, 2, 3])).collect();
        let list = planner::corner_list(d, &corners).unwrap();
        if (2..=[6, 8, 7, 6][d - 1]).contains(&(list.len() / d)) {
            return shuffled(d, &list, random);
        }
    }
}

/// The searches on lower lists, where prefixes are dropped early, against every modulus and every vector in order; and on the same
/// lists without a row, which most often are not lower.
#[test]
fn searches_of_lower_lists() {
    let mut random = Random::new(18);
    let mut seen = [Seen::default(), Seen::default()];
    for turn in 0..400 {
        let plan = (turn % 5) as u8;
        let d = random.pick(&[1, 2, 2, 3, 3, 4]);
        let list = small_lower_list(d, &mut random);
        let fewer = without_row(d, &list, random.below(list.len() / d));
        let ceiling = 1 + random.below([40, 16, 8, 5][d - 1]) as u16;
        for rows in [list, fewer] {
            let c = Case { plan, d, rows, n: ceiling, z: vec![] };
            seen[0].add(&compare_search(Search::Vector, &c, d));
            seen[1].add(&compare_search(Search::Smallest, &c, d));
        }
    }
    for seen in &seen {
        seen.all_of(&[0, 9], 100);
    }
}

/// A list that is not lower and has the same admissible pairs as this lower one, where one is known. Under plan 0 the zero row does
/// not count. Under plan 1 all rows may be moved by the same. Under plans 2 and 3 the zero row forbids nothing that the others allow:
/// a mirror a - b of residue 0, its positive part a and its negative part b being rows of the list, gives a and b the same residue;
/// and where b is zero, a and its mirror -a.
fn equivalent_list(rule: Rule, d: usize, list: &[i16]) -> Option<Vec<i16>> {
    match rule {
        Rule::Fourier => Some(list.iter().map(|x| x + 1).collect()),
        Rule::CosineC => None,
        _ => Some(list.chunks(d).filter(|row| row.iter().any(|x| *x > 0)).flatten().copied().collect()),
    }
}

/// The smallest plan of a lower list and of one that is not lower, but has the same admissible pairs, is the same.
#[test]
fn lower_lists_and_others_alike() {
    let mut random = Random::new(19);
    let mut compared = [0; 5];
    for turn in 0..1000 {
        let rule = Rule::ALL[turn % 5];
        let c = any_corners(2 + random.below(4), &mut random);
        let Ok(list) = planner::corner_list(c.d, &c.corners) else { continue };
        let Some(other) = equivalent_list(rule, c.d, &list) else { continue };
        if !(2..=16).contains(&(list.len() / c.d)) {
            continue;
        }
        assert_eq!(compare_lower(c.d, &other), Ok(false));
        let plan = planner::search_smallest(rule, c.d, &list, MOST_MODULUS);
        assert_eq!(planner::search_smallest(rule, c.d, &other, MOST_MODULUS), plan, "{rule:?} {list:?}");
        compared[turn % 5] += 1;
    }
    assert!(compared[..4].iter().all(|count| *count > 10), "{compared:?}");
}

/// The examples that were made by corners: their rows are the list of the corners, in its order.
#[test]
fn example_tickets() {
    let degree = rows_of_degree(4, 3).concat();
    let mixed = [4, 0, 0, 0, 3, 0, 0, 0, 2, 1, 1, 1, 2, 1, 0];
    let examples: [(usize, &[i16], &str); 2] = [
        (4, &degree, include_str!("../../../examples/four-axes-degree-3-by-corners.request")),
        (3, &mixed, include_str!("../../../examples/three-axes-mixed-corners.request")),
    ];
    for (d, corners, text) in examples {
        let fields: Vec<i16> = text.split_whitespace().map(|field| field.parse().unwrap()).collect();
        let (line, rows) = fields.split_at(4);
        assert_eq!(rows_given(d, corners), Ok(line[2] as usize), "{text}");
        assert_eq!(compare_corners(&Corners::new(d, corners)).as_deref(), Ok(rows), "{text}");
        assert_eq!(line[1] as usize, d, "{text}");
    }
}

/// A slice of length 0 may have a null pointer, in every call: a list of no rows with its terms and its map, and what is then refused.
#[test]
fn null_pointers() {
    let z = [1u16, 2];
    for plan in 1..5 {
        let (mut yes, mut found, mut vector, mut sums) = (7, 9, [9; 2], [9; 5]);
        unsafe {
            assert_eq!(sys::planner_check(plan, 2, null(), 0, 5, z.as_ptr(), 2, &mut yes), 0);
            assert_eq!(sys::planner_residue_map(plan, 2, null(), 0, 5, z.as_ptr(), 2, null_mut(), 0), 0);
            let terms = null();
            assert_eq!(sys::planner_spread(plan, 2, null(), 0, 5, z.as_ptr(), 2, terms, 0, sums.as_mut_ptr(), 5), 0);
            let terms = null_mut();
            assert_eq!(sys::planner_gather(plan, 2, null(), 0, 5, z.as_ptr(), 2, sums.as_ptr(), 5, terms, 0), 0);
            assert_eq!(sys::planner_search_smallest(plan, 2, null(), 0, 5, vector.as_mut_ptr(), 2, &mut found), 0);
        }
        assert_eq!((yes, found, vector, sums), (1, 1, [0; 2], [0; 5]));
        unsafe {
            assert_eq!(sys::planner_search_vector(plan, 2, null(), 0, 5, vector.as_mut_ptr(), 2, &mut found), 0);
            assert_eq!(sys::planner_check(plan, 2, null(), 0, 5, null(), 0, &mut yes), 7);
            assert_eq!(sys::planner_point_list(plan, 2, 5, null(), 0, null_mut(), 0), 7);
            assert_eq!(sys::planner_point_list(plan, 2, 5, z.as_ptr(), 2, null_mut(), 0), 8);
            assert_eq!(sys::planner_spread(plan, 2, null(), 0, 5, z.as_ptr(), 2, null(), 0, null_mut(), 0), 8);
            assert_eq!(sys::planner_gather(plan, 2, null(), 0, 5, z.as_ptr(), 2, null(), 0, null_mut(), 0), 8);
            assert_eq!(sys::planner_search_smallest(plan, 2, null(), 0, 5, null_mut(), 0, &mut found), 8);
        }
        assert_eq!((yes, found, vector, sums), (1, 5, [0; 2], [0; 5]));

        let none = sys::PlannerTally { m: 0, size: 0, zero: 0 };
        let (row, mut m, mut size, mut zero) = ([1i16, 0], 9, 9, 9);
        unsafe {
            assert_eq!(sys::planner_tally_list(plan, 2, null(), 0, &mut m, &mut size, &mut zero), 0);
            assert_eq!((m, size, zero), (0, 0, 0));
            let row = row.as_ptr();
            assert_eq!(sys::planner_add_row(plan, 2, null(), 0, none, row, 2, &mut m, &mut size, &mut zero), 0);
            assert_eq!((m, size, zero), (1, if plan == 1 { 1 } else { 2 }, 0));
            let row = null();
            assert_eq!(sys::planner_add_row(plan, 2, null(), 0, none, row, 0, &mut m, &mut size, &mut zero), 3);
            assert_eq!((m, size, zero), (1, if plan == 1 { 1 } else { 2 }, 0));
        }
    }
}

/// The same of the corners, of their list's places, and of a list that may be lower.
#[test]
fn null_corners() {
    let (corner, mut out, mut count, mut yes) = ([1i16, 1], [7i16; 1024], 9, 9);
    unsafe {
        assert_eq!(sys::planner_corner_list(2, null(), 0, out.as_mut_ptr(), 1024, &mut count), 13);
        assert_eq!(sys::planner_corner_list(2, null(), 0, null_mut(), 0, &mut count), 13);
        assert_eq!(sys::planner_corner_list(0, null(), 0, null_mut(), 0, &mut count), 2);
        assert_eq!(sys::planner_corner_list(2, corner.as_ptr(), 2, null_mut(), 0, &mut count), 8);
        assert_eq!(sys::planner_is_lower(0, null(), 0, &mut yes), 2);
    }
    assert_eq!((out, count, yes), ([7; 1024], 9, 9));
    unsafe {
        assert_eq!(sys::planner_is_lower(2, null(), 0, &mut yes), 0);
    }
    assert_eq!(yes, 1);
}

/// The same of two vectors.
#[test]
fn null_vectors() {
    let z = [0u16];
    unsafe {
        assert_eq!(sys::planner_gentler(null(), 0, null(), 0), 0);
        assert_eq!(sys::planner_gentler(null(), 0, z.as_ptr(), 1), 0);
        assert_eq!(sys::planner_gentler(z.as_ptr(), 1, null(), 0), 1);
        assert_eq!(sys::planner_gentler(z.as_ptr(), 0, null(), 0), 0);
    }
}

/// What documents 01 and 02 print: the ten trial tickets and the ticket without terms, the lines below them, and the small example of
/// each refusal. Then the records and bounds of small lists, worked by hand.
#[test]
fn documented() {
    let rows = [0, 1, 2];
    let axes = [0, 0, 1, 0, 0, 1];
    type Ticket<'a> = (u8, usize, &'a [i16], u16, &'a [u16]);
    let tickets: [Ticket; 15] = [
        (1, 1, &rows, 3, &[1]),
        (2, 1, &rows, 5, &[1]),
        (3, 1, &rows, 5, &[1]),
        (4, 1, &rows, 4, &[1]),
        (1, 2, &axes, 3, &[1, 2]),
        (2, 2, &axes, 5, &[1, 2]),
        (4, 2, &axes, 4, &[1, 2]),
        (2, 2, &[1, 1], 5, &[1, 2]),
        (3, 2, &[1, 1], 3, &[1, 1]),
        (4, 2, &[1, 1], 1, &[0, 0]),
        (0, 2, &[], 1, &[0, 0]),
        (1, 2, &[], 1, &[0, 0]),
        (2, 2, &[], 1, &[0, 0]),
        (3, 2, &[], 1, &[0, 0]),
        (4, 2, &[], 1, &[0, 0]),
    ];
    for (plan, d, rows, n, z) in tickets {
        let c = Case::new(plan, d, rows, 12, &[]);
        assert_eq!(compare_search(Search::Smallest, &c, d), Ok((n, z.to_vec())), "{c:?}");
    }
    assert_eq!(compare_map(&Case::new(4, 1, &rows, 4, &[1]), 6), Ok(vec![0, 1, 1, 1, 2, 2]));
    assert_eq!(compare_map(&Case::new(4, 2, &[1, 1], 1, &[0, 0]), 2), Ok(vec![0, 4]));
    let six = |n| Case::new(0, 1, &[6], n, &[]);
    assert_eq!(compare_search(Search::Smallest, &six(4), 1), Ok((4, vec![1])));
    assert_eq!(compare_search(Search::Smallest, &six(3), 1), Err(9));
    assert_eq!(compare_search(Search::Vector, &six(5), 1), Ok((5, vec![1])));
    assert_eq!(compare_search(Search::Vector, &six(6), 1), Err(9));
    assert_eq!(compare_search(Search::Vector, &six(7), 1), Ok((7, vec![1])));
    assert_eq!(compare_spread(&Case::new(4, 1, &rows, 4, &[1]), &[5, -3, 2], 4), Ok(vec![5, -3, 4, -3]));
    assert_eq!(compare_points(&Case::new(1, 2, &[], 5, &[1, 2]), 10).unwrap()[6..8], [3, 1]);
    // what document 01 prints for line 3 under plan A is read at line 2 (document 02, d)
    assert_eq!(compare_points(&Case::new(2, 2, &[], 5, &[1, 2]), 6).unwrap()[4..6], [4, 2]);
    assert_eq!(compare_points(&Case::new(2, 2, &[], 5, &[1, 2]), 10), Err(8));

    assert_eq!(compare_check(&Case::new(5, 1, &rows, 4, &[1])), Err(1));
    assert_eq!(compare_check(&Case::new(1, 0, &rows, 4, &[1])), Err(2));
    assert_eq!(compare_check(&Case::new(1, 2, &[1, 0, 4], 4, &[1, 1])), Err(3));
    assert_eq!(compare_check(&Case::new(2, 1, &[-1], 4, &[1])), Err(4));
    assert_eq!(compare_check(&Case::new(1, 1, &[3, 3], 4, &[1])), Err(5));
    assert_eq!(compare_check(&Case::new(1, 1, &rows, 0, &[1])), Err(6));
    assert_eq!(compare_check(&Case::new(1, 1, &rows, 4, &[4])), Err(7));
    assert_eq!(compare_search(Search::Smallest, &Case::new(1, 2, &axes, 9, &[]), 3), Err(8));
    assert_eq!(compare_map(&Case::new(1, 1, &[0, 1], 2, &[0]), 4), Err(10));
    assert_eq!(compare_gather(&Case::new(4, 1, &rows, 4, &[1]), &[5, -3, 3, -3], 3), Err(11));

    // m, the size of M under plans 2 to 4, whether the zero row is in, and the bounds of plans 0 to 4
    type Counted<'a> = (usize, &'a [i16], Record, [u16; 5]);
    let lists: [Counted; 6] = [
        (1, &rows, (3, 5, true), [2, 3, 5, 5, 3]),
        (2, &axes, (3, 5, true), [2, 3, 5, 5, 3]),
        (2, &[1, 1], (1, 4, false), [2, 1, 5, 3, 1]),
        (1, &[0], (1, 1, true), [1, 1, 1, 1, 1]),
        (1, &[0, 6], (2, 3, true), [2, 2, 3, 3, 2]),
        (2, &[2, 1, 0, 3, 1, 1], (3, 10, false), [2, 3, 11, 7, 3]),
    ];
    for (d, rows, (m, size, zero), bounds) in lists {
        for (plan, bound) in (0..).zip(bounds) {
            let tally = (m, if plan < 2 { m } else { size }, zero);
            assert_eq!(compare_tally(plan, d, rows), Ok(tally), "{plan} {rows:?}");
            assert_eq!(compare_bound(plan, tally), Ok(bound), "{plan} {rows:?}");
        }
    }
}

/// The refusals have their numbers, and say what they are.
#[test]
fn refusals() {
    // 12 is the program's own
    assert_eq!(Refusal::ALL.map(Refusal::number), [1, 2, 3, 4, 5, 6, 7, 8, 9, 10, 11, 13]);
    for refusal in &Refusal::ALL {
        let error: &dyn std::error::Error = refusal;
        assert!(error.to_string().len() > 10);
    }
    for (i, rule) in Rule::ALL.iter().enumerate() {
        assert_eq!(Rule::try_from(i as u8), Ok(*rule));
    }
    assert_eq!(Rule::try_from(5), Err(Refusal::Plan));
}
