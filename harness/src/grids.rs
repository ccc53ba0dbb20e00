//! Whole grid calls beside the Rust's: number, marks, counts and every place of every lent slice; grids of which something is said; and the times of
//! both calls.
use crate::Point3D;
use crate::curve_math::bspline::{KnotVector, distinct_knots};
use crate::curves::fitting::pieces;
use crate::guarded::Guarded;
use crate::ladders::{MARKS, corner, degree, extra, fold, number, pole_count, word};
use crate::lightness;
use crate::ours::{self, GridLent};
use crate::points;
use crate::random::{Random, all_same};
use crate::surfaces::BSplineSurface;
use crate::surfaces::fitting::pieces as grid_pieces;
use crate::bench::{Timed, in_turn};
use crate::stack::Most;
use crate::tally::{self, Tally};
use std::hint::black_box;

pub mod wrapped;

const NAMES: [&str; 2] = ["approximate_grid", "approximate_grid_within"];
const DIRECTIONS: [&str; 2] = ["u", "v"];
const LINES: [&str; 2] = ["rows", "columns"];
const SLICES: [&str; 11] = [
    "poles", "u's flat knots", "u's knots", "u's multiplicities", "v's flat knots", "v's knots", "v's multiplicities", "work", "index", "largest", "counts",
];

/// One call: what is handed in, the pole counts where they are chosen, and by how many places each lent slice is longer than needed. Pairs are u, then v.
#[derive(Clone, Debug)]
struct Call {
    places: Vec<f64>,
    size: [usize; 2],
    degrees: [usize; 2],
    chosen: Option<[usize; 2]>,
    tolerance: f64,
    spacing: usize,
    factor: f64,
    extra: [i64; 11],
}

impl Call {
    fn entry(&self) -> usize {
        self.chosen.is_none() as usize
    }

    fn centripetal(&self) -> bool {
        self.spacing != 0
    }

    /// The rows of points; 0 stands for a missing place.
    fn lines(&self) -> Vec<Vec<Point3D>> {
        let ([rows, cols], place) = (self.size, |k: usize| self.places.get(k).copied().unwrap_or(0.0));
        let point = |k: usize| Point3D::new(place(3 * k), place(3 * k + 1), place(3 * k + 2));
        (0..rows).map(|i| (0..cols).map(|j| point(i * cols + j)).collect()).collect()
    }

    /// The lengths asked of the slices. A size above 66 asks no more than 66 does, a degree above 27 no more than 27.
    fn needed(&self) -> [usize; 11] {
        let ([r, c], [p, q]) = (self.size.map(|n| n.min(66)), self.degrees.map(|p| p.min(27)));
        let (u, v, most) = (r + p + 1, c + q + 1, r.max(c));
        [3 * r * c, u, u, u, v, v, v, 12 * r * c + most * (6 * p.max(q) + 24) + 128, 8 * most, 2, 8]
    }

    fn lengths(&self) -> [usize; 11] {
        let needed = self.needed();
        std::array::from_fn(|i| (needed[i] as i64 + self.extra[i]).max(0) as usize)
    }

    /// The call as a line.
    fn line(&self) -> String {
        let Call { size: [rows, cols], degrees: [p, q], chosen, tolerance, spacing, factor, extra, .. } = self;
        let (name, length, bits) = (NAMES[self.entry()], self.places.len(), [tolerance, factor].map(|x| x.to_bits()));
        let asked = chosen.map_or_else(|| format!("tolerance {tolerance:?} ({:016x})", bits[0]), |[m, n]| format!("{m} x {n} poles"));
        let given = format!("{name} of {rows} x {cols}, {length} places, degrees {p} and {q}, {asked}, spacing {spacing}");
        format!("{given}, factor {factor:?} ({:016x}), lengths beyond the needed {extra:?}", bits[1])
    }

    /// Its places as words, a line a point.
    fn words(&self) -> String {
        let line = |point: &[f64]| point.iter().map(|x| format!("{:016x} ", x.to_bits())).collect::<String>().trim_end().to_string() + "\n";
        self.places.chunks(3).map(line).collect()
    }
}

/// What is handed out of one direction, and what is measured of it.
#[derive(Default)]
struct Side {
    degree: usize,
    mark: usize,
    largest: f64,
    unreadable: usize,
    flat: Vec<f64>,
    knots: Vec<f64>,
    mults: Vec<u32>,
    fewer: bool,
    drops: bool,
}

impl Side {
    fn of(degree: usize, found: grid_pieces::Side) -> Side {
        let grid_pieces::Side { mark, fewer, flat, distances, drops, .. } = found;
        let (knots, mults) = distinct_knots(&flat);
        let unreadable = distances.iter().filter(|d| d.is_nan()).count();
        Side { degree, mark, largest: fold(&distances), unreadable, flat, knots, mults, fewer, drops }
    }

    fn poles(&self) -> usize {
        self.flat.len() - self.degree - 1
    }

    fn counts(&self) -> [usize; 4] {
        [self.mark, self.poles(), self.knots.len(), self.unreadable]
    }

    /// Whether an inner knot equals a neighbour.
    fn repeats(&self) -> bool {
        let ends = [0, self.mults.len() - 1];
        let single = |(i, m): (usize, &u32)| *m as usize <= if ends.contains(&i) { self.degree + 1 } else { 1 };
        !self.mults.iter().enumerate().all(single)
    }

    /// Whether a distinct knot is not above the one before it.
    fn falls(&self) -> bool {
        !self.knots.windows(2).all(|w| w[0] < w[1])
    }

    /// Whether the reader's Rust refuses the knots.
    fn unread(&self) -> bool {
        KnotVector::new(self.degree, self.knots.clone(), self.mults.clone(), false, self.poles()).is_err()
    }

}

/// The rare corners: whether a direction of a fit stands in each.
const RARE: [(&str, fn(&Side) -> bool); 9] = [
    ("spread below a refinement that fits", |side| side.fewer),
    ("unreadable deviations", |side| side.unreadable > 0),
    ("unreadable deviations, not interpolated", |side| side.unreadable > 0 && side.mark != 3),
    ("unreadable deviations, largest 0", |side| side.unreadable > 0 && side.largest == 0.0),
    ("largest infinite", |side| side.largest.is_infinite()),
    ("inner knots repeat", Side::repeats),
    ("distinct knots do not rise", Side::falls),
    ("the reader refuses the knots", Side::unread),
    ("a value outside the band", |side| side.drops),
];

#[derive(Default)]
struct Fit {
    sides: [Side; 2],
    poles: Vec<f64>,
}

/// A refusal: its number and what it is for.
#[derive(Clone, Copy, Debug, PartialEq, Eq, PartialOrd, Ord)]
struct Refusal {
    number: u32,
    of: &'static str,
}

const LENGTH: &str = "the length";
const FACTOR: &str = "the factor";
const COORDINATE: &str = "a coordinate";

impl Refusal {
    fn name(self) -> String {
        format!("{} for {}", self.number, self.of)
    }

    /// Whether it comes after the checks up to 10, so that work and index are cleared.
    fn cleared(self) -> bool {
        [3, 4, 5].contains(&self.number) || self.number == 6 && self.of != LENGTH
    }
}

type Answer = Result<Fit, Refusal>;

fn stop_if(cause: bool, number: u32, of: &'static str) -> Result<(), Refusal> {
    if cause { Err(Refusal { number, of }) } else { Ok(()) }
}

/// Document 01's checks up to 10 in their order for grids, with document 02's 17 before 10.
fn early(c: &Call) -> Result<(), Refusal> {
    for d in 0..2 {
        stop_if(c.size[d] > 64, 8, LINES[d])?;
    }
    for d in 0..2 {
        stop_if(!(1..=25).contains(&c.degrees[d]), 2, DIRECTIONS[d])?;
    }
    for d in 0..2 {
        stop_if(c.size[d] < 2, 1, LINES[d])?;
    }
    stop_if(c.places.len() != 3 * c.size[0] * c.size[1], 6, LENGTH)?;
    let (lent, needed) = (c.lengths(), c.needed());
    for slice in 0..11 {
        stop_if(lent[slice] < needed[slice], 9, SLICES[slice])?;
    }
    stop_if(lightness::refused(c.factor), 17, FACTOR)?;
    stop_if(points::too_far(&c.places), 10, COORDINATE)
}

/// Document 01's checks from 5 on, up to the steps.
fn late(c: &Call, lines: &[Vec<Point3D>]) -> Result<(), Refusal> {
    let ([rows, cols], centripetal) = (c.size, c.centripetal());
    stop_if(pieces::shared_parameters(cols, rows, |r, k| lines[k][r], centripetal).is_none(), 5, DIRECTIONS[0])?;
    stop_if(pieces::shared_parameters(rows, cols, |r, k| lines[r][k], centripetal).is_none(), 5, DIRECTIONS[1])?;
    for d in 0..2 {
        let count = c.chosen.map(|counts| counts[d]);
        stop_if(c.degrees[d] > count.map_or(c.size[d], |m| m.max(1)) - 1, 3, DIRECTIONS[d])?;
        stop_if(count.is_some_and(|m| m > c.size[d]), 4, DIRECTIONS[d])?;
    }
    Ok(())
}

fn published(c: &Call, lines: &[Vec<Point3D>]) -> Result<BSplineSurface, u32> {
    let ([p, q], spacing) = (c.degrees, pieces::spacing(c.centripetal()));
    let surface = match c.chosen {
        Some([m, n]) => BSplineSurface::approximate(lines, p, q, m, n, spacing),
        None => BSplineSurface::approximate_within(lines, p, q, c.tolerance, spacing),
    };
    surface.map_err(number)
}

/// The fit by its steps.
fn stepped(c: &Call, lines: &[Vec<Point3D>]) -> Answer {
    let found = grid_pieces::sides(lines, c.degrees, c.chosen, c.tolerance, c.centripetal());
    let [u, v] = found.map_err(|of| Refusal { number: 6, of })?;
    let poles = ours::places(&u.poles);
    Ok(Fit { sides: [Side::of(c.degrees[0], u), Side::of(c.degrees[1], v)], poles })
}

/// Whether the fit is that of a published call.
fn agree(fit: &Fit, surface: &BSplineSurface) -> bool {
    let knots = |side: &Side, (degree, flat): &(usize, Vec<f64>)| side.degree == *degree && all_same(&side.flat, flat);
    knots(&fit.sides[0], &surface.u) && knots(&fit.sides[1], &surface.v) && all_same(&fit.poles, &ours::places(&surface.poles))
}

/// Whether each direction that is refined or spread is within its tolerance.
fn within(c: &Call, fit: &Fit) -> bool {
    let tolerances = [c.tolerance, 0.8 * c.tolerance];
    fit.sides.iter().zip(tolerances).all(|(side, tolerance)| side.mark > 2 || side.largest <= tolerance)
}

/// The reference's answer: document 01's checks, then the published call where distances have the call's factor. The Rust has the early refusals 1 and 2 too.
fn answer(c: &Call) -> Answer {
    let Err(refusal) = early(c) else { return lightness::with(c.factor, || unrefused(c)) };
    let theirs = |number: u32| published(c, &c.lines()).err() == Some(number);
    assert!(![1, 2].contains(&refusal.number) || theirs(refusal.number), "the checks differ from the Rust's");
    Err(refusal)
}

/// That of a call that passes the checks up to 10: the further checks and the steps, which must agree with the published call.
fn unrefused(c: &Call) -> Answer {
    let lines = c.lines();
    let theirs = published(c, &lines);
    let answer = late(c, &lines).and_then(|_| stepped(c, &lines));
    match (&answer, &theirs) {
        (Ok(fit), Ok(surface)) => assert!(agree(fit, surface) && within(c, fit), "the steps differ from the published call"),
        (Err(refusal), Err(number)) => assert!(refusal.number == *number, "the checks differ from the Rust's"),
        _ => panic!("the steps differ from the published call"),
    }
    answer
}

/// What differs from the wanted answer after our call, if anything does.
fn difference(c: &Call, wanted: &Answer) -> Option<String> {
    let n = &c.lengths();
    let mut given = Guarded::new(c.places.len(), |k| c.places[k]);
    let mut doubles: [Guarded<f64>; 7] = [0, 1, 2, 4, 5, 7, 9].map(|slice| Guarded::filled(slice, n));
    let (mut u_mults, mut v_mults) = (Guarded::<u32>::filled(3, n), Guarded::<u32>::filled(6, n));
    let (mut index, mut counts) = (Guarded::<usize>::filled(8, n), Guarded::<usize>::filled(10, n));
    let [poles, u_flat, u_knots, v_flat, v_knots, work, largest] = &mut doubles;
    let mut lent = GridLent {
        poles: poles.slice(), u_flat: u_flat.slice(), u_knots: u_knots.slice(), u_mults: u_mults.slice(),
        v_flat: v_flat.slice(), v_knots: v_knots.slice(), v_mults: v_mults.slice(),
        work: work.slice(), index: index.slice(), largest: largest.slice(), counts: counts.slice(),
    };
    let number = ours::grid(given.slice(), c.size, c.degrees, c.chosen, c.tolerance, c.spacing, c.factor, &mut lent);
    let (right, cleared) = wanted.as_ref().err().map_or((0, true), |refusal| (refusal.number, refusal.cleared()));
    let none = Fit::default();
    let Fit { sides: [u, v], poles: poles_right } = wanted.as_ref().unwrap_or(&none);
    let zeros = |slice: usize| if cleared { n[slice] } else { 0 };
    let (most, measures) = if right == 0 { (vec![u.largest, v.largest], [u.counts(), v.counts()].concat()) } else { (vec![], vec![]) };
    (number != right)
        .then(|| format!("the number {number}, not {right}"))
        .or_else(|| counts.differs(SLICES[10], &measures))
        .or_else(|| largest.differs(SLICES[9], &most))
        .or_else(|| v_flat.differs(SLICES[4], &v.flat))
        .or_else(|| v_knots.differs(SLICES[5], &v.knots))
        .or_else(|| v_mults.differs(SLICES[6], &v.mults))
        .or_else(|| u_flat.differs(SLICES[1], &u.flat))
        .or_else(|| u_knots.differs(SLICES[2], &u.knots))
        .or_else(|| u_mults.differs(SLICES[3], &u.mults))
        .or_else(|| poles.differs(SLICES[0], poles_right))
        .or_else(|| work.differs(SLICES[7], &vec![0.0; zeros(7)]))
        .or_else(|| index.differs(SLICES[8], &vec![0; zeros(8)]))
        .or_else(|| given.differs("points", &[]))
}

/// The call without `drop` rows (d = 0) or columns (d = 1), the first or the last ones, and with so many fewer poles along them.
fn without(c: &Call, d: usize, drop: usize, first: bool, poles: usize) -> Call {
    let (cols, mut size) = (c.size[1], c.size);
    size[d] -= drop;
    let from = |e: usize| if e == d && first { drop } else { 0 };
    let kept = |k: usize, e: usize| k >= from(e) && k < from(e) + size[e];
    let points = c.places.chunks(3).enumerate().filter(|(k, _)| kept(k / cols, 0) && kept(k % cols, 1));
    let mut chosen = c.chosen;
    if let Some(counts) = &mut chosen {
        counts[d] = counts[d].saturating_sub(poles);
    }
    Call { places: points.flat_map(|(_, q)| q.to_vec()).collect(), size, chosen, ..c.clone() }
}

/// The call with fewer rows and columns from either end, and as many fewer poles or not, while it still differs.
fn fewer_lines(mut c: Call) -> Call {
    let whole = c.size.iter().all(|n| *n <= 64) && c.places.len() == 3 * c.size[0] * c.size[1];
    let mut drop = if whole { c.size[0].max(c.size[1]) / 2 } else { 0 };
    while drop > 0 {
        let tries = [(0, false, 0), (1, false, 0), (0, true, 0), (1, true, 0), (0, false, drop), (1, false, drop)];
        let fewer = tries.iter().filter(|&&(d, ..)| drop <= c.size[d]).map(|&(d, first, poles)| without(&c, d, drop, first, poles));
        match fewer.into_iter().find(|less| difference(less, &answer(less)).is_some()) {
            Some(less) => c = less,
            None => drop /= 2,
        }
    }
    c
}

/// Smaller calls: slices as long as needed, the factor 1, a lower degree, a coordinate 0 throughout, rounder numbers.
fn smaller(c: &Call) -> Vec<Call> {
    let mut calls = vec![Call { extra: [0; 11], ..c.clone() }, Call { spacing: c.spacing.min(1), ..c.clone() }, Call { spacing: 0, ..c.clone() }];
    calls.push(Call { factor: 1.0, ..c.clone() });
    for d in 0..2 {
        let mut lower = c.clone();
        lower.degrees[d] = lower.degrees[d].saturating_sub(1);
        calls.push(lower);
    }
    for i in 0..3 {
        let places = c.places.iter().enumerate().map(|(k, &x)| if k % 3 == i { 0.0 } else { x }).collect();
        calls.push(Call { places, ..c.clone() });
    }
    calls.extend(tally::rounder(&c.places).map(|places| Call { places, ..c.clone() }));
    calls.extend(tally::rounder(&[c.tolerance]).map(|tolerance| Call { tolerance: tolerance[0], ..c.clone() }));
    calls.extend(tally::rounder(&[c.factor]).map(|factor| Call { factor: factor[0], ..c.clone() }));
    calls.retain(|c| lightness::known(c.factor));
    calls
}

/// How much there is of a call: numbers beside the places, digits.
fn weight(c: &Call) -> (u64, usize) {
    let beside = c.extra.iter().map(|e| e.unsigned_abs()).sum::<u64>().saturating_add(c.spacing as u64);
    let beside = c.degrees.iter().fold(beside, |sum, &p| sum.saturating_add(p as u64)).saturating_add((c.factor != 1.0) as u64);
    (beside, tally::digits(&c.places) + tally::digits(&[c.tolerance, c.factor]))
}

/// A call that differs, and with its points the smallest found that does.
fn told(c: &Call, what: &str) -> String {
    let differs = |less: &Call| difference(less, &answer(less)).is_some();
    let less = tally::smallest(fewer_lines(c.clone()), smaller, weight, differs);
    let still = difference(&less, &answer(&less)).unwrap_or_default();
    format!("different: {what}\n{}\nsmallest: {still}\n{}\n{}", c.line(), less.line(), less.words())
}

/// How many rows and columns: mostly few.
fn size(random: &mut Random) -> [usize; 2] {
    let mut of = |most: usize| random.from_to(2, most);
    let (fewer, few, some) = ([of(5), of(5)], [of(12), of(12)], [of(32), of(32)]);
    match random.below(400) {
        0 => [64, 64],
        1 | 2 => [64, few[1]],
        3 | 4 => [few[0], 64],
        5..=12 => [random.from_to(33, 64), random.from_to(33, 64)],
        13..=100 => some,
        101..=180 => fewer,
        _ => few,
    }
}

/// A call of any kind with slices as long as needed.
fn usual(random: &mut Random) -> Call {
    let size = size(random);
    let points = points::any_grid(random, size[0], size[1]);
    let degrees = size.map(|n| degree(random, n));
    let chosen = [0, 1].map(|d| pole_count(random, size[d], degrees[d]));
    plain(ours::places(&points), size, degrees, Some(chosen))
}

/// A call whose rows or columns stand in a rare corner of ladders or near it.
fn cornered(random: &mut Random) -> Call {
    let (ladder, degree, count, tolerance) = loop {
        let found = corner(random);
        if (2..=64).contains(&found.0.len()) {
            break found;
        }
    };
    let (rows, cols) = (random.from_to(2, 6), ladder.len());
    let other: Vec<Point3D> = (0..rows).map(|i| Point3D::new(0.0, 0.0, i as f64 * 2.0)).collect();
    let points = if random.one_in(3) { points::summed(&other, &ladder) } else { points::lone(random, rows, &ladder) };
    let p = random.from_to(1, rows - 1);
    let (m, tolerance) = (random.from_to(p + 1, rows), *random.of(&[tolerance, tolerance / 0.8, -1.0, f64::NAN]));
    let upright = Call { tolerance, ..plain(ours::places(&points), [rows, cols], [p, degree], Some([m, count])) };
    if random.one_in(2) {
        return upright;
    }
    let places = ours::places(&points::turned(&points, cols, rows));
    Call { places, size: [cols, rows], degrees: [degree, p], chosen: Some([count, m]), ..upright }
}

/// A tolerance at which a deviation of some fit of the grid stands, or refinement's halfway mark does, or a neighbour of these.
fn occurring(random: &mut Random, c: &Call) -> Option<f64> {
    if (0..2).any(|d| !(1..=c.size[d].min(26) - 1).contains(&c.degrees[d])) {
        return None;
    }
    let counts = [0, 1].map(|d| random.from_to(c.degrees[d] + 1, c.size[d]));
    let tolerance = 10f64.powi(3 - random.below(9) as i32);
    let (c, lines) = (Call { chosen: (!random.one_in(3)).then_some(counts), tolerance, ..c.clone() }, c.lines());
    late(&c, &lines).ok()?;
    let [u, v] = grid_pieces::sides(&lines, c.degrees, c.chosen, c.tolerance, c.centripetal()).ok()?;
    let both = fold(&u.distances).max(fold(&v.distances) / 0.8);
    let (distances, of) = if random.one_in(2) { (u.distances, 1.0) } else { (v.distances, 0.8) };
    let (one, largest) = (*random.of(&distances), fold(&distances));
    let at = *random.of(&[one / of, (2.0 * one - largest) / of, largest / of, both, both]);
    Some(*random.of(&[at, at.next_up(), at.next_down()]))
}

/// A tolerance with which a direction is spread, where a few tries find one.
fn spreading(random: &mut Random, c: &Call) -> Option<f64> {
    let lines = c.lines();
    (0..8).find_map(|_| {
        let tolerance = occurring(random, c)?;
        let [u, v] = grid_pieces::sides(&lines, c.degrees, None, tolerance, c.centripetal()).ok()?;
        [u.mark, v.mark].contains(&2).then_some(tolerance)
    })
}

/// How far two of the points stand apart.
fn apart(random: &mut Random, c: &Call) -> f64 {
    let lines = c.lines();
    let mut point = || { let line = random.of(&lines); *random.of(line) };
    point().distance(point())
}

/// A tolerance of any kind.
fn tolerance(random: &mut Random, c: &Call) -> f64 {
    const ODD: [f64; 12] = [f64::NAN, f64::INFINITY, f64::NEG_INFINITY, -1.0, 0.0, -0.0, 5e-324, -5e-324, 1e-310, f64::MIN_POSITIVE, f64::MAX, f64::MIN];
    match random.below(8) {
        0 => *random.of(&ODD),
        1 => random.double(),
        2 => random.unit() * 10f64.powi(6 - random.below(18) as i32),
        3 => random.unit() * apart(random, c),
        4 | 5 => spreading(random, c).unwrap_or(1e-3),
        _ => occurring(random, c).unwrap_or(1e-3),
    }
}

/// A row or a column that repeats the one before it, or all points at one place.
fn confuse(random: &mut Random, c: &mut Call) {
    let ([rows, cols], whole) = (c.size, random.one_in(3));
    let d = random.from_to(0, 1);
    let at = random.from_to(1, c.size[d] - 1);
    for k in (0..rows * cols).filter(|k| whole || [k / cols, k % cols][d] == at) {
        let from = if whole { 0 } else { k - [cols, 1][d] };
        c.places.copy_within(3 * from..3 * from + 3, 3 * k);
    }
}

/// Another number of rows or columns, with the points for it or not.
fn resize(random: &mut Random, c: &mut Call, d: usize) {
    let n = c.size[d];
    c.size[d] = *random.of(&[0, 1, 1, 63, 64, 65, 65, 66, n - 1, n + 1, usize::MAX, (1 << 32) + n, 1 << 63]);
    if c.size.iter().all(|n| *n <= 66) && random.one_in(2) {
        c.places.resize(3 * c.size[0] * c.size[1], 0.25);
    }
}

/// One part of a call made odd.
fn damage(random: &mut Random, c: &mut Call) {
    const FAR: [f64; 9] = [1e6, -1e6, 1000000.0000000001, -1000000.0000000001, f64::NAN, f64::INFINITY, f64::NEG_INFINITY, f64::MAX, -2e6];
    let (d, length) = (random.from_to(0, 1), c.places.len());
    let n = c.size[d];
    match random.below(8) {
        0 | 1 if length > 0 => c.places[random.from_to(0, length - 1)] = *random.of(&FAR),
        2 => c.places.truncate(length.saturating_sub(*random.of(&[1, 2, 3, length]))),
        3 => c.places.resize(length + random.from_to(1, 3), 1.0),
        4 => c.degrees[d] = *random.of(&[0, n.max(1) - 1, n, 25, 26, 27, usize::MAX]),
        5 => if let Some(counts) = &mut c.chosen { counts[d] = *random.of(&[0, c.degrees[d], n, n.saturating_add(1), usize::MAX]) },
        6 if (2..=64).contains(&n) => resize(random, c, d),
        _ if c.size.iter().all(|n| (2..=64).contains(n)) && length == 3 * c.size[0] * c.size[1] => confuse(random, c),
        _ => c.places.push(1.0),
    }
}

/// Any call, at the factor that distances have.
fn call(random: &mut Random) -> Call {
    let near_a_corner = random.one_in(5);
    let mut c = if near_a_corner { cornered(random) } else { usual(random) };
    c.factor = lightness::factor();
    c.spacing = *random.of(&[0, 0, 0, 1, 1, 2, usize::MAX]);
    if !near_a_corner || random.one_in(3) {
        c.tolerance = tolerance(random, &c);
    }
    if random.below(3) > 0 {
        c.chosen = None;
    }
    if random.one_in(10) {
        (0..random.from_to(1, 3)).for_each(|_| damage(random, &mut c));
    }
    c.extra = extra(random, &c.needed());
    c
}

/// Any call, at any factor.
fn any(random: &mut Random) -> Call {
    let (factor, mut c) = lightness::drawn(random, call);
    if lightness::refused(factor) {
        lightness::beside(random, &mut c.places, &mut c.extra);
    }
    Call { factor, ..c }
}

/// Whether a column (d = 0) or a row (d = 1) is no longer than the bound, and so is skipped.
fn skips(c: &Call, d: usize) -> bool {
    let lines = c.lines();
    let point = |r: usize, k: usize| if d == 0 { lines[k][r] } else { lines[r][k] };
    let length = |r: usize| (1..c.size[d]).fold(0.0, |sum, k| sum + point(r, k).distance(point(r, k - 1)));
    (0..c.size[1 - d]).any(|r| length(r) <= crate::tol::CONFUSION)
}

const CALLS: &str = "grid calls";
const REFUSALS: &str = "grid refusals";
const PAIRS: &str = "grid marks of u and v";
const ALONG: [&str; 2] = ["grid marks along u", "grid marks along v"];
const CORNERS: [&str; 2] = ["grid corners along u", "grid corners along v"];
const SIZES: [&str; 2] = ["grid rows", "grid columns"];
const DEGREES: [&str; 2] = ["degrees of grid fits along u", "degrees of grid fits along v"];
const SHORT: &str = "grid calls with a slice too short";
const SKIPPED: &str = "a line is skipped";
const FACTORS: &str = "grid factors";

/// What a report shows, none of it met.
pub fn expected() -> Tally {
    let both = [(8, LINES), (2, DIRECTIONS), (1, LINES), (5, DIRECTIONS), (3, DIRECTIONS), (4, DIRECTIONS), (6, LINES)];
    let refusals = both.iter().flat_map(|&(number, of)| of.map(|of| (number, of))).chain([(6, LENGTH), (17, FACTOR), (10, COORDINATE)]).chain(SLICES.map(|of| (9, of)));
    let pairs = (1..4).flat_map(|u| (1..4).map(move |v| (u, v))).chain([(4, 4)]);
    let tally = Tally::default().expect(CALLS, NAMES.into_iter().chain([SHORT])).expect(PAIRS, pairs.map(|(u, v)| pair(u, v)));
    let mut tally = lightness::expected(tally, FACTORS).expect(REFUSALS, refusals.map(|(number, of)| Refusal { number, of }.name()));
    for d in 0..2 {
        let corners = RARE.iter().map(|(name, _)| *name).chain([SKIPPED]);
        tally = tally.expect(ALONG[d], &MARKS[1..]).expect(CORNERS[d], corners).expect(SIZES[d], 0..=66).expect(DEGREES[d], 1..=25);
    }
    tally
}

fn pair(u: usize, v: usize) -> String {
    format!("{} and {}", MARKS[u], MARKS[v])
}

fn count(tally: &mut Tally, c: &Call, answer: &Answer) {
    tally.count(CALLS, NAMES[c.entry()], 1);
    tally.count(CALLS, SHORT, c.extra.iter().any(|&e| e < 0) as u64);
    lightness::count(tally, FACTORS, c.factor, &c.places, answer.as_ref().err().map_or(0, |refusal| refusal.number));
    for d in 0..2 {
        tally.count(SIZES[d], &if c.size[d] <= 66 { c.size[d].to_string() } else { "over 66".into() }, 1);
    }
    match answer {
        Err(refusal) => tally.count(REFUSALS, &refusal.name(), 1),
        Ok(fit) => count_fit(tally, c, fit),
    }
}

fn count_fit(tally: &mut Tally, c: &Call, fit: &Fit) {
    tally.count(PAIRS, &pair(fit.sides[0].mark, fit.sides[1].mark), 1);
    for (d, side) in fit.sides.iter().enumerate() {
        tally.count(ALONG[d], MARKS[side.mark], 1);
        tally.count(DEGREES[d], &side.degree.to_string(), 1);
        tally.count(CORNERS[d], SKIPPED, lightness::with(c.factor, || skips(c, d)) as u64);
        RARE.iter().for_each(|(name, stands)| tally.count(CORNERS[d], name, stands(side) as u64));
    }
}

/// A call and its answer as words, with one word for every NaN.
fn words(c: &Call, answer: &Answer) -> Vec<u64> {
    let numbers = |list: &[f64]| list.iter().map(|&x| word(x)).collect::<Vec<u64>>();
    let [m, n] = c.chosen.map_or([u64::MAX; 2], |counts| counts.map(|m| m as u64));
    let mut words = [c.size, c.degrees].as_flattened().iter().map(|&n| n as u64).chain([m, n, word(c.tolerance), c.spacing as u64]).collect::<Vec<u64>>();
    words.extend(numbers(&c.places));
    match answer {
        Err(refusal) => words.push(refusal.number as u64),
        Ok(fit) => {
            words.push(0);
            for side in &fit.sides {
                words.extend(side.counts().map(|n| n as u64));
                words.push(word(side.largest));
                words.extend([&side.flat, &side.knots].map(|list| numbers(list)).concat());
                words.extend(side.mults.iter().map(|&m| m as u64));
            }
            words.extend(numbers(&fit.poles));
        }
    }
    words
}

/// A call at the factor 1 and its answer as words, counted.
pub fn answered(random: &mut Random, tally: &mut Tally) -> Vec<u64> {
    let c = call(random);
    let answer = answer(&c);
    count(tally, &c, &answer);
    words(&c, &answer)
}

/// Makes and counts a call; what differs from the Rust's, if anything does.
pub fn one(random: &mut Random, tally: &mut Tally) -> Option<String> {
    let c = any(random);
    let wanted = answer(&c);
    count(tally, &c, &wanted);
    difference(&c, &wanted).map(|what| told(&c, &what))
}

pub fn compare(count: u64, seed: u64) -> u64 {
    tally::run("grids", count, seed, expected(), |random, _, tally| (1, one(random, tally)))
}

/// A call with something that is said of its answer.
struct Trial {
    what: &'static str,
    call: Call,
    said: Box<dyn Fn(&Answer) -> bool>,
}

fn trial(what: &'static str, call: Call, said: impl Fn(&Answer) -> bool + 'static) -> Trial {
    Trial { what, call, said: Box::new(said) }
}

/// It is refused with this number.
fn gives(number: u32) -> impl Fn(&Answer) -> bool {
    move |answer| answer.as_ref().is_err_and(|refusal| refusal.number == number)
}

/// It is a fit with this mark along both directions and so many poles.
fn marked(mark: usize, poles: usize) -> impl Fn(&Answer) -> bool {
    move |answer| answer.as_ref().is_ok_and(|fit| fit.sides.iter().all(|side| side.mark == mark && side.poles() == poles))
}

fn fits(answer: &Answer) -> bool {
    answer.is_ok()
}

/// A chordal call with tolerance 0, the factor 1 and slices as long as needed.
fn plain(places: Vec<f64>, size: [usize; 2], degrees: [usize; 2], chosen: Option<[usize; 2]>) -> Call {
    Call { places, size, degrees, chosen, tolerance: 0.0, spacing: 0, factor: 1.0, extra: [0; 11] }
}

/// Points one apart.
fn even([rows, cols]: [usize; 2]) -> Vec<f64> {
    (0..rows).flat_map(|i| (0..cols).flat_map(move |j| [i as f64, j as f64, 0.0])).collect()
}

/// What is said of both calls, with either spacing: sizes, degrees, coordinates.
fn stated(choose: bool, spacing: usize) -> Vec<Trial> {
    let of = |size: [usize; 2], degrees: [usize; 2]| Call { spacing, ..plain(even(size), size, degrees, choose.then_some(size)) };
    let placed = |c: Call, k: usize, x: f64| { let mut c = c; c.places[k] = x; c };
    let equal = |size: [usize; 2], degrees: [usize; 2]| { let mut c = of(size, degrees); c.places.fill(0.5); c };
    let gap = |x: f64| Call { places: vec![0.0, 0.0, 0.0, x, 0.0, 0.0, 0.0, 1.0, 0.0, x, 1.0, 0.0], ..of([2, 2], [1, 1]) };
    let length = |n: usize| Call { places: vec![0.0; n], ..of([3, 4], [1, 1]) };
    vec![
        trial("1 by 2, degree 0", of([1, 2], [0, 1]), gives(2)),
        trial("1 by 2, degree 0 along v", of([1, 2], [1, 0]), gives(2)),
        trial("1 by 2", of([1, 2], [1, 1]), gives(1)),
        trial("2 by 1", of([2, 1], [1, 1]), gives(1)),
        trial("0 by 0", of([0, 0], [1, 1]), gives(1)),
        trial("65 by 2, degree 0", of([65, 2], [0, 1]), gives(8)),
        trial("2 by 65", of([2, 65], [1, 1]), gives(8)),
        trial("2^64 - 1 by 2", Call { size: [usize::MAX, 2], ..of([2, 2], [1, 1]) }, gives(8)),
        trial("2^63 by 2, no places", Call { size: [1 << 63, 2], places: vec![], ..of([2, 2], [1, 1]) }, gives(8)),
        trial("64 by 64", of([64, 64], [3, 2]), fits),
        trial("degree 26", of([27, 27], [26, 1]), gives(2)),
        trial("degree 2^64 - 1 along v", of([3, 3], [1, usize::MAX]), gives(2)),
        trial("degree 25, 25 rows", of([25, 2], [25, 1]), gives(3)),
        trial("degree 25, 25 columns", of([2, 25], [1, 25]), gives(3)),
        trial("35 places for 3 by 4", length(35), gives(6)),
        trial("37 places for 3 by 4", length(37), gives(6)),
        trial("no places for 3 by 4", length(0), gives(6)),
        trial("coordinate 1,000,000", placed(of([3, 4], [1, 2]), 2, 1e6), fits),
        trial("coordinate just below -1,000,000", placed(of([3, 4], [1, 2]), 35, -1e6f64.next_up()), gives(10)),
        trial("equal points, degree too high", equal([3, 4], [3, 4]), gives(5)),
        trial("equal points, one too far", placed(equal([3, 4], [1, 1]), 7, 2e6), gives(10)),
        trial("rows of length 1e-7", gap(1e-7), gives(5)),
        trial("rows just longer than 1e-7", gap(1e-7f64.next_up()), fits),
        trial("longer slices", Call { extra: [1, 2, 3, 4, 5, 6, 7, 8, 9, 10, 11], ..of([3, 4], [2, 3]) }, fits),
    ]
}

/// Each slice one short, alone and beside other causes.
fn short(choose: bool) -> Vec<Trial> {
    let of = |extra: [i64; 11], degrees: [usize; 2]| Call { extra, ..plain(even([4, 5]), [4, 5], degrees, choose.then_some([4, 5])) };
    let trials = |slice: usize| {
        let mut extra = [2; 11];
        extra[slice] = -1;
        let far = Call { places: vec![2e6; 60], ..of(extra, [1, 1]) };
        [
            trial("a slice one short", of(extra, [3, 2]), gives(9)),
            trial("a slice one short, a degree too high", of(extra, [7, 7]), gives(9)),
            trial("a slice one short, a coordinate too far", far.clone(), gives(9)),
            trial("a slice one short, the length wrong", Call { places: vec![0.0; 59], ..far }, gives(6)),
        ]
    };
    (0..11).flat_map(trials).collect()
}

/// What is said of one of the calls.
fn stated_once() -> Vec<Trial> {
    let two = |tolerance: f64, spacing: usize| Call { tolerance, spacing, ..plain(even([2, 2]), [2, 2], [1, 1], None) };
    let chosen = |degrees: [usize; 2], counts: [usize; 2]| plain(even([4, 5]), [4, 5], degrees, Some(counts));
    let mut trials = vec![
        trial("5 poles along u", chosen([2, 2], [5, 5]), gives(4)),
        trial("6 poles along v", chosen([2, 2], [4, 6]), gives(4)),
        trial("2^64 - 1 poles along v", chosen([2, 2], [4, usize::MAX]), gives(4)),
        trial("0 poles", chosen([1, 1], [0, 0]), gives(3)),
        trial("too many poles along u, degree too high along v", chosen([1, 3], [5, 3]), gives(4)),
        trial("degree too high along u, too many poles along v", chosen([3, 1], [3, 6]), gives(3)),
        trial("as many poles as points", chosen([2, 2], [4, 5]), fits),
    ];
    for spacing in 0..2 {
        trials.push(trial("two by two, tolerance 0", two(0.0, spacing), marked(1, 2)));
        trials.push(trial("two by two, tolerance -1", two(-1.0, spacing), marked(3, 2)));
        trials.push(trial("two by two, tolerance NaN", two(f64::NAN, spacing), marked(3, 2)));
    }
    trials
}

/// What document 02's request Five says of both calls, with either spacing.
fn stated_factors(choose: bool, spacing: usize) -> Vec<Trial> {
    let of = |factor: f64, size: [usize; 2], degrees: [usize; 2]| Call { spacing, factor, ..plain(even(size), size, degrees, choose.then_some(size)) };
    let bad = |size: [usize; 2], degrees: [usize; 2]| of(f64::NAN, size, degrees);
    let upright = |x: f64| Call { places: (0..12).flat_map(|k| [0.0, (k / 4 * (k / 4)) as f64, (k % 4) as f64]).collect(), ..of(x, [3, 4], [1, 2]) };
    let short = |d: usize, factor: f64, x: f64| {
        let mut points = [[0.0, 0.0, 0.0], [x, 0.0, 0.0], [0.0, 1.0, 0.0], [x, 1.0, 0.0]];
        points[1..3].rotate_left(d);
        Call { places: points.concat(), ..of(factor, [2, 2], [1, 1]) }
    };
    let mut trials: Vec<Trial> = lightness::OUTSIDE.iter().map(|&x| trial("no factor", of(x, [3, 4], [1, 2]), gives(17))).collect();
    trials.extend(lightness::WITHIN.iter().map(|&x| trial("a factor, each first coordinate 0", upright(x), fits)));
    trials.extend([
        trial("factor NaN, 65 by 2", bad([65, 2], [1, 1]), gives(8)),
        trial("factor NaN, degree 26", bad([27, 27], [1, 26]), gives(2)),
        trial("factor NaN, 1 by 2", bad([1, 2], [1, 1]), gives(1)),
        trial("factor NaN, 3 places for 3 by 4", Call { places: vec![0.0; 3], ..bad([3, 4], [1, 1]) }, gives(6)),
        trial("factor NaN, coordinates too far", Call { places: vec![2e6; 36], ..bad([3, 4], [1, 1]) }, gives(17)),
        trial("factor NaN, equal points", Call { places: vec![0.5; 36], ..bad([3, 4], [1, 1]) }, gives(17)),
        trial("factor NaN, a degree too high", bad([3, 4], [3, 1]), gives(17)),
    ]);
    for d in 0..2 {
        trials.extend([
            trial("lines of length 4e-7, factor 0.25", short(d, 0.25, 4e-7), gives(5)),
            trial("lines just longer than 4e-7, factor 0.25", short(d, 0.25, 4e-7f64.next_up()), fits),
            trial("lines of length 2.5e-8, factor 4", short(d, 4.0, 2.5e-8), gives(5)),
            trial("lines just longer than 2.5e-8, factor 4", short(d, 4.0, 2.5e-8f64.next_up()), fits),
            trial("lines of length 4e-7, the factor after 0.25", short(d, 0.25f64.next_up(), 4e-7), fits),
            trial("lines of length 2.5e-8, the factor before 4", short(d, 4.0f64.next_down(), 2.5e-8), gives(5)),
        ]);
    }
    for slice in 0..11 {
        let mut extra = [2; 11];
        extra[slice] = -1;
        trials.push(trial("factor NaN, a slice one short", Call { extra, ..bad([4, 5], [1, 1]) }, gives(9)));
    }
    trials
}

/// All that is said of single grids with other factors than 1, where this build has a reference.
fn factor_trials() -> Vec<Trial> {
    let both = [false, true].into_iter().flat_map(|choose| [0, 1].map(|spacing| (choose, spacing)));
    let mut trials: Vec<Trial> = both.flat_map(|(choose, spacing)| stated_factors(choose, spacing)).collect();
    trials.retain(|t| lightness::known(t.call.factor) || lightness::exact(&t.call.places, t.call.factor));
    trials
}

/// The answer by the Rust at the factor 1, where the factor rounds no first coordinate: they are multiplied beforehand, and the poles' divided.
fn multiplied(c: &Call) -> Answer {
    let fit = answer(&Call { places: lightness::multiplied(&c.places, c.factor), factor: 1.0, ..c.clone() })?;
    Ok(Fit { poles: lightness::multiplied(&fit.poles, 1.0 / c.factor), ..fit })
}

/// The reference's answer to a trial, by either way that there is, and by both where there are both.
fn tried(c: &Call) -> Answer {
    if !lightness::known(c.factor) {
        return multiplied(c);
    }
    let answer = answer(c);
    let alike = || words(c, &multiplied(c)) == words(c, &answer);
    assert!(!lightness::exact(&c.places, c.factor) || alike(), "the distance's factor gives another answer than multiplied coordinates");
    answer
}

/// All that is said of single grids.
fn trials() -> Vec<Trial> {
    let mut trials = stated_once();
    for choose in [false, true] {
        (0..2).for_each(|spacing| trials.extend(stated(choose, spacing)));
        trials.extend(short(choose));
    }
    trials
}

/// Grids of which something is said: each answer is the Rust's, and what is said of it holds.
pub fn compare_stated() -> u64 {
    let (mut trials, mut different) = (trials(), 0);
    trials.extend(factor_trials());
    for Trial { what, call, said } in &trials {
        let wanted = tried(call);
        let unlike = (!said(&wanted)).then(|| format!("the Rust's answer is {:?}", wanted.as_ref().err()));
        if let Some(text) = unlike.or_else(|| difference(call, &wanted)) {
            different += 1;
            println!("different: {what}, {}, factor {:?}: {text}", NAMES[call.entry()], call.factor);
        }
    }
    println!("{} grids to try: {different} different", trials.len());
    different
}

/// A grid whose times are taken, smooth or noisy; where counts are chosen, half as many poles as points along each direction.
fn timed(choose: bool, n: usize, noisy: bool) -> Call {
    let mut random = Random::new(7);
    let mut noise = |size: f64| if noisy { size * random.unit() } else { 0.0 };
    let mut point = |k: usize| {
        let (u, v) = ((k / n) as f64 / n as f64, (k % n) as f64 / n as f64);
        [u + noise(0.01), v + noise(0.01), (u * 5.0).sin() * (v * 3.0).cos() + noise(0.3)]
    };
    let places = (0..n * n).flat_map(&mut point).collect();
    let tolerance = if noisy { 1e-2 } else { 1e-5 };
    Call { tolerance, spacing: 1, ..plain(places, [n, n], [3, 3], choose.then_some([n / 2, n / 2])) }
}

/// Slices as long as the call lends them.
struct Owned {
    doubles: [Vec<f64>; 7],
    mults: [Vec<u32>; 2],
    index: Vec<usize>,
    counts: Vec<usize>,
}

impl Owned {
    fn new(c: &Call) -> Owned {
        let n = c.lengths();
        let doubles = [0, 1, 2, 4, 5, 7, 9].map(|slice| vec![0.0; n[slice]]);
        Owned { doubles, mults: [3, 6].map(|slice| vec![0; n[slice]]), index: vec![0; n[8]], counts: vec![0; n[10]] }
    }

    /// Our call with them.
    fn run(&mut self, c: &Call) -> u32 {
        let ([poles, u_flat, u_knots, v_flat, v_knots, work, largest], [u_mults, v_mults]) = (&mut self.doubles, &mut self.mults);
        let (index, counts) = (&mut self.index, &mut self.counts);
        let mut lent = GridLent { poles, u_flat, u_knots, u_mults, v_flat, v_knots, v_mults, work, index, largest, counts };
        ours::grid(black_box(&c.places), c.size, c.degrees, c.chosen, c.tolerance, c.spacing, c.factor, &mut lent)
    }
}

/// The Rust giving the same answer as our call, where its own call computes no deviation.
fn measured(c: &Call, lines: &[Vec<Point3D>]) -> Option<grid_pieces::Measured> {
    grid_pieces::approximate_measured(lines, c.degrees, c.chosen?, c.centripetal())
}

/// The seconds of our call, of the Rust's, and of the Rust giving the same answer.
fn times(c: &Call, fit: &Fit) -> (f64, f64, Option<f64>) {
    let (mut owned, lines) = (Owned::new(c), c.lines());
    let mut mine = || { black_box(owned.run(c)); };
    let mut theirs = || { let _ = black_box(published(black_box(c), &lines)); };
    let Some(same) = measured(c, &lines) else {
        let [mine, theirs] = in_turn([&mut mine, &mut theirs]);
        return (mine, theirs, None);
    };
    let [u, v] = &fit.sides;
    assert!(all_same(&same.flat[0], &u.flat) && all_same(&same.flat[1], &v.flat) && all_same(&ours::places(&same.poles), &fit.poles));
    assert!(all_same(&same.largest, &[u.largest, v.largest]) && same.distinct[0].1 == u.mults && same.distinct[1].1 == v.mults);
    let mut whole = || { let _ = black_box(measured(black_box(c), &lines)); };
    let [mine, theirs, whole] = in_turn([&mut mine, &mut theirs, &mut whole]);
    (mine, theirs, Some(whole))
}

/// The stack of the grids to try, of large ones with high degrees, and of others.
pub fn stack(random: &mut Random, most: &mut Most) {
    let mut calls: Vec<Call> = trials().into_iter().map(|trial| trial.call).collect();
    for (choose, degree) in [true, false].into_iter().flat_map(|choose| [1, 3, 24, 25].map(|degree| (choose, degree))) {
        for noisy in [false, true] {
            let c = Call { degrees: [degree; 2], ..timed(choose, 64, noisy) };
            calls.extend([1.0, 1e-2, 1e-5, f64::NAN].map(|tolerance| Call { tolerance, spacing: 0, ..c.clone() }));
            calls.push(c);
        }
    }
    calls.extend((0..2_000).map(|_| call(random)));
    for c in &calls {
        let mut owned = Owned::new(c);
        most.measure(NAMES[c.entry()], || c.line(), &mut || { black_box(owned.run(c)); });
    }
}

pub fn bench() -> Vec<Timed> {
    let mut all = vec![];
    for n in [8, 16, 33, 64] {
        for (choose, noisy) in [(true, false), (true, true), (false, false), (false, true)] {
            let c = timed(choose, n, noisy);
            let Ok(fit) = answer(&c) else { panic!("a timed grid is refused") };
            let (mine, theirs, same) = times(&c, &fit);
            let (name, kind) = (NAMES[c.entry()], if noisy { "noisy" } else { "smooth" });
            let [u, v] = fit.sides.map(|side| format!("{} with {}", MARKS[side.mark], side.poles()));
            let timed = Timed { what: format!("{name}, {kind}, {n} x {n}, degree 3, {u} and {v} poles"), mine, theirs, same };
            timed.tell();
            all.push(timed);
        }
    }
    all
}
