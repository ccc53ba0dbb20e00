//! Whole ladder calls beside the Rust's: number, mark, counts and every place of every lent slice; document 01's ladders to try; a list of calls with
//! the Rust's answers; and the times of three of the calls.
use crate::Point3D;
use crate::curve_math::bspline::KnotVector;
use crate::curves::fitting::pieces;
use crate::curves::{BSplineConstructionError as Error, BSplineCurve3D};
use crate::guarded::Guarded;
use crate::lightness;
use crate::ours::{self, APPROXIMATE, INTERPOLATE, Lent, SEARCH, WITHIN};
use crate::points;
use crate::random::{Random, all_same};
use crate::bench::{Timed, in_turn};
use crate::stack::Most;
use crate::tally::{self, Tally};
use std::collections::BTreeMap;
use std::hint::black_box;

pub mod archived;
pub mod cards;
pub mod wrapped;

const NAMES: [&str; 4] = ["interpolate", "approximate", "approximate_within", "search_spread"];
pub const MARKS: [&str; 5] = ["", "refined", "spread", "interpolated", "chosen"];

/// One call: which of the four, what is handed in, and by how many places each lent slice is longer than needed.
#[derive(Clone, Debug)]
struct Call {
    entry: usize,
    places: Vec<f64>,
    degree: usize,
    count: usize,
    tolerance: f64,
    spacing: usize,
    factor: f64,
    extra: [i64; 8],
}

impl Call {
    fn points(&self) -> Vec<Point3D> {
        self.places.chunks_exact(3).map(|q| Point3D::new(q[0], q[1], q[2])).collect()
    }

    /// The lengths asked of poles, flat knots, knots, multiplicities, work, index, largest and counts. A degree above 27 asks no more than 27 does.
    fn needed(&self) -> [usize; 8] {
        let (n, p) = (self.places.len() / 3, self.degree.min(27));
        let k = n + p + 1;
        [3 * n, k, k, k, 4 * p * n + 16 * n + 64, 4 * n, 1, 4]
    }

    fn lengths(&self) -> [usize; 8] {
        let needed = self.needed();
        std::array::from_fn(|i| (needed[i] as i64 + self.extra[i]).max(0) as usize)
    }

    /// The call as a line.
    fn line(&self) -> String {
        let Call { entry, degree, count, tolerance, spacing, factor, extra, .. } = self;
        let (name, length, bits) = (NAMES[*entry], self.places.len(), [tolerance, factor].map(|x| x.to_bits()));
        let given = format!("{name} of {length} places, degree {degree}, poles {count}, tolerance {tolerance:?} ({:016x}), spacing {spacing}", bits[0]);
        format!("{given}, factor {factor:?} ({:016x}), lengths beyond the needed {extra:?}", bits[1])
    }

    /// Its places as words, a line a point.
    fn words(&self) -> String {
        let line = |point: &[f64]| point.iter().map(|x| format!("{:016x} ", x.to_bits())).collect::<String>().trim_end().to_string() + "\n";
        self.places.chunks(3).map(line).collect()
    }
}

/// A fit with its mark's number, 1 to 4, what is measured of it, whether it interpolates and leaves out a value outside its band, whether a lone first
/// parameter asked for its neighbours on the way, and whether the search passed over a count that fits.
#[derive(Default)]
struct Fit {
    mark: usize,
    largest: f64,
    unreadable: usize,
    poles: Vec<f64>,
    flat: Vec<f64>,
    knots: Vec<f64>,
    mults: Vec<u32>,
    drops: bool,
    lone: bool,
    passed_over: bool,
}

impl Fit {
    fn degree(&self) -> usize {
        self.flat.len() - self.poles.len() / 3 - 1
    }

    /// Whether an inner knot equals a neighbour.
    fn repeats(&self) -> bool {
        let ends = [0, self.mults.len() - 1];
        let single = |(i, m): (usize, &u32)| *m as usize <= if ends.contains(&i) { self.degree() + 1 } else { 1 };
        !self.mults.iter().enumerate().all(single)
    }

    /// Whether a distinct knot is not above the one before it.
    fn falls(&self) -> bool {
        !self.knots.windows(2).all(|w| w[0] < w[1])
    }

    /// Whether a distinct knot is listed twice.
    fn relists(&self) -> bool {
        self.falls() && self.knots.iter().enumerate().any(|(i, knot)| self.knots[..i].contains(knot))
    }

    /// Whether the reader's Rust refuses the knots.
    fn unread(&self) -> bool {
        KnotVector::new(self.degree(), self.knots.clone(), self.mults.clone(), false, self.poles.len() / 3).is_err()
    }

    /// Whether it was spread or its count chosen.
    fn even(&self) -> bool {
        [2, 4].contains(&self.mark)
    }
}

/// The rare corners: whether a fit of so many points stands in each.
const RARE: [(&str, fn(&Fit, usize) -> bool); 16] = [
    ("unreadable deviations", |fit, _| fit.unreadable > 0),
    ("unreadable deviations, not interpolated", |fit, _| fit.unreadable > 0 && fit.mark != 3),
    ("all unreadable, largest 0", |fit, n| fit.unreadable == n && fit.largest == 0.0),
    ("largest infinite", |fit, _| fit.largest.is_infinite()),
    ("averaged knots repeat", |fit, _| fit.mark == 3 && fit.repeats()),
    ("averaged knots fall", |fit, _| fit.mark == 3 && fit.falls()),
    ("averaged knots that the reader refuses", |fit, _| fit.mark == 3 && fit.unread()),
    ("refined knots that the reader refuses", |fit, _| fit.mark == 1 && fit.unread()),
    ("spread or chosen knots repeat", |fit, _| fit.even() && fit.repeats()),
    ("spread or chosen knots that the reader refuses", |fit, _| fit.even() && fit.unread()),
    ("a knot listed again", |fit, _| fit.relists()),
    ("a value outside the band", |fit, _| fit.drops),
    ("a pole not finite", |fit, _| fit.poles.iter().any(|x| !x.is_finite())),
    ("a pole at -0.0", |fit, _| fit.poles.iter().any(|x| *x == 0.0 && x.is_sign_negative())),
    ("a lone first parameter asks for its neighbours", |fit, _| fit.lone),
    ("the search passes over a count that fits (seen up to 16 points)", |fit, _| fit.passed_over),
];

/// A fit, or the number of a refusal.
type Answer = Result<Fit, u32>;

/// Document 01's number of what the Rust answers.
pub fn number(e: Error) -> u32 {
    match e {
        Error::TooFewPoints => 1,
        Error::InvalidDegree => 2,
        Error::DegreeTooHigh => 3,
        Error::TooManyPoles => 4,
        Error::ConfusedPoints => 5,
        Error::PoleCountMismatch => 6,
        other => panic!("no number for {other:?}"),
    }
}

/// Document 01's checks up to 10 in their order for ladders, with document 02's 17 before 10; 0 where none refuses.
fn refused(c: &Call) -> u32 {
    let (n, chosen) = (c.places.len() / 3, c.entry == APPROXIMATE);
    if c.places.len() % 3 != 0 {
        return 7;
    }
    if n > 1024 {
        return 8;
    }
    if n < 2 {
        return 1;
    }
    if c.degree < 1 || c.degree > 25 {
        return 2;
    }
    if c.degree > if chosen { c.count.max(1) } else { n } - 1 {
        return 3;
    }
    if chosen && c.count > n {
        return 4;
    }
    if c.lengths().iter().zip(c.needed()).any(|(&lent, needed)| lent < needed) {
        return 9;
    }
    if lightness::refused(c.factor) {
        return 17;
    }
    if points::too_far(&c.places) {
        return 10;
    }
    0
}

/// The published call; the spread search alone refuses where `interpolate` does.
fn published(c: &Call, points: &[Point3D]) -> Result<BSplineCurve3D, u32> {
    let spacing = pieces::spacing(c.spacing != 0);
    let curve = match c.entry {
        APPROXIMATE => BSplineCurve3D::approximate(points, c.degree, c.count, spacing),
        WITHIN => BSplineCurve3D::approximate_within(points, c.degree, c.tolerance, spacing),
        _ => BSplineCurve3D::interpolate(points, c.degree, spacing),
    };
    curve.map_err(number)
}

/// The steps of the call in their order: the mark of the first that gives a fit, with its flat knots and poles. `lone` is told as by `pieces::refined`.
fn stepped(c: &Call, points: &[Point3D], params: &[f64], lone: &mut bool) -> Option<(usize, pieces::Parts)> {
    let mut refined = || pieces::refined(points, params, c.degree, c.tolerance, lone).map(|fit| (1, fit));
    let spread = || pieces::spread(points, params, c.degree, c.tolerance).map(|fit| (2, fit));
    let interpolated = || Some((3, pieces::interpolated(points, params, c.degree)));
    match c.entry {
        INTERPOLATE => interpolated(),
        APPROXIMATE => pieces::chosen(points, params, c.degree, c.count).map(|fit| (4, fit)),
        WITHIN => refined().or_else(spread).or_else(interpolated),
        _ => spread().or_else(interpolated),
    }
}

/// Whether a smaller count than the spread search found, or any where it found none, is within the tolerance too.
fn passed_over(c: &Call, points: &[Point3D], params: &[f64], (mark, count): (usize, usize)) -> bool {
    let searched = c.entry >= WITHIN && mark != 1 && points.len() <= 16;
    searched && (c.degree + 1..count).any(|count| pieces::passes(points, params, c.degree, count, c.tolerance))
}

/// Folded from 0, NaN passed over.
pub fn fold(deviations: &[f64]) -> f64 {
    deviations.iter().fold(0.0f64, |a, &d| a.max(d))
}

/// The reference's answer: document 01's checks, then the published call where distances have the call's factor. The Rust has the refusals 1 to 4 too.
fn answer(c: &Call) -> Answer {
    let refusal = refused(c);
    if refusal == 0 {
        return lightness::with(c.factor, || unrefused(c));
    }
    assert!(refusal > 4 || published(c, &c.points()).err() == Some(refusal), "the checks differ from the Rust's");
    Err(refusal)
}

/// That of a call that passes the checks up to 10: the published call, with mark and measures by its steps. The two must agree.
fn unrefused(c: &Call) -> Answer {
    let points = c.points();
    let theirs = published(c, &points);
    let params = pieces::point_parameters(&points, c.spacing != 0).ok_or(5u32);
    let mut lone = false;
    let fit = params.and_then(|params| {
        let (mark, parts) = stepped(c, &points, &params, &mut lone).ok_or(6u32)?;
        let drops = mark == 3 && pieces::drops_values(&params, c.degree, &parts.0);
        let passed_over = passed_over(c, &points, &params, (mark, parts.1.len()));
        Ok((mark, drops, passed_over, pieces::deviations(&points, &params, c.degree, &parts), parts))
    });
    let (mark, drops, passed_over, deviations, (flat, poles)) = match (fit, &theirs) {
        (Ok(fit), Ok(_)) => fit,
        (Err(a), Err(b)) if a == *b => return Err(a),
        _ => panic!("the steps differ from the published call"),
    };
    let (knots, mults) = pieces::compress_knots(&flat);
    let unreadable = deviations.iter().filter(|d| d.is_nan()).count();
    let fit = Fit { mark, largest: fold(&deviations), unreadable, poles: ours::places(&poles), flat, knots, mults, drops, lone, passed_over };
    let chosen = || published(&Call { entry: APPROXIMATE, count: poles.len(), ..c.clone() }, &points);
    let curve = if c.entry == SEARCH && mark == 2 { chosen() } else { theirs };
    assert!(curve.is_ok_and(|curve| agree(&fit, &curve)), "the steps differ from the published call");
    Ok(fit)
}

/// Whether the fit is that of a published call.
fn agree(fit: &Fit, curve: &BSplineCurve3D) -> bool {
    let knots = all_same(&fit.flat, &curve.flat) && all_same(&fit.knots, &curve.knots) && fit.mults == curve.mults;
    knots && all_same(&fit.poles, &ours::places(&curve.poles))
}

/// What differs from the wanted answer after our call, if anything does.
fn difference(c: &Call, wanted: &Answer) -> Option<String> {
    let n = &c.lengths();
    let mut given = Guarded::new(c.places.len(), |k| c.places[k]);
    let (mut poles, mut flat, mut knots) = (Guarded::<f64>::filled(0, n), Guarded::<f64>::filled(1, n), Guarded::<f64>::filled(2, n));
    let (mut mults, mut work, mut index) = (Guarded::<u32>::filled(3, n), Guarded::<f64>::filled(4, n), Guarded::<usize>::filled(5, n));
    let (mut largest, mut counts) = (Guarded::<f64>::filled(6, n), Guarded::<usize>::filled(7, n));
    let mut lent = Lent {
        poles: poles.slice(), flat: flat.slice(), knots: knots.slice(), mults: mults.slice(),
        work: work.slice(), index: index.slice(), largest: largest.slice(), counts: counts.slice(),
    };
    let number = ours::ladder(c.entry, given.slice(), c.degree, c.count, c.tolerance, c.spacing, c.factor, &mut lent);
    let (right, none) = (wanted.as_ref().err().copied().unwrap_or(0), Fit::default());
    let fit = wanted.as_ref().unwrap_or(&none);
    let cleared = [0, 5, 6].contains(&right);
    let zeros = |length: usize| if cleared { length } else { 0 };
    let measures = if right == 0 { 1 } else { 0 };
    (number != right)
        .then(|| format!("the number {number}, not {right}"))
        .or_else(|| counts.differs("counts", &[fit.mark, fit.poles.len() / 3, fit.knots.len(), fit.unreadable][..4 * measures]))
        .or_else(|| largest.differs("largest", &[fit.largest][..measures]))
        .or_else(|| flat.differs("flat knots", &fit.flat))
        .or_else(|| knots.differs("knots", &fit.knots))
        .or_else(|| mults.differs("multiplicities", &fit.mults))
        .or_else(|| poles.differs("poles", &fit.poles))
        .or_else(|| work.differs("work", &vec![0.0; zeros(n[4])]))
        .or_else(|| index.differs("index", &vec![0; zeros(n[5])]))
        .or_else(|| given.differs("points", &[]))
}

/// The call with fewer points from either end, and as many fewer poles or not, while it still differs.
fn halved(mut c: Call) -> Call {
    let mut drop = c.places.len() / 6;
    while drop > 0 {
        let end = c.places.len() - (3 * drop).min(c.places.len());
        let tries = [(3 * drop.min(c.places.len() / 3), c.places.len(), 0), (0, end, 0), (0, end, drop)];
        let shorter = tries.iter().find_map(|&(from, to, poles)| {
            let less = Call { places: c.places[from..to].to_vec(), count: c.count.saturating_sub(poles), ..c.clone() };
            difference(&less, &answer(&less)).map(|_| less)
        });
        match shorter {
            Some(less) => c = less,
            None => drop /= 2,
        }
        drop = drop.min(c.places.len() / 3);
    }
    c
}

/// Smaller calls: slices as long as needed, what is not used left out, the factor 1, a point less, a lower degree, a coordinate 0 throughout, rounder numbers.
fn smaller(c: &Call) -> Vec<Call> {
    let (n, unused) = (c.places.len() / 3, (c.entry != APPROXIMATE, c.entry < WITHIN));
    let mut calls = vec![Call { extra: [0; 8], ..c.clone() }, Call { spacing: c.spacing.min(1), ..c.clone() }, Call { spacing: 0, ..c.clone() }];
    calls.push(Call { count: if unused.0 { 0 } else { c.count }, tolerance: if unused.1 { 0.0 } else { c.tolerance }, ..c.clone() });
    calls.push(Call { factor: 1.0, ..c.clone() });
    calls.push(Call { degree: c.degree.saturating_sub(1), ..c.clone() });
    for (k, fewer) in (0..n).flat_map(|k| [(k, 0), (k, 1)]) {
        let places = [&c.places[..3 * k], &c.places[3 * k + 3..]].concat();
        calls.push(Call { places, count: c.count.saturating_sub(fewer), ..c.clone() });
    }
    for i in 0..3 {
        let places = c.places.iter().enumerate().map(|(k, &x)| if k % 3 == i { 0.0 } else { x }).collect();
        calls.push(Call { places, ..c.clone() });
    }
    calls.extend(tally::rounder(&c.places).map(|places| Call { places, ..c.clone() }));
    calls.extend(tally::rounder(&[c.tolerance]).map(|tolerance| Call { tolerance: tolerance[0], ..c.clone() }));
    calls.extend(tally::rounder(&[c.factor]).map(|factor| Call { factor: factor[0], ..c.clone() }));
    calls.retain(|c| lightness::known(c.factor));
    calls
}

/// How much there is of a call: places, numbers beside them, digits.
fn weight(c: &Call) -> (usize, u64, usize) {
    let beside = c.extra.iter().map(|e| e.unsigned_abs()).sum::<u64>().saturating_add(c.spacing as u64);
    let beside = beside.saturating_add(c.degree as u64).saturating_add(if c.entry == APPROXIMATE { 0 } else { c.count as u64 });
    let beside = beside.saturating_add((c.factor != 1.0) as u64);
    (c.places.len(), beside, tally::digits(&c.places) + tally::digits(&[c.tolerance, c.factor]))
}

/// A call that differs, and with its points the smallest found that does.
fn told(c: &Call, what: &str) -> String {
    let differs = |less: &Call| difference(less, &answer(less)).is_some();
    let less = tally::smallest(halved(c.clone()), smaller, weight, differs);
    let still = difference(&less, &answer(&less)).unwrap_or_default();
    format!("different: {what}\n{}\nsmallest: {still}\n{}\n{}", c.line(), less.line(), less.words())
}

/// How many points: mostly few.
fn size(random: &mut Random) -> usize {
    match random.below(400) {
        0 | 1 => 1024,
        2..=7 => random.from_to(101, 1023),
        8..=13 => *random.of(&[0, 1, 1025, 1026]),
        14..=39 => random.from_to(31, 100),
        40..=119 => random.from_to(2, 5),
        _ => random.from_to(2, 30),
    }
}

/// A degree: mostly one that n points allow.
pub fn degree(random: &mut Random, n: usize) -> usize {
    let most = n.max(2) - 1;
    match random.below(20) {
        0 => *random.of(&[0, 26, 27, n, usize::MAX, usize::MAX / 2, (1 << 32) + 1]),
        1 | 2 => random.from_to(0, 27),
        3..=7 => random.from_to(1, most.min(25)),
        _ => random.from_to(1, most.min(5)),
    }
}

/// A pole count: mostly one that n points and the degree allow.
pub fn pole_count(random: &mut Random, n: usize, degree: usize) -> usize {
    match random.below(12) {
        0 => random.from_to(0, n + 2),
        1 => *random.of(&[0, 1, degree, n, n + 1, usize::MAX, (1 << 32) + n]),
        _ => random.from_to(degree.min(n.max(1) - 1) + 1, n.max(1)),
    }
}

/// k, or a number near it.
fn near(random: &mut Random, k: usize, by: usize) -> usize {
    if random.one_in(2) { k } else { random.from_to(k.saturating_sub(by), k + by) }
}

/// The points of a rare corner or of a neighbour of it, with its degree, pole count and tolerance. At another factor than 1 short steps along the first axis are
/// divided by it.
pub fn corner(random: &mut Random) -> (Vec<Point3D>, usize, usize, f64) {
    let factor = lightness::factor();
    let plane = |n: usize, y: &mut dyn FnMut(usize) -> f64| (0..n).map(|k| Point3D::new(k as f64 / factor, y(k), 0.0)).collect::<Vec<_>>();
    match random.below(10) {
        0 => {
            let (n, bump) = (near(random, 5, 2), random.from_to(0, 14));
            let y = plane(n, &mut |k| if k == bump { 1.0 } else { [0.0, 2.0, 2.0, 3.0, 0.0][k % 5] });
            (y, near(random, 1, 1).max(1), n - 1, 0.5)
        }
        1 => {
            let n = near(random, 5, 3);
            let foot = near(random, n / 2, 1);
            (plane(n, &mut |k| k.abs_diff(foot) as f64), near(random, 1, 1).max(1), foot + 1, 1e-9)
        }
        2 => {
            let (n, gap) = (near(random, 3, 1), 1e-7 * (1.0 + 0.1 * near(random, 1, 1) as f64));
            let mut points = plane(n, &mut |_| 0.0);
            points.iter_mut().skip(1).for_each(|q| q.x -= (1.0 - gap) / factor);
            points.iter_mut().skip(2).for_each(|q| q.x -= gap / factor);
            (points, n - 1, n, 1e-8)
        }
        3 => (points::alternating(near(random, 1, 1), near(random, 3, 2).max(2), near(random, 1, 1)), near(random, 3, 2), near(random, 5, 1), 1.0),
        4 => (points::alternating(near(random, 2, 1), near(random, 16, 3), near(random, 0, 1)), near(random, 16, 3), near(random, 18, 1), 1.0),
        5 => (points::alternating(near(random, 29, 4), near(random, 5, 3).max(2), near(random, 0, 1)), near(random, 2, 1).max(1), near(random, 30, 4), 1e-3),
        6 => (points::alternating(near(random, 43, 5), near(random, 8, 3), near(random, 0, 1)), near(random, 2, 1).max(1), near(random, 40, 9), 1e-3),
        7 | 8 => (points::alternating(near(random, 41, 5), near(random, 11, 3), near(random, 0, 2)), near(random, 2, 1).max(1), near(random, 40, 9), 1e5),
        _ if random.one_in(8) => {
            let size = *random.of(&[9e5, 9e5, 1e6, 8e5, 7.5e5]);
            let across = 1.7320508 * ((factor * factor + 2.0) / 3.0).sqrt();
            let within = (size * across * (0.95 + 0.01 * random.below(7) as f64)).round();
            (points::swinging(near(random, 254, 9), size, near(random, 4, 2)), near(random, 1, 1).max(1), near(random, 200, 50), within)
        }
        _ => (points::alternating(near(random, 70, 15), random.from_to(2, 14), near(random, 0, 2)), near(random, 1, 1).max(1), near(random, 60, 9), 1e5),
    }
}

/// A deviation that some fit of the points has, or a number with which refinement's halfway mark meets one, or a neighbour of these.
fn occurring(random: &mut Random, points: &[Point3D], degree: usize, centripetal: bool) -> Option<f64> {
    let n = points.len();
    if !(2..=1024).contains(&n) || !(1..n.min(26)).contains(&degree) {
        return None;
    }
    let params = pieces::point_parameters(points, centripetal)?;
    let fit = if random.one_in(2) {
        pieces::chosen(points, &params, degree, random.from_to(degree + 1, n))?
    } else {
        let length = points[0].distance(points[n / 2]);
        pieces::refined(points, &params, degree, length * 10f64.powi(-(random.below(9) as i32)), &mut false)?
    };
    let deviations = pieces::deviations(points, &params, degree, &fit);
    let (one, largest) = (*random.of(&deviations), fold(&deviations));
    let at = *random.of(&[one, 2.0 * one - largest, largest, largest, largest]);
    Some(*random.of(&[at, at.next_up(), at.next_down()]))
}

/// A tolerance of any kind.
fn tolerance(random: &mut Random, points: &[Point3D], degree: usize, centripetal: bool) -> f64 {
    const ODD: [f64; 12] = [f64::NAN, f64::INFINITY, f64::NEG_INFINITY, -1.0, 0.0, -0.0, 5e-324, -5e-324, 1e-310, f64::MIN_POSITIVE, f64::MAX, f64::MIN];
    match random.below(8) {
        0 => *random.of(&ODD),
        1 => random.double(),
        2 | 3 => random.unit() * 10f64.powi(6 - random.below(18) as i32),
        _ => occurring(random, points, degree, centripetal).unwrap_or(1e-3),
    }
}

/// One part of a call made odd.
fn damage(random: &mut Random, c: &mut Call) {
    const FAR: [f64; 9] = [1e6, -1e6, 1000000.0000000001, -1000000.0000000001, f64::NAN, f64::INFINITY, f64::NEG_INFINITY, f64::MAX, -2e6];
    let n = c.places.len() / 3;
    match random.below(6) {
        0 | 1 if n > 0 => c.places[random.from_to(0, 3 * n - 1)] = *random.of(&FAR),
        2 => c.places.truncate(c.places.len().saturating_sub(random.from_to(1, 2))),
        3 => c.degree = *random.of(&[0, n.max(1) - 1, n, 25, 26, 27, usize::MAX]),
        4 => c.count = *random.of(&[0, c.degree, n + 1, n + 2, usize::MAX]),
        _ if n > 1 => {
            let k = 3 * random.from_to(1, n - 1);
            c.places.copy_within(k - 3..k, k);
        }
        _ => c.places.push(1.0),
    }
}

/// By how much each lent slice is longer than needed: mostly not at all, or by a few places; sometimes one is one short, or some are nearly empty.
pub fn extra<const N: usize>(random: &mut Random, needed: &[usize; N]) -> [i64; N] {
    let longer = random.one_in(3);
    let mut extra = std::array::from_fn(|_| if longer { random.below(7) as i64 } else { 0 });
    match random.below(24) {
        0 | 1 => extra[random.from_to(0, N - 1)] = -1,
        2 => extra.iter_mut().zip(needed).for_each(|(e, &length)| if random.one_in(4) { *e = random.below(4) as i64 - length as i64 }),
        _ => {}
    }
    extra
}

/// Any call, at the factor that distances have.
fn call(random: &mut Random) -> Call {
    let entry = random.from_to(0, 3);
    let spacing = *random.of(&[0, 0, 0, 1, 1, 2, usize::MAX]);
    let (points, degree, count, usual) = if random.one_in(4) {
        let (points, degree, count, tolerance) = corner(random);
        (points, degree, count, random.one_in(2).then_some(tolerance))
    } else {
        let n = size(random);
        let mut points = points::ladder(random, n.max(2));
        points.truncate(n);
        let degree = degree(random, n);
        (points, degree, pole_count(random, n, degree), None)
    };
    let tolerance = usual.unwrap_or_else(|| tolerance(random, &points, degree, spacing != 0));
    let factor = lightness::factor();
    let mut c = Call { entry, places: ours::places(&points), degree, count, tolerance, spacing, factor, extra: [0; 8] };
    if random.one_in(10) {
        (0..random.from_to(1, 3)).for_each(|_| damage(random, &mut c));
    }
    c.extra = extra(random, &c.needed());
    c
}

/// A call of which two points are about as far apart as the bound.
fn close(random: &mut Random) -> Call {
    let c = call(random);
    let n = (c.places.len() / 3).clamp(2, 1024);
    Call { places: ours::places(&points::close(random, n)), ..c }
}

/// Any call, at any factor.
fn any(random: &mut Random) -> Call {
    let (factor, mut c) = lightness::drawn(random, |random| if random.one_in(20) { close(random) } else { call(random) });
    if lightness::refused(factor) {
        lightness::beside(random, &mut c.places, &mut c.extra);
    }
    Call { factor, ..c }
}

/// The refusal's number, or 100 and the mark's.
fn class(answer: &Answer) -> usize {
    answer.as_ref().map_or_else(|&number| number as usize, |fit| 100 + fit.mark)
}

fn class_name(class: usize) -> String {
    if class < 100 { class.to_string() } else { MARKS[class - 100].into() }
}

const CALLS: &str = "ladder calls";
const ANSWERS: &str = "ladder marks and refusals";
const CORNERS: &str = "ladder corners";
const POINTS: &str = "ladder points";
const DEGREES: &str = "degrees of ladder fits";
const SHORT: &str = "a slice too short";
const FACTORS: &str = "ladder factors";

/// Two neighbours whose distance is the bound of coincidence or a neighbour of it.
const BOUNDS: [(&str, f64); 3] = [
    ("a distance just below the bound", crate::tol::CONFUSION.next_down()), ("a distance at the bound", crate::tol::CONFUSION),
    ("a distance just above the bound", crate::tol::CONFUSION.next_up()),
];

/// What a report shows, none of it met.
pub fn expected() -> Tally {
    let refusals = (1..=10).chain([17]).chain(101..105).map(class_name);
    let corners = RARE.iter().map(|(name, _)| *name).chain(BOUNDS.map(|(name, _)| name)).chain([SHORT]);
    let tally = Tally::default().expect(CALLS, NAMES).expect(ANSWERS, refusals).expect(CORNERS, corners);
    lightness::expected(tally, FACTORS).expect(POINTS, 0..=1026).expect(DEGREES, 1..=25)
}

fn count(tally: &mut Tally, c: &Call, answer: &Answer) {
    let n = c.places.len() / 3;
    tally.count(CALLS, NAMES[c.entry], 1);
    tally.count(ANSWERS, &class_name(class(answer)), 1);
    tally.count(POINTS, &n.to_string(), 1);
    tally.count(CORNERS, SHORT, c.extra.iter().any(|&e| e < 0) as u64);
    lightness::count(tally, FACTORS, c.factor, &c.places, answer.as_ref().err().copied().unwrap_or(0));
    if refused(c) == 0 {
        let nearest = lightness::with(c.factor, || c.points().windows(2).map(|w| w[1].distance(w[0])).fold(f64::INFINITY, f64::min));
        BOUNDS.iter().for_each(|(name, distance)| tally.count(CORNERS, name, (nearest == *distance) as u64));
    }
    let Ok(fit) = answer else { return };
    tally.count(DEGREES, &c.degree.to_string(), 1);
    RARE.iter().for_each(|(name, stands)| tally.count(CORNERS, name, stands(fit, n) as u64));
}

/// A call at the factor 1 and its answer as words, counted.
pub fn answered(random: &mut Random, tally: &mut Tally) -> Vec<u64> {
    let c = call(random);
    let answer = answer(&c);
    count(tally, &c, &answer);
    words(&c, &answer)
}

/// Makes and counts a call; what differs from the Rust's, if anything does.
pub fn one(random: &mut Random, tally: &mut Tally) -> Option<String> {
    let c = any(random);
    let wanted = answer(&c);
    count(tally, &c, &wanted);
    difference(&c, &wanted).map(|what| told(&c, &what))
}

pub fn compare(count: u64, seed: u64) -> u64 {
    tally::run("ladders", count, seed, expected(), |random, _, tally| (1, one(random, tally)))
}

/// A call with something that is said of its answer.
struct Trial {
    what: &'static str,
    call: Call,
    said: Box<dyn Fn(&Answer) -> bool>,
}

fn trial(what: &'static str, call: Call, said: impl Fn(&Answer) -> bool + 'static) -> Trial {
    Trial { what, call, said: Box::new(said) }
}

/// It is refused with this number.
fn gives(number: u32) -> impl Fn(&Answer) -> bool {
    move |answer| answer.as_ref().err() == Some(&number)
}

/// It is a fit of which this holds.
fn fits(holds: impl Fn(&Fit) -> bool) -> impl Fn(&Answer) -> bool {
    move |answer| answer.as_ref().is_ok_and(&holds)
}

/// A chordal call with tolerance 0, the factor 1 and slices as long as needed; where a pole count is chosen it is as many as points.
fn plain(entry: usize, places: Vec<f64>, degree: usize) -> Call {
    let count = if entry == APPROXIMATE { places.len() / 3 } else { 0 };
    Call { entry, places, degree, count, tolerance: 0.0, spacing: 0, factor: 1.0, extra: [0; 8] }
}

/// Places of points on the first axis.
fn on_axis(xs: &[f64]) -> Vec<f64> {
    xs.iter().flat_map(|&x| [x, 0.0, 0.0]).collect()
}

/// Places of points with these second coordinates, one apart along the first axis.
fn steps(ys: &[f64]) -> Vec<f64> {
    ys.iter().enumerate().flat_map(|(k, &y)| [k as f64, y, 0.0]).collect()
}

/// n points one apart.
fn line(n: usize) -> Vec<f64> {
    steps(&vec![0.0; n])
}

/// Document 01's ladders to try, of one call and spacing.
fn stated(entry: usize, spacing: usize) -> Vec<Trial> {
    let of = |places: Vec<f64>, degree: usize| Call { spacing, ..plain(entry, places, degree) };
    let up = |x: f64| x.next_up();
    let constant = |n: usize| of(vec![0.5; 3 * n], 3);
    let far = |x: f64| of(steps(&[0.0, x, 0.0, 5.0]), 2);
    let mut trials = vec![
        trial("one point, degree 0", of(line(1), 0), gives(1)),
        trial("no point", of(line(0), 1), gives(1)),
        trial("degree 25, 25 points", of(line(25), 25), gives(3)),
        trial("degree 26, 27 points", of(line(27), 26), gives(2)),
        trial("degree 0, 2 points", of(line(2), 0), gives(2)),
        trial("degree 2^32 + 1, 4 points", of(line(4), (1 << 32) + 1), gives(2)),
        trial("degree 2^64 - 1, 4 points", of(line(4), usize::MAX), gives(2)),
        trial("1,024 points", Call { count: 40, ..of(line(1024), 3) }, fits(|_| true)),
        trial("1,025 points", of(line(1025), 3), gives(8)),
        trial("1,025 equal points", constant(1025), gives(8)),
        trial("1,024 equal points", constant(1024), gives(5)),
        trial("coordinate 1,000,000", far(1e6), fits(|_| true)),
        trial("coordinate -1,000,000", far(-1e6), fits(|_| true)),
        trial("coordinate just above 1,000,000", far(up(1e6)), gives(10)),
        trial("coordinate just below -1,000,000", far(-up(1e6)), gives(10)),
        trial("second point at 1e-7", of(on_axis(&[0.0, 1e-7]), 1), gives(5)),
        trial("second point just above 1e-7", of(on_axis(&[0.0, up(1e-7)]), 1), fits(|_| true)),
        trial("a coordinate too far, points confused", of(vec![2e6; 12], 2), gives(10)),
        trial("longer slices", Call { extra: [1, 2, 3, 4, 5, 6, 7, 8], ..of(steps(&[0.0, 1.0, 0.0, 5.0]), 2) }, fits(|_| true)),
        trial("7 places", of(vec![1.0; 7], 1), gives(7)),
        trial("3,076 places", of(vec![1.0; 3076], 1), gives(7)),
    ];
    if entry == APPROXIMATE {
        trials.push(trial("4 points, 5 poles", Call { count: 5, ..of(line(4), 2) }, gives(4)));
        trials.push(trial("4 points, 0 poles", Call { count: 0, ..of(line(4), 2) }, gives(3)));
        trials.push(trial("4 points, degree 5, 5 poles", Call { count: 5, ..of(line(4), 5) }, gives(3)));
        trials.push(trial("4 points, 2^64 - 1 poles", Call { count: usize::MAX, ..of(line(4), 2) }, gives(4)));
        trials.push(trial("degree 25, 26 points, 25 poles", Call { count: 25, ..of(line(26), 25) }, gives(3)));
    } else {
        trials.push(trial("degree 25, 26 points", of(line(26), 25), fits(|fit| fit.poles.len() == 78)));
    }
    for slice in 0..8 {
        let mut extra = [2; 8];
        extra[slice] = -1;
        trials.push(trial("a slice one short", Call { extra, ..of(line(6), 3) }, gives(9)));
        trials.push(trial("a slice one short, a coordinate too far", Call { extra, ..far(2e6) }, gives(9)));
        trials.push(trial("a slice one short, a degree too high", Call { extra, ..of(line(1), 3) }, gives(1)));
    }
    trials
}

/// What document 02's request Five says of one call and spacing.
fn stated_factors(entry: usize, spacing: usize) -> Vec<Trial> {
    let of = |factor: f64, places: Vec<f64>, degree: usize| Call { spacing, factor, ..plain(entry, places, degree) };
    let bad = |places: Vec<f64>, degree: usize| of(f64::NAN, places, degree);
    let upright: Vec<f64> = (0..7).flat_map(|k| [0.0, (k * k) as f64, (k % 3) as f64]).collect();
    let apart = |factor: f64, x: f64| of(factor, on_axis(&[0.0, x]), 1);
    let mut trials: Vec<Trial> = lightness::OUTSIDE.iter().map(|&x| trial("no factor", of(x, line(4), 2), gives(17))).collect();
    trials.extend(lightness::WITHIN.iter().map(|&x| trial("a factor, each first coordinate 0", of(x, upright.clone(), 2), fits(|_| true))));
    trials.extend([
        trial("factor NaN, 7 places", bad(vec![1.0; 7], 1), gives(7)),
        trial("factor NaN, 1,025 points", bad(line(1025), 3), gives(8)),
        trial("factor NaN, one point", bad(line(1), 3), gives(1)),
        trial("factor NaN, degree 26", bad(line(27), 26), gives(2)),
        trial("factor NaN, a degree too high", bad(line(4), 4), gives(3)),
        trial("factor NaN, a coordinate too far", bad(steps(&[0.0, 2e6, 0.0, 5.0]), 2), gives(17)),
        trial("factor NaN, points confused", bad(vec![0.5; 12], 2), gives(17)),
        trial("4e-7 apart, factor 0.25", apart(0.25, 4e-7), gives(5)),
        trial("just above 4e-7 apart, factor 0.25", apart(0.25, 4e-7f64.next_up()), fits(|_| true)),
        trial("2.5e-8 apart, factor 4", apart(4.0, 2.5e-8), gives(5)),
        trial("just above 2.5e-8 apart, factor 4", apart(4.0, 2.5e-8f64.next_up()), fits(|_| true)),
        trial("4e-7 apart, the factor after 0.25", apart(0.25f64.next_up(), 4e-7), fits(|_| true)),
        trial("2.5e-8 apart, the factor before 4", apart(4.0f64.next_down(), 2.5e-8), gives(5)),
        trial("1e-7 apart, the factor after 1", apart(1.0f64.next_up(), 1e-7), fits(|_| true)),
    ]);
    for slice in 0..8 {
        let mut extra = [2; 8];
        extra[slice] = -1;
        trials.push(trial("factor NaN, a slice one short", Call { extra, ..bad(line(6), 3) }, gives(9)));
    }
    trials
}

/// What it says of one of the calls: 4 before 17 and 17 before 6; and knots of points that are 5, 5 and 10 apart with their factor.
fn stated_factors_once() -> Vec<Trial> {
    let bad = |c: Call| Call { factor: f64::NAN, ..c };
    let many = Call { count: 5, ..plain(APPROXIMATE, line(4), 2) };
    let none = plain(APPROXIMATE, on_axis(&[0.0, 1.1e-7, 1.0]), 2);
    let path = |factor: f64, [x, y]: [f64; 2]| {
        let places = [[0.0, 0.0, 0.0], [x, y, 0.0], [x, y, 5.0], [x, y + 10.0, 5.0]].concat();
        Call { factor, ..plain(INTERPOLATE, places, 1) }
    };
    let quarter_and_half = || fits(|fit| fit.flat == [0.0, 0.0, 0.25, 0.5, 1.0, 1.0]);
    vec![
        trial("factor NaN, 4 points, 5 poles", bad(many), gives(4)),
        trial("factor NaN, no poles by least squares", bad(none), gives(17)),
        trial("steps of 12 and 4, factor 0.25", path(0.25, [12.0, 4.0]), quarter_and_half()),
        trial("steps of 0.75 and 4, factor 4", path(4.0, [0.75, 4.0]), quarter_and_half()),
    ]
}

/// All that is said of single ladders with other factors than 1, where this build has a reference.
fn factor_trials() -> Vec<Trial> {
    let mut trials = stated_factors_once();
    for entry in 0..4 {
        (0..2).for_each(|spacing| trials.extend(stated_factors(entry, spacing)));
    }
    trials.retain(|t| lightness::known(t.call.factor) || lightness::exact(&t.call.places, t.call.factor));
    trials
}

/// The answer by the Rust at the factor 1, where the factor rounds no first coordinate: they are multiplied beforehand, and the poles' divided.
fn multiplied(c: &Call) -> Answer {
    let fit = answer(&Call { places: lightness::multiplied(&c.places, c.factor), factor: 1.0, ..c.clone() })?;
    Ok(Fit { poles: lightness::multiplied(&fit.poles, 1.0 / c.factor), ..fit })
}

/// The reference's answer to a trial, by either way that there is, and by both where there are both.
fn tried(c: &Call) -> Answer {
    if !lightness::known(c.factor) {
        return multiplied(c);
    }
    let answer = answer(c);
    let alike = || words(c, &multiplied(c)) == words(c, &answer);
    assert!(!lightness::exact(&c.places, c.factor) || alike(), "the distance's factor gives another answer than multiplied coordinates");
    answer
}

/// Document 01's ladders to try that name their call.
fn stated_once() -> Vec<Trial> {
    let two = |tolerance: f64, spacing: usize| Call { tolerance, spacing, ..plain(WITHIN, line(2), 1) };
    let knots = |flat: &'static [f64], mults: &'static [u32]| fits(move |fit| fit.flat == flat && fit.mults == mults);
    let quarter = plain(INTERPOLATE, on_axis(&[0.0, 1.0, 2.0, 4.0]), 2);
    let root = Call { spacing: 1, ..plain(INTERPOLATE, on_axis(&[0.0, 1.0, 2.0, 6.0]), 2) };
    let mut trials = vec![
        trial("0, 1, 2, 4, chordal, degree 2", quarter.clone(), knots(&[0.0, 0.0, 0.0, 0.375, 1.0, 1.0, 1.0], &[3, 1, 3])),
        trial("0, 1, 2, 6, centripetal, degree 2", root, knots(&[0.0, 0.0, 0.0, 0.375, 1.0, 1.0, 1.0], &[3, 1, 3])),
        trial("0, 1, 2, 4, 3 poles, degree 1", Call { entry: APPROXIMATE, count: 3, degree: 1, ..quarter }, knots(&[0.0, 0.0, 0.375, 1.0, 1.0], &[2, 1, 2])),
        trial("the card's two points", plain(INTERPOLATE, line(2), 1), knots(&[0.0, 0.0, 1.0, 1.0], &[2, 2])),
        trial("their poles", plain(INTERPOLATE, line(2), 1), fits(|fit| fit.poles == line(2) && fit.largest == 0.0 && fit.unreadable == 0)),
    ];
    for spacing in 0..2 {
        trials.push(trial("two points, tolerance 0", two(0.0, spacing), fits(|fit| fit.mark == 1 && fit.poles.len() == 6)));
        trials.push(trial("two points, tolerance -1", two(-1.0, spacing), fits(|fit| fit.mark == 3)));
        trials.push(trial("two points, tolerance NaN", two(f64::NAN, spacing), fits(|fit| fit.mark == 3)));
    }
    trials
}

/// The smallest known inputs of rare corners.
fn corners() -> Vec<Trial> {
    let far = |before: usize, close: usize, after: usize| ours::places(&points::alternating(before, close, after));
    let through = |before: usize, close: usize, after: usize, degree: usize| plain(INTERPOLATE, far(before, close, after), degree);
    let zigzag = Call { tolerance: 0.5, ..plain(WITHIN, steps(&[0.0, 2.0, 2.0, 3.0, 0.0]), 1) };
    let valley = Call { tolerance: 1e-9, ..plain(SEARCH, steps(&[2.0, 1.0, 0.0, 1.0, 2.0]), 1) };
    let three = Call { entry: APPROXIMATE, count: 3, ..valley.clone() };
    let swinging = Call { tolerance: 1480903.0, ..plain(WITHIN, ours::places(&points::swinging(254, 9e5, 4)), 1) };
    vec![
        trial("spread", zigzag, fits(|fit| fit.mark == 2)),
        trial("the search passes over 3 poles", valley, fits(|fit| fit.mark == 3)),
        trial("3 poles fit", three, fits(|fit| fit.largest <= 1e-9 && fit.unreadable == 0)),
        trial("chosen gives 6", plain(APPROXIMATE, on_axis(&[0.0, 1.1e-7, 1.0]), 2), gives(6)),
        trial("all unreadable, largest 0", through(1, 3, 1, 3), fits(|fit| fit.unreadable == 5 && fit.largest == 0.0)),
        trial("largest infinite", through(2, 16, 0, 16), fits(|fit| fit.largest == f64::INFINITY)),
        trial("a value outside the band", through(29, 5, 0, 2), fits(|fit| fit.drops)),
        trial("averaged knots repeat", through(43, 8, 0, 2), fits(|fit| fit.repeats() && !fit.falls())),
        trial("averaged knots fall", through(41, 11, 0, 2), fits(Fit::falls)),
        trial("refined knots that the reader refuses", swinging, fits(|fit| fit.mark == 1 && fit.unread())),
    ]
}

/// All that is said of single ladders.
fn trials() -> Vec<Trial> {
    let mut trials = corners();
    trials.extend(stated_once());
    for entry in 0..4 {
        (0..2).for_each(|spacing| trials.extend(stated(entry, spacing)));
    }
    trials
}

/// Document 01's ladders to try, the rare corners and document 02's factors: each answer is the Rust's, and what is said of it holds.
pub fn compare_stated() -> u64 {
    let (mut trials, mut different) = (trials(), 0);
    trials.extend(factor_trials());
    for Trial { what, call, said } in &trials {
        let wanted = tried(call);
        let unlike = (!said(&wanted)).then(|| format!("the Rust's answer is {}", class_name(class(&wanted))));
        if let Some(text) = unlike.or_else(|| difference(call, &wanted)) {
            different += 1;
            println!("different: {what}, {}, factor {:?}: {text}", NAMES[call.entry], call.factor);
        }
    }
    println!("{} ladders to try: {different} different", trials.len());
    different
}

/// The bits, with one word for every NaN.
pub fn word(x: f64) -> u64 {
    if x.is_nan() { 0x7ff8_0000_0000_0000 } else { x.to_bits() }
}

/// How many places have to be given when the last given one is repeated: all of them in a ladder that is not long.
fn given(places: &[f64]) -> usize {
    let repeats = |x: &f64| x.to_bits() == places[places.len() - 1].to_bits();
    if places.len() > 300 { places.len() - places.iter().rev().take_while(|x| repeats(x)).count() + 1 } else { places.len() }
}

/// A call and its answer as words.
fn words(c: &Call, answer: &Answer) -> Vec<u64> {
    let count = if c.entry == APPROXIMATE { c.count as u64 } else { 0 };
    let tolerance = if c.entry >= WITHIN { word(c.tolerance) } else { 0 };
    let (length, given) = (c.places.len() as u64, given(&c.places));
    let mut words = vec![c.entry as u64, c.degree as u64, c.spacing as u64, count, tolerance, length, given as u64, (c.extra[4] < 0) as u64];
    words.extend(c.places[..given].iter().map(|&x| word(x)));
    words.push(answer.as_ref().err().copied().unwrap_or(0) as u64);
    if let Ok(fit) = answer {
        words.extend([fit.mark as u64, word(fit.largest), fit.poles.len() as u64 / 3, fit.knots.len() as u64, fit.unreadable as u64]);
        words.extend(fit.flat.iter().chain(&fit.knots).map(|&x| word(x)));
        words.extend(fit.mults.iter().map(|&m| m as u64));
        words.extend(fit.poles.iter().map(|&x| word(x)));
    }
    words
}

/// Whether the list can hold the call: at most 64 points, or over 1,024 of which few places are given; no slice but the work too short, that by one
/// at most; and a degree up to 27.
fn listable(c: &Call) -> bool {
    let (n, lent) = (c.places.len() / 3, c.extra.iter().enumerate().all(|(i, &e)| e == 0 || (i == 4 && e == -1)));
    lent && c.degree <= 27 && (n <= 64 || n > 1024 && given(&c.places) <= 3)
}

/// A call for the list, of few points more often than of many.
fn small_call(random: &mut Random) -> Call {
    loop {
        let mut c = call(random);
        c.spacing = c.spacing.min(1);
        c.extra = [0; 8];
        if random.one_in(20) {
            c.extra[4] = -1;
        }
        if listable(&c) && (c.places.len() <= 36 || random.one_in(if c.places.len() <= 90 { 3 } else { 6 })) {
            return c;
        }
    }
}

/// A list of calls and answers as words, and how many of each kind it holds.
#[derive(Default)]
struct List {
    words: Vec<u64>,
    kinds: BTreeMap<(usize, usize, bool), u64>,
}

impl List {
    /// Adds the call where fewer than `most` of its kind are there: the same entry, the same mark or refusal, as rare as it.
    fn add(&mut self, c: &Call, most: impl Fn(usize, bool) -> u64) {
        let answer = answer(c);
        let class = class(&answer);
        let rare = answer.as_ref().is_ok_and(|fit| fit.unreadable > 0 || fit.largest.is_infinite() || fit.falls() || fit.repeats());
        let kind = self.kinds.entry((c.entry, class, rare)).or_default();
        if *kind < most(class, rare) {
            *kind += 1;
            self.words.extend(words(c, &answer));
        }
    }
}

/// Writes a list of calls with the Rust's answers, a word a line, after their number: the ladders to try, and of each kind some more.
pub fn list(file: &str) -> u64 {
    let (mut random, mut list) = (Random::new(1), List::default());
    for mut t in trials() {
        t.call.extra.iter_mut().for_each(|e| *e = (*e).min(0));
        if listable(&t.call) {
            list.add(&t.call, |_, _| u64::MAX);
        }
    }
    for _ in 0..30_000 {
        list.add(&small_call(&mut random), |class, rare| if rare { 4 } else if class > 100 { 30 } else { 6 });
    }
    let calls = list.kinds.values().sum::<u64>();
    let text: String = std::iter::once(&calls).chain(&list.words).map(|word| format!("{word:016x}\n")).collect();
    std::fs::write(file, text).unwrap_or_else(|e| panic!("{file}: {e}"));
    println!("list: {calls} calls, {} lines", list.words.len() + 1);
    for ((entry, class, rare), n) in list.kinds {
        println!("{} {}{}: {n}", NAMES[entry], class_name(class), if rare { ", rare" } else { "" });
    }
    0
}

/// A ladder whose times are taken, smooth or noisy, with a tolerance that makes the first refine and the second search long.
fn timed(entry: usize, n: usize, degree: usize, noisy: bool) -> Call {
    let mut random = Random::new(7);
    let mut noise = |size: f64| if noisy { size * random.unit() } else { 0.0 };
    let point = |k: usize| {
        let t = k as f64 / n as f64;
        [(t * 5.0).sin() + noise(0.3), (t * 3.0).cos() + noise(0.3), t + noise(0.01)]
    };
    let tolerance = if noisy { 1e-4 } else { 1e-5 };
    Call { tolerance, spacing: 1, ..plain(entry, (0..n).flat_map(point).collect(), degree) }
}

/// Slices as long as the call lends them.
struct Owned {
    doubles: [Vec<f64>; 5],
    mults: Vec<u32>,
    index: Vec<usize>,
    counts: Vec<usize>,
}

impl Owned {
    fn new(c: &Call) -> Owned {
        let n = c.lengths();
        Owned { doubles: [0, 1, 2, 4, 6].map(|i| vec![0.0; n[i]]), mults: vec![0; n[3]], index: vec![0; n[5]], counts: vec![0; n[7]] }
    }

    /// Our call with them.
    fn run(&mut self, c: &Call) -> u32 {
        let [poles, flat, knots, work, largest] = &mut self.doubles;
        let mut lent = Lent { poles, flat, knots, mults: &mut self.mults, work, index: &mut self.index, largest, counts: &mut self.counts };
        ours::ladder(c.entry, black_box(&c.places), c.degree, c.count, c.tolerance, c.spacing, c.factor, &mut lent)
    }
}

/// The Rust giving the same answer as our call, where its own call computes no deviation.
fn measured(c: &Call, points: &[Point3D]) -> Option<pieces::Measured> {
    match c.entry {
        INTERPOLATE => pieces::interpolate_measured(points, c.degree, c.spacing != 0),
        APPROXIMATE => pieces::approximate_measured(points, c.degree, c.count, c.spacing != 0),
        _ => None,
    }
}

/// The seconds of our call, of the Rust's, and of the Rust giving the same answer.
fn times(c: &Call, fit: &Fit) -> (f64, f64, Option<f64>) {
    let (mut owned, points) = (Owned::new(c), c.points());
    let mut mine = || { black_box(owned.run(c)); };
    let mut theirs = || { let _ = black_box(published(black_box(c), &points)); };
    let Some(same) = measured(c, &points) else {
        let [mine, theirs] = in_turn([&mut mine, &mut theirs]);
        return (mine, theirs, None);
    };
    let knots = all_same(&same.flat, &fit.flat) && all_same(&same.knots, &fit.knots) && same.mults == fit.mults;
    assert!(knots && all_same(&ours::places(&same.poles), &fit.poles) && same.largest.to_bits() == fit.largest.to_bits() && same.unreadable == fit.unreadable);
    let mut whole = || { let _ = black_box(measured(black_box(c), &points)); };
    let [mine, theirs, whole] = in_turn([&mut mine, &mut theirs, &mut whole]);
    (mine, theirs, Some(whole))
}

/// The stack of the ladders to try, of long ones with high degrees, and of others.
pub fn stack(random: &mut Random, most: &mut Most) {
    let mut calls: Vec<Call> = trials().into_iter().map(|trial| trial.call).collect();
    for (entry, degree) in (0..4).flat_map(|entry| [1, 3, 24, 25].map(|degree| (entry, degree))) {
        for (n, noisy) in [(26, false), (26, true), (1024, false), (1024, true)] {
            let c = timed(entry, n, degree, noisy);
            calls.extend([1e-2, 1e-5, f64::NAN].map(|tolerance| Call { tolerance, spacing: 0, count: n / 2 + 13, ..c.clone() }));
            calls.push(c);
        }
    }
    calls.extend((0..4_000).map(|_| call(random)));
    for c in &calls {
        let mut owned = Owned::new(c);
        most.measure(NAMES[c.entry], || c.line(), &mut || { black_box(owned.run(c)); });
    }
}

/// The calls whose times are taken, smooth or noisy.
const TIMED: [(usize, bool); 6] = [(INTERPOLATE, false), (INTERPOLATE, true), (APPROXIMATE, false), (APPROXIMATE, true), (WITHIN, false), (WITHIN, true)];

fn bench_one((entry, noisy): (usize, bool), n: usize, degree: usize) -> Timed {
    let c = Call { count: (n / 2).max(degree + 1), ..timed(entry, n, degree, noisy) };
    let fit = answer(&c).unwrap_or_else(|number| panic!("a timed ladder is refused with {number}"));
    let (mine, theirs, same) = times(&c, &fit);
    let (name, kind, mark) = (NAMES[entry], if noisy { "noisy" } else { "smooth" }, MARKS[fit.mark]);
    let what = format!("{name}, {kind}, n {n}, degree {degree}, {mark} with {} poles", fit.poles.len() / 3);
    Timed { what, mine, theirs, same }
}

/// Each call at growing sizes, with a line for how its time grows.
pub fn bench() -> Vec<Timed> {
    const SIZES: [usize; 5] = [16, 32, 64, 256, 1024];
    let mut all = vec![];
    for (timed, degree) in [3, 10].into_iter().flat_map(|degree| TIMED.map(|timed| (timed, degree))) {
        let times: Vec<Timed> = SIZES.iter().map(|&n| bench_one(timed, n, degree)).collect();
        times.iter().for_each(Timed::tell);
        let per_point = |seconds: fn(&Timed) -> f64| times.iter().zip(SIZES).map(|(t, n)| format!("{:.0}", seconds(t) / n as f64 * 1e9)).collect::<Vec<_>>().join(", ");
        let (name, kind) = (NAMES[timed.0], if timed.1 { "noisy" } else { "smooth" });
        println!("{name}, {kind}, degree {degree}, ns a point at n {SIZES:?}: ours {}; the Rust's {}", per_point(|t| t.mine), per_point(|t| t.theirs));
        all.extend(times);
    }
    all
}
