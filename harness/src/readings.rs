//! The reader beside `KnotVector::new` and `KnotVector::basis`, on valid and damaged curves; and its time a reading.
use crate::Point3D;
use crate::curve_math::bspline::KnotVector;
use crate::curves::BSplineConstructionError as Error;
use crate::nigorzai;
use crate::ours;
use crate::random::{Random, all_same, least_seconds};
use crate::stack::Most;
use crate::tally::{self, Tally};
use std::hint::black_box;

/// The parts of a curve and a parameter.
#[derive(Debug, Clone)]
pub struct Case {
    degree: usize,
    knots: Vec<f64>,
    mults: Vec<u32>,
    poles: Vec<f64>,
    u: f64,
}

/// Document 01's number of what the Rust answers.
fn number(e: Error) -> u32 {
    match e {
        Error::InvalidDegree => 2,
        Error::PoleCountMismatch => 6,
        Error::TooFewKnots => 12,
        Error::KnotsNotIncreasing => 13,
        Error::MultiplicityTooLarge => 14,
        other => panic!("no number for {other:?}"),
    }
}

/// The reference: document 01's own refusals around the Rust's, in document 01's order; the poles summed as `BasisTable::point` sums them.
fn reference(c: &Case) -> (u32, [f64; 3]) {
    let none = [0.0; 3];
    if c.poles.len() % 3 != 0 {
        return (7, none);
    }
    let n = c.poles.len() / 3;
    if n > 1024 || c.knots.len() > 1050 {
        return (8, none);
    }
    let direction = match KnotVector::new(c.degree, c.knots.clone(), c.mults.clone(), false, n) {
        Ok(d) => d,
        Err(e) => return (number(e), none),
    };
    let few = n < c.degree + 1;
    let odd = c.mults.contains(&0) || c.knots.iter().any(|k| !k.is_finite()) || few || c.u.is_nan();
    if odd || { let (a, b) = direction.bounds(); b <= a } {
        return (15, none);
    }
    let mut values = [0.0; 26];
    let first = direction.basis(c.u, &mut values);
    let mut x = [0.0; 3];
    for (a, &v) in values[..=c.degree].iter().enumerate() {
        for (i, x) in x.iter_mut().enumerate() {
            *x += v * c.poles[3 * (first + a) + i];
        }
    }
    (0, x)
}

/// A curve that the reader takes.
fn valid(random: &mut Random) -> Case {
    let degree = if random.one_in(4) { random.from_to(1, 25) } else { random.from_to(1, 5) };
    let inner = match random.below(8) {
        0 => 0,
        1 => random.from_to(0, 900),
        _ => random.from_to(0, 12),
    };
    let mut mults = vec![0u32; inner + 2];
    for (i, m) in mults.iter_mut().enumerate() {
        let most = if i == 0 || i == inner + 1 { degree + 1 } else { degree };
        *m = if random.one_in(2) { 1 } else { random.from_to(1, most) as u32 };
    }
    if !random.one_in(4) {
        mults[0] = degree as u32 + 1;
        mults[inner + 1] = degree as u32 + 1;
    }
    while mults.iter().sum::<u32>() as usize > 1024 + degree + 1 {
        let most = mults.iter().position(|&m| m > 1).unwrap();
        mults[most] -= 1;
    }
    while (mults.iter().sum::<u32>() as usize) < 2 * degree + 2 {
        let i = random.from_to(0, inner + 1);
        let most = if i == 0 || i == inner + 1 { degree + 1 } else { degree } as u32;
        if mults[i] < most { mults[i] += 1 } else { mults[0] = degree as u32 + 1; mults[inner + 1] = degree as u32 + 1 }
    }
    let mut knots: Vec<f64> = match random.below(5) {
        0 => (0..inner + 2).map(|i| i as f64).collect(),
        1 => (0..inner + 2).map(|i| 1.0 + i as f64 * f64::EPSILON).collect(),
        2 => (0..inner + 2).map(|_| random.double()).filter(|x| x.is_finite()).collect(),
        _ => (0..inner + 2).map(|_| random.unit()).collect(),
    };
    knots.sort_by(f64::total_cmp);
    knots.dedup_by(|a, b| *a <= *b);
    while knots.len() < inner + 2 {
        let top = knots.last().map_or(0.0, |&x: &f64| if x < 1e300 { x.abs() * 1.5 + 1.0 } else { f64::MAX });
        knots.push(if knots.last() == Some(&top) { f64::INFINITY } else { top });
    }
    let n = (mults.iter().sum::<u32>() as usize) - degree - 1;
    let poles = (0..3 * n).map(|_| if random.one_in(50) { random.double() } else { random.unit() * 200.0 - 100.0 }).collect();
    let u = parameter(random, &knots);
    Case { degree, knots, mults, poles, u }
}

/// A parameter on, next to, between, before or after the knots.
fn parameter(random: &mut Random, knots: &[f64]) -> f64 {
    let k = *random.of(knots);
    match random.below(7) {
        0 | 1 => k,
        2 => k.next_up(),
        3 => k.next_down(),
        4 => random.double(),
        _ => {
            let (a, b) = (knots[0], knots[knots.len() - 1]);
            a + (b - a) * random.unit()
        }
    }
}

/// One part of it damaged.
fn damaged(random: &mut Random, c: &mut Case) {
    let i = random.below(c.knots.len() as u64) as usize;
    let j = random.below(c.mults.len() as u64) as usize;
    match random.below(12) {
        0 => c.degree = *random.of(&[0, 1, 24, 25, 26, 27, usize::MAX]),
        1 => c.knots[i] = random.double(),
        2 => c.knots[i] = c.knots[i.saturating_sub(1)],
        3 => c.mults[j] = *random.of(&[0, 1, 25, 26, 27, u32::MAX, u32::MAX / 2]),
        4 => { c.poles.pop(); }
        5 => { c.poles.truncate(c.poles.len().saturating_sub(3)); }
        6 => c.poles.extend([1.0, 2.0, 3.0]),
        7 => { c.knots.pop(); }
        8 => { c.mults.pop(); }
        9 => { let keep = random.from_to(0, 2); c.knots.truncate(keep); c.mults.truncate(keep); }
        10 => { c.poles.resize(3 * random.from_to(1023, 1026), 0.5); }
        _ => {
            let more = random.from_to(1045, 1052);
            while c.knots.len() < more { let top = c.knots[c.knots.len() - 1]; c.knots.push(top + 1.0); c.mults.push(1); }
        }
    }
}

/// A curve, valid or damaged.
fn any(random: &mut Random) -> Case {
    let mut case = valid(random);
    if random.one_in(3) {
        for _ in 0..random.from_to(1, 2) {
            if !case.knots.is_empty() && !case.mults.is_empty() {
                damaged(random, &mut case);
            }
        }
    }
    case
}

/// What differs from the Rust's answer after our reading, if anything does.
fn difference(case: &Case, (theirs, point): (u32, [f64; 3])) -> Option<String> {
    let mut out = [7.0; 5];
    let ours = ours::read(&case.poles, case.degree, &case.knots, &case.mults, case.u, &mut out[..4]);
    let wanted = if theirs == 0 { [point[0], point[1], point[2], 7.0, 7.0] } else { [7.0; 5] };
    let short = (0..3).find(|&places| {
        let mut out = [7.0; 3];
        ours::read(&case.poles, case.degree, &case.knots, &case.mults, case.u, &mut out[..places]) != 9 || out != [7.0; 3]
    });
    let different = (ours != theirs || !all_same(&out, &wanted)).then(|| format!("{ours} with {out:?}, not {theirs} with {wanted:?}"));
    different.or_else(|| short.map(|places| format!("not 9 with {places} places for the point")))
}

/// The smallest inputs of the reader's differences from the Rust, each with its number.
pub fn compare_stated() -> u64 {
    let case = |degree: usize, knots: &[f64], mults: &[u32], places: usize, u: f64| Case { degree, knots: knots.to_vec(), mults: mults.to_vec(), poles: vec![0.5; places], u };
    let many: Vec<f64> = (0..1051).map(f64::from).collect();
    let stated = [
        ("poles of one place", 7, case(1, &[0.0, 1.0], &[2, 2], 1, 0.5)),
        ("1,025 poles", 8, case(1, &[0.0, 1.0], &[2, 2], 3 * 1025, 0.5)),
        ("1,051 knots", 8, case(1, &many, &[1; 1051], 6, 0.5)),
        ("a multiplicity 0", 15, case(1, &[0.0, 1.0, 2.0], &[2, 0, 2], 6, 0.5)),
        ("a knot not finite", 15, case(1, &[0.0, f64::INFINITY], &[2, 2], 6, 0.5)),
        ("fewer than degree + 1 poles", 15, case(2, &[0.0, 1.0], &[2, 2], 3, 0.5)),
        ("an empty range", 15, case(2, &[0.0, 1.0, 2.0], &[2, 2, 2], 9, 0.5)),
        ("a parameter NaN", 15, case(1, &[0.0, 1.0], &[2, 2], 6, f64::NAN)),
    ];
    let mut different = 0;
    for (what, number, case) in &stated {
        let theirs = reference(case);
        let unlike = (theirs.0 != *number).then(|| format!("the harness has {}", theirs.0)).or_else(|| difference(case, theirs));
        unlike.iter().for_each(|unlike| println!("different: {what}: {unlike}"));
        different += unlike.is_some() as u64;
    }
    println!("{} stated readings: {different} different", stated.len());
    different
}

/// What differs between the reading of nigorzai.rs, the guarded one and the Rust's, if anything does.
pub fn unlike(poles: &[[f64; 3]], degree: usize, knots: &[f64], mults: &[u32], u: f64) -> Option<String> {
    let case = Case { degree, knots: knots.to_vec(), mults: mults.to_vec(), poles: poles.concat(), u };
    let (number, point) = reference(&case);
    let right = match nigorzai::read(poles, degree, knots, mults, u) {
        Ok(at) => number == 0 && all_same(&at, &point),
        Err(refusal) => refusal == number,
    };
    (!right).then(|| format!("a reading that is not {number} with {point:?} for {case:?}")).or_else(|| difference(&case, (number, point)))
}

/// So many curves through the reading of nigorzai.rs.
pub fn compare_wrapped(count: u64, seed: u64) -> u64 {
    let (mut random, mut different) = (Random::new(seed), 0);
    for _ in 0..count {
        let case = any(&mut random);
        let poles: Vec<[f64; 3]> = case.poles.chunks_exact(3).map(|q| [q[0], q[1], q[2]]).collect();
        if let Some(what) = unlike(&poles, case.degree, &case.knots, &case.mults, case.u) {
            different += 1;
            println!("different: {what}");
        }
    }
    println!("wrapper: {count} readings: {different} different");
    different
}

/// The case with the knot of this number left out, and as many poles as its multiplicity asks.
fn without(case: &Case, i: usize) -> Case {
    let mut less = case.clone();
    let poles = if i < less.mults.len() { 3 * less.mults.remove(i) as usize } else { 0 };
    less.poles.truncate(less.poles.len().saturating_sub(poles));
    if i < less.knots.len() {
        less.knots.remove(i);
    }
    less
}

/// Smaller cases: a knot left out; fewer poles; a multiplicity 1 less; rounder numbers.
fn smaller(case: &Case) -> Vec<Case> {
    let length = case.knots.len().max(case.mults.len());
    let mut cases: Vec<Case> = (0..length).map(|i| without(case, i)).collect();
    for fewer in [3, 1] {
        cases.push(Case { poles: case.poles[..case.poles.len().saturating_sub(fewer)].to_vec(), ..case.clone() });
    }
    for (i, &m) in case.mults.iter().enumerate().filter(|(_, m)| **m > 1) {
        let mut less = Case { poles: case.poles[..case.poles.len().saturating_sub(3)].to_vec(), ..case.clone() };
        less.mults[i] = m - 1;
        cases.push(less);
    }
    cases.push(Case { poles: vec![0.0; case.poles.len()], ..case.clone() });
    cases.extend(tally::rounder(&case.poles).map(|poles| Case { poles, ..case.clone() }));
    cases.extend(tally::rounder(&case.knots).map(|knots| Case { knots, ..case.clone() }));
    cases.extend(tally::rounder(&[case.u]).map(|u| Case { u: u[0], ..case.clone() }));
    cases
}

/// How much there is of a case: its numbers, and the digits with which they are written.
fn weight(case: &Case) -> (usize, usize) {
    let numbers = case.knots.len() + case.poles.len() + case.mults.iter().map(|&m| m as usize).sum::<usize>();
    (numbers, tally::digits(&case.poles) + tally::digits(&case.knots) + tally::digits(&[case.u]))
}

/// The smallest case found that still differs.
fn smallest(case: Case) -> Case {
    tally::smallest(case, smaller, weight, |less| difference(less, reference(less)).is_some())
}

const ANSWERS: &str = "readings by answer (0: read)";
const DEGREES: &str = "degrees of curves read";
const POLES: &str = "poles of curves read";

/// The rare corners: whether a reading that gives this point stands in each.
const RARE: [(&str, fn(&Case, &[f64; 3]) -> bool); 7] = [
    ("the parameter before the first knot", |case, _| case.u < case.knots[0]),
    ("the parameter behind the last knot", |case, _| case.u > case.knots[case.knots.len() - 1]),
    ("the parameter on a knot", |case, _| case.knots.contains(&case.u)),
    ("the parameter -0.0 on the first knot 0.0", |case, _| case.u == 0.0 && case.u.is_sign_negative() && case.knots[0].to_bits() == 0),
    ("the parameter infinite", |case, _| case.u.is_infinite()),
    ("ends not clamped", |case, _| case.mults[0] as usize <= case.degree || case.mults[case.mults.len() - 1] as usize <= case.degree),
    ("a point not finite", |_, point| point.iter().any(|x| !x.is_finite())),
];

const CORNERS: &str = "reading corners";

/// What a report shows, none of it met.
pub fn expected() -> Tally {
    let tally = Tally::default().expect(ANSWERS, [0, 2, 6, 7, 8, 12, 13, 14, 15]).expect(DEGREES, 1..=25).expect(POLES, 2..=1024);
    tally.expect(CORNERS, RARE.map(|(name, _)| name))
}

fn count(tally: &mut Tally, case: &Case, (number, point): (u32, [f64; 3])) {
    tally.count(ANSWERS, &number.to_string(), 1);
    if number == 0 {
        tally.count(DEGREES, &case.degree.to_string(), 1);
        tally.count(POLES, &(case.poles.len() / 3).to_string(), 1);
        RARE.iter().for_each(|(name, stands)| tally.count(CORNERS, name, stands(case, &point) as u64));
    }
}

/// Reads one curve at so many parameters, or once where it has none, and counts; how many readings it was, and what differs from the Rust's, if anything does.
pub fn some(random: &mut Random, most: u64, tally: &mut Tally) -> (u64, Option<String>) {
    let mut case = any(random);
    let times = if case.knots.len() > 1 { most } else { 1 };
    for done in 1..=times {
        let wanted = reference(&case);
        count(tally, &case, wanted);
        if let Some(what) = difference(&case, wanted) {
            let less = smallest(case.clone());
            let still = difference(&less, reference(&less)).unwrap_or_default();
            return (done, Some(format!("different: {what} for {case:?}\nsmallest: {still} for {less:?}")));
        }
        if !case.knots.is_empty() {
            case.u = parameter(random, &case.knots);
        }
    }
    (times, None)
}

pub fn compare(count: u64, seed: u64) -> u64 {
    tally::run("readings", count, seed, expected(), |random, most, tally| some(random, most.min(4), tally))
}

/// The stack of readings, degree 25 among them.
pub fn stack(random: &mut Random, most: &mut Most) {
    for _ in 0..20_000 {
        let (case, mut out) = (any(random), [0.0; 3]);
        let what = || format!("a curve of degree {}, {} knots and {} poles", case.degree, case.knots.len(), case.poles.len() / 3);
        most.measure("read", what, &mut || { black_box(ours::read(&case.poles, case.degree, &case.knots, &case.mults, case.u, &mut out)); });
    }
}

/// ns a reading of a validated curve, ours and the Rust's, and of one whose parts are checked at each reading.
pub fn bench() {
    for degree in [3usize, 10] {
        let mut random = Random::new(3);
        let n = 100;
        let knots: Vec<f64> = (0..n - degree + 1).map(|i| i as f64 / (n - degree) as f64).collect();
        let mut mults = vec![1u32; knots.len()];
        mults[0] = degree as u32 + 1;
        *mults.last_mut().unwrap() = degree as u32 + 1;
        let poles: Vec<f64> = (0..3 * n).map(|_| random.unit() * 100.0).collect();
        let points: Vec<Point3D> = poles.chunks(3).map(|q| Point3D::new(q[0], q[1], q[2])).collect();
        let direction = KnotVector::new(degree, knots.clone(), mults.clone(), false, n).unwrap();
        let flat = direction.flat().to_vec();
        let us: Vec<f64> = (0..1000).map(|_| random.unit()).collect();
        let per = |seconds: f64| seconds / us.len() as f64 * 1e9;
        let a = per(least_seconds(300, || for &u in &us { black_box(ours::curve_point(&flat, degree, &poles, black_box(u))); }));
        let b = per(least_seconds(300, || for &u in &us {
            let mut values = [0.0; 26];
            let first = direction.basis(black_box(u), &mut values);
            let mut x = [0.0; 3];
            for (&v, q) in values[..=degree].iter().zip(&points[first..]) {
                x[0] += v * q.x;
                x[1] += v * q.y;
                x[2] += v * q.z;
            }
            black_box(x);
        }));
        let mut out = [0.0; 3];
        let checked = per(least_seconds(50, || for &u in &us { black_box(ours::read(&poles, degree, &knots, &mults, black_box(u), &mut out)); }));
        println!("reading, degree {degree}, {n} poles, ns: ours {a:.1}, the Rust's {b:.1}, ratio {:.2}; with the checks and the flat knots made anew {checked:.0}", a / b);
    }
}
