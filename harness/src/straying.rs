//! How far the basis values of a reading stray from adding up to one, where that is bounded (crates/unity, docs/ARCHIVE.md): knots in 0 to 1, and a parameter read in
//! a span at least 2^-20 wide. Each value is read with a pole that is 1 in one coordinate and 0 else, and held to the Rust's; their sum is exact.
use crate::curve_math::bspline::KnotVector;
use crate::ours;
use crate::random::Random;
use std::time::{Duration, Instant};

const LEAST_WIDTH: f64 = 1.0 / (1u64 << 20) as f64;
const BOUND: f64 = 1.0 / (1u64 << 40) as f64;

/// The exact sum of doubles, counted in the least positive one, 2^-1074: limb i counts 2^(32 i) of it.
struct Units([i64; 36]);

impl Units {
    fn sum(list: impl IntoIterator<Item = f64>) -> Units {
        let mut limbs = [0i64; 36];
        for x in list {
            let (exponent, fraction) = ((x.to_bits() >> 52 & 0x7ff) as usize, x.to_bits() & ((1 << 52) - 1));
            let digits = if exponent == 0 { fraction } else { fraction | 1 << 52 };
            let shift = exponent.max(1) - 1;
            let wide = (digits as i128) << (shift % 32);
            for i in 0..3 {
                let part = (wide >> (32 * i) & 0xffff_ffff) as i64;
                limbs[shift / 32 + i] += if x.is_sign_negative() { -part } else { part };
            }
        }
        for i in 0..35 {
            limbs[i + 1] += limbs[i] >> 32;
            limbs[i] &= 0xffff_ffff;
        }
        Units(limbs)
    }

    fn negative(&self) -> bool {
        self.0[35] < 0
    }

    /// As a double, of a sum that is not negative: exact where it has at most 53 digits, else rounded.
    fn value(&self) -> f64 {
        self.0.iter().enumerate().rev().map(|(i, &limb)| limb as f64 * f64::exp2(32.0 * i as f64 - 1074.0)).sum()
    }
}

/// How far the exact sum of the values lies above 1.
fn above_one(values: &[f64]) -> f64 {
    let above = Units::sum(values.iter().copied().chain([-1.0]));
    let below = || Units::sum(values.iter().map(|&v| -v).chain([1.0])).value();
    if above.negative() { -below() } else { above.value() }
}

/// A curve's knots in 0 to 1, and the parameter at which its basis functions are read.
#[derive(Clone, Debug)]
struct Place {
    degree: usize,
    knots: Vec<f64>,
    mults: Vec<u32>,
    u: f64,
}

/// The basis values at a place, by the Rust and as our reader weights the poles.
struct Row {
    theirs: Vec<f64>,
    ours: Vec<f64>,
}

impl Place {
    /// The direction by the Rust, where the reader takes the curve and the parameter.
    fn direction(&self) -> Option<KnotVector> {
        let sum: u32 = self.mults.iter().sum();
        let poles = (sum as usize).checked_sub(self.degree + 1).filter(|&n| n > self.degree)?;
        let direction = KnotVector::new(self.degree, self.knots.clone(), self.mults.clone(), false, poles).ok()?;
        let (a, b) = direction.bounds();
        (a < b && !self.u.is_nan()).then_some(direction)
    }

    /// The values, where the span that is read is wide.
    fn row(&self) -> Option<Row> {
        let direction = self.direction()?;
        let mut values = [0.0; 26];
        let first = direction.basis(self.u, &mut values);
        let flat = direction.flat();
        let span = first + self.degree;
        if Units::sum([flat[span + 1], -flat[span], -LEAST_WIDTH]).negative() {
            return None;
        }
        let poles = flat.len() - self.degree - 1;
        let ours = (0..=self.degree).map(|a| self.weight(poles, first + a)).collect();
        Some(Row { theirs: values[..=self.degree].to_vec(), ours })
    }

    /// By what the reader weights this pole.
    fn weight(&self, poles: usize, pole: usize) -> f64 {
        let (mut coordinates, mut out) = (vec![0.0; 3 * poles], [f64::NAN; 3]);
        coordinates[3 * pole + pole % 3] = 1.0;
        assert_eq!(ours::read(&coordinates, self.degree, &self.knots, &self.mults, self.u, &mut out), 0, "refused: {self:?}");
        out[pole % 3]
    }
}

/// A knot in 0 to 1: anywhere, on a grid of the least width, close to another, or an end.
fn knot(random: &mut Random, others: &[f64]) -> f64 {
    match random.below(8) {
        0 => *random.of(&[0.0, 1.0, f64::from_bits(1), 1.0 - f64::EPSILON / 2.0]),
        1 => random.below((1 << 20) + 1) as f64 * LEAST_WIDTH,
        2 | 3 if !others.is_empty() => {
            let near = *random.of(others);
            let step = *random.of(&[LEAST_WIDTH, LEAST_WIDTH * 1.5, f64::EPSILON, 1e-9, f64::from_bits(1)]);
            (if random.one_in(2) { near + step } else { near - step }).clamp(0.0, 1.0)
        }
        4 => random.unit() * random.unit() * random.unit(),
        _ => random.unit(),
    }
}

/// A parameter at, next to or between the ends of a span.
fn parameter(random: &mut Random, knots: &[f64]) -> f64 {
    let k = random.below(knots.len() as u64 - 1) as usize;
    let (a, b) = (knots[k], knots[k + 1]);
    match random.below(8) {
        0 => a,
        1 => b,
        2 => a.next_up(),
        3 => b.next_down(),
        4 => *random.of(&[-0.0, -1.0, 2.0, f64::INFINITY]),
        _ => a + (b - a) * random.unit(),
    }
}

fn any_place(random: &mut Random) -> Place {
    let degree = random.from_to(1, 25);
    let most = *random.of(&[2, 3, degree + 1, 2 * degree + 2]);
    let mut knots = vec![];
    for _ in 0..most {
        knots.push(knot(random, &knots));
    }
    if random.one_in(4) {
        knots = (0..most).map(|i| i as f64 / (most - 1) as f64).collect();
    }
    knots.sort_by(f64::total_cmp);
    knots.dedup();
    if knots.len() < 2 {
        knots = vec![0.0, 1.0];
    }
    let mut mults: Vec<u32> = knots.iter().map(|_| if random.one_in(2) { 1 } else { random.from_to(1, degree) as u32 }).collect();
    for end in [0, knots.len() - 1] {
        if !random.one_in(4) {
            mults[end] = degree as u32 + 1;
        }
    }
    let u = parameter(random, &knots);
    Place { degree, knots, mults, u }
}

/// A place a little beside another.
fn beside(random: &mut Random, place: &Place) -> Place {
    let mut other = place.clone();
    for _ in 0..random.from_to(1, 3) {
        let i = random.below(other.knots.len() as u64) as usize;
        match random.below(4) {
            0 => other.u = parameter(random, &other.knots),
            1 => other.u = f64::from_bits((other.u.to_bits() + random.below(9)).saturating_sub(4)),
            2 => other.knots[i] = knot(random, &place.knots),
            _ => other.mults[i] = random.from_to(1, other.degree) as u32,
        }
    }
    other.knots.sort_by(f64::total_cmp);
    other
}

/// How far a row's sum lies above 1, or what is wrong with it.
fn judged(row: &Row) -> Result<f64, &'static str> {
    if row.theirs.iter().any(|&v| !(v >= 0.0 && v.is_finite())) {
        return Err("a value is negative, infinite or NaN");
    }
    if row.ours.iter().zip(&row.theirs).any(|(a, b)| a != b) {
        return Err("a value is not the Rust's");
    }
    let above = above_one(&row.ours);
    if above.abs() > BOUND { Err("further than 2^-40 from 1") } else { Ok(above) }
}

/// The sums that crates/unity computes of its definitions, in units of 2^-111: of degree 2 at 0.5, 0.2 and 0.3, and of degree 25 at 0.2.
fn stated() -> u64 {
    let unit = f64::exp2(-111.0);
    let sums = [(2, 0.5, 0.0), (2, 0.2, 7.0 * f64::exp2(56.0)), (2, 0.3, -3.0 * f64::exp2(56.0)), (25, 0.2, 3_792_093_094_052_383_717.0)];
    let unlike = sums.iter().filter(|&&(degree, u, wanted)| {
        let place = Place { degree, knots: vec![0.0, 1.0], mults: vec![degree as u32 + 1; 2], u };
        above_one(&place.row().unwrap().ours) != wanted * unit
    });
    unlike.inspect(|(degree, u, _)| println!("different: the sum of degree {degree} at {u}")).count() as u64
}

/// By degree how many rows there were and how far the farthest lies from 1; and the farthest of all.
fn report(farthest: &[Option<(f64, Place)>], rows: &[u64]) {
    let met = farthest.iter().flatten().map(|(far, place)| format!("{} {} 2^{:.2}", place.degree, rows[place.degree], far.abs().log2()));
    println!("by degree the rows and the farthest: {}", met.collect::<Vec<_>>().join("; "));
    if let Some((far, place)) = farthest.iter().flatten().max_by(|a, b| a.0.abs().total_cmp(&b.0.abs())) {
        println!("the farthest of all: {far:e} from 1, {place:?}");
    }
}

/// So many rows; of every two the second lies beside the farthest of its degree so far.
pub fn compare(count: u64, seed: u64) -> u64 {
    let (mut random, mut told) = (Random::new(seed), Instant::now());
    let mut farthest: Vec<Option<(f64, Place)>> = vec![None; 26];
    let (mut rows, mut done, mut signs) = ([0u64; 26], 0, [0u64; 3]);
    while done < count {
        if told.elapsed() > Duration::from_secs(10) {
            eprintln!("{done} of {count} rows");
            told = Instant::now();
        }
        let known = &farthest[random.from_to(1, 25)];
        let place = match known {
            Some((_, known)) if done % 2 == 1 => beside(&mut random, known),
            _ => any_place(&mut random),
        };
        let Some(row) = place.row() else { continue };
        let above = match judged(&row) {
            Ok(above) => above,
            Err(what) => {
                println!("different: {what}: {place:?}");
                return 1;
            }
        };
        (done, rows[place.degree]) = (done + 1, rows[place.degree] + 1);
        signs[1 + (above > 0.0) as usize - (above < 0.0) as usize] += 1;
        let farther = &mut farthest[place.degree];
        if farther.as_ref().is_none_or(|(far, _)| above.abs() > far.abs()) {
            *farther = Some((above, place));
        }
    }
    let different = stated();
    println!("straying: {done} rows of basis values, seed {seed}: exactly 1 {}, above {}, below {}; 4 stated sums", signs[1], signs[2], signs[0]);
    report(&farthest, &rows);
    println!("{different} different");
    different
}
