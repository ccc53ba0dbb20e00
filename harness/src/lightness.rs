//! The lightness factor (document 02, request Five): in every distance the first coordinates' difference is multiplied by it before it is squared. The published
//! Rust has the factor 1 alone; built with the feature `factor`, its `Point3D::distance` takes the one that is set here.
use crate::points;
use crate::random::Random;
use crate::tally::Tally;
use std::cell::Cell;

/// Whether the reference takes factors other than 1.
pub const TAKEN: bool = cfg!(feature = "factor");

thread_local! {
    static NOW: Cell<f64> = const { Cell::new(1.0) };
}

/// The factor of this thread's distances.
pub fn factor() -> f64 {
    NOW.get()
}

/// Runs `f` where distances have this factor.
pub fn with<T>(factor: f64, f: impl FnOnce() -> T) -> T {
    assert!(TAKEN || factor == 1.0, "no reference at the factor {factor:?}");
    let before = NOW.replace(factor);
    let result = f();
    NOW.set(before);
    result
}

/// Whether a call is refused with 17 for it.
pub fn refused(factor: f64) -> bool {
    !(0.25..=4.0).contains(&factor)
}

/// Whether a call with it has a reference: one at the factor, or none needed.
pub fn known(factor: f64) -> bool {
    TAKEN || factor == 1.0 || refused(factor)
}

/// Numbers that are no factor.
pub const OUTSIDE: [f64; 14] = [
    f64::NAN, -f64::NAN, f64::INFINITY, f64::NEG_INFINITY, 0.0, -0.0, -1.0, -0.25, 0.25f64.next_down(), 4.0f64.next_up(), 5e-324, f64::MIN_POSITIVE, f64::MAX,
    f64::MIN,
];

/// The least and the largest factor, some between, and neighbours.
pub const WITHIN: [f64; 8] = [0.25, 0.25f64.next_up(), 0.5, 1.0f64.next_down(), 1.0f64.next_up(), 2.0, 4.0f64.next_down(), 4.0];

/// A number that is no factor.
fn outside(random: &mut Random) -> f64 {
    if random.one_in(2) {
        return *random.of(&OUTSIDE);
    }
    loop {
        let x = random.double();
        if refused(x) {
            return x;
        }
    }
}

/// A factor that the reference takes, or sometimes a number that is none.
pub fn any(random: &mut Random) -> f64 {
    if !TAKEN {
        return if random.one_in(30) { outside(random) } else { 1.0 };
    }
    match random.below(20) {
        0..=2 => 1.0,
        3..=5 => 0.25,
        6..=8 => 4.0,
        9 => outside(random),
        10..=12 => *random.of(&WITHIN),
        _ => 0.25 + 3.75 * random.unit(),
    }
}

/// Any factor, and a call drawn where distances have it; beside a number that is none the call is drawn at the factor 1.
pub fn drawn<T>(random: &mut Random, call: impl FnOnce(&mut Random) -> T) -> (f64, T) {
    let factor = any(random);
    (factor, with(if refused(factor) { 1.0 } else { factor }, || call(random)))
}

/// Beside a number that is no factor: sometimes a slice too short, sometimes a coordinate too far.
pub fn beside(random: &mut Random, places: &mut [f64], extra: &mut [i64]) {
    if random.one_in(5) {
        extra[random.from_to(0, extra.len() - 1)] = -1;
    }
    if random.one_in(5) && !places.is_empty() {
        places[random.from_to(0, places.len() - 1)] = *random.of(&[1e6f64.next_up(), -2e6, f64::NAN, f64::INFINITY]);
    }
}

/// Whether it is a factor that rounds no first coordinate multiplied by it: a power of two, or they are all 0.
pub fn exact(places: &[f64], factor: f64) -> bool {
    !refused(factor) && (factor.to_bits() << 12 == 0 || places.iter().step_by(3).all(|x| *x == 0.0))
}

/// The places with each point's first coordinate multiplied.
pub fn multiplied(places: &[f64], by: f64) -> Vec<f64> {
    places.iter().enumerate().map(|(k, &x)| if k % 3 == 0 { x * by } else { x }).collect()
}

const KINDS: [&str; 5] = ["1", "0.25", "4", "other within", "outside"];
const SHORT: &str = "outside and a slice too short, refused with 9";
const FAR: &str = "outside and a coordinate too far, refused with 17";

/// What a report shows of factors, none of it met.
pub fn expected(tally: Tally, group: &str) -> Tally {
    tally.expect(group, KINDS.into_iter().filter(|kind| TAKEN || ["1", "outside"].contains(kind)).chain([SHORT, FAR]))
}

/// Counts the factor of a call that is refused with the number, or not.
pub fn count(tally: &mut Tally, group: &str, factor: f64, places: &[f64], number: u32) {
    let kind = [1.0, 0.25, 4.0].iter().position(|x| *x == factor).unwrap_or(3 + refused(factor) as usize);
    tally.count(group, KINDS[kind], 1);
    if refused(factor) {
        tally.count(group, SHORT, (number == 9) as u64);
        tally.count(group, FAR, (number == 17 && points::too_far(places)) as u64);
    }
}
