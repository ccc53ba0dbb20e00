//! The square root beside the hardware's, the whole part beside `as usize`, and sorting beside `total_cmp`.
use crate::ours;
use crate::random::{Random, least_seconds, same};
use std::hint::black_box;

/// Digits at the edges of a significand, whose roots lie next to a midpoint or to a change of exponent.
const EDGES: [u64; 12] = [
    0, 1, 2, 3, 0x8_0000_0000_0000, 0x7_ffff_ffff_ffff, 0xf_ffff_ffff_ffff, 0xf_ffff_ffff_fffe, 0x6_a09e_667f_3bcc, 0x6_a09e_667f_3bcd, 0x4_0000_0000_0000,
    0xc_0000_0000_0000,
];

pub fn compare(count: u64, seed: u64) -> u64 {
    let mut different = 0;
    let mut compared = 0u64;
    let mut check = |bits: u64| {
        let x = f64::from_bits(bits);
        compared += 1;
        if !same(ours::sqrt(x), x.sqrt()) || ours::whole_part(x) != x as usize {
            different += 1;
            if different < 10 {
                println!("different at {bits:016x}: {:016x} {:016x}", ours::sqrt(x).to_bits(), x.sqrt().to_bits());
            }
        }
    };
    for exponent in 0..2048u64 {
        for sign in 0..2u64 {
            for edge in EDGES {
                check(sign << 63 | exponent << 52 | edge);
            }
        }
    }
    for k in 0..64 {
        for near in 0..5u64 {
            check((1u64 << k).wrapping_add(near).wrapping_sub(2));
        }
    }
    let mut random = Random::new(seed);
    for _ in 0..count.saturating_sub(2048 * 2 * EDGES.len() as u64) / 5 + 1 {
        let bits = random.next();
        check(bits);
        // a subnormal, and the neighbours of a square
        check(bits >> 12);
        let root = f64::from_bits(bits & 0x7fff_ffff_f800_0000 | 0x8000000);
        let square = (root * root).to_bits();
        for near in 0..3u64 {
            check(square.wrapping_add(near).wrapping_sub(1));
        }
    }
    let mut sorts = 0;
    for _ in 0..count / 1000 {
        let mut list: Vec<f64> = (0..random.from_to(0, 24)).map(|_| random.double()).collect();
        let mut theirs = list.clone();
        ours::sort(&mut list);
        // our NaNs are one value, which ranks above all: the Rust's are made so too
        theirs.iter_mut().for_each(|x| if x.is_nan() { *x = f64::NAN.abs() });
        theirs.sort_by(f64::total_cmp);
        sorts += 1;
        if !crate::random::all_same(&list, &theirs) {
            different += 1;
        }
    }
    println!("roots and whole parts: {compared} bit patterns, {sorts} lists sorted, seed {seed}: {different} different");
    different
}

/// Nanoseconds a call where calls overlap, the results going into an array, and where each waits for the one before.
fn times(f: impl Fn(f64) -> f64, xs: &[f64], out: &mut [f64]) -> (f64, f64) {
    let apart = least_seconds(100, || {
        out.iter_mut().zip(xs).for_each(|(o, &x)| *o = f(x));
        black_box(&mut *out);
    });
    let chained = least_seconds(100, || { black_box(xs.iter().fold(2.0, |z, &x| f(z + x * 0.0))); });
    (apart / xs.len() as f64 * 1e9, chained / xs.len() as f64 * 1e9)
}

pub fn bench() {
    let mut random = Random::new(7);
    let xs: Vec<f64> = (0..4096).map(|_| f64::from_bits(random.next() >> 2)).collect();
    let mut out = vec![0.0; xs.len()];
    let least = |a: (f64, f64), b: (f64, f64)| (a.0.min(b.0), a.1.min(b.1));
    let (mut mine, mut theirs) = ((f64::INFINITY, f64::INFINITY), (f64::INFINITY, f64::INFINITY));
    for _ in 0..5 {
        mine = least(mine, times(ours::sqrt, &xs, &mut out));
        theirs = least(theirs, times(hardware, &xs, &mut out));
    }
    println!("sqrt, ns a call: ours {:.2}, the hardware's by a call {:.2}, ratio {:.2}", mine.0, theirs.0, mine.0 / theirs.0);
    println!("sqrt, ns a call that waits for the one before: ours {:.2}, the hardware's {:.2}, ratio {:.2}", mine.1, theirs.1, mine.1 / theirs.1);
}

#[inline(never)]
fn hardware(x: f64) -> f64 {
    x.sqrt()
}
