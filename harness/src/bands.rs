//! The band solvers beside the Rust's: random and damaged matrices; and their times.
use crate::Point3D;
use crate::curves::fitting::pieces;
use crate::ours;
use crate::random::{Random, all_same, least_seconds};
use std::hint::black_box;

/// The rows of a band: mostly well conditioned, sometimes with zeros, huge, tiny and NaN entries.
fn band(random: &mut Random, n: usize, w: usize, diagonal: usize) -> Vec<f64> {
    let kind = random.below(4);
    (0..n * w)
        .map(|i| {
            let x = match kind {
                0 => random.unit() - 0.5,
                1 => if random.one_in(3) { 0.0 } else { random.unit() - 0.5 },
                2 => (random.unit() - 0.5) * *random.of(&[1.0, 1e150, 1e-150, 0.0, -0.0]),
                _ => if random.one_in(40) { random.double() } else { random.unit() },
            };
            if i % w == diagonal { x + if kind == 3 { 1.0 } else { w as f64 } } else { x }
        })
        .collect()
}

fn points(random: &mut Random, n: usize) -> Vec<Point3D> {
    (0..n).map(|_| Point3D::new(random.unit() - 0.5, if random.one_in(9) { -0.0 } else { random.unit() }, random.double().clamp(-1e6, 1e6))).collect()
}

pub fn compare(count: u64, seed: u64) -> u64 {
    let mut random = Random::new(seed);
    let (mut different, mut none) = (0u64, 0u64);
    for _ in 0..count {
        let (h, n) = (random.from_to(0, 25), random.from_to(1, 40));
        let right = points(&mut random, n);
        for symmetric in [true, false] {
            let w = if symmetric { h + 1 } else { 2 * h + 1 };
            let mut theirs = band(&mut random, n, w, h);
            let mut mine = theirs.clone();
            let answers = if symmetric {
                (pieces::factor_symmetric_band(&mut theirs, h, 1e-12), ours::factor_symmetric_band(&mut mine, h, n, 1e-12))
            } else {
                pieces::factor_band(&mut theirs, h);
                ours::factor_band(&mut mine, h, n);
                (true, true)
            };
            none += !answers.0 as u64;
            let (mut poles, mut places) = (right.clone(), ours::places(&right));
            if symmetric { pieces::substitute_symmetric_band(&theirs, h, &mut poles) } else { pieces::substitute_band(&theirs, h, &mut poles) }
            ours::substitute(symmetric, &mine, &mut places, h, n);
            let same = answers.0 == answers.1 && all_same(&theirs, &mine) && all_same(&ours::places(&poles), &places);
            if !same {
                different += 1;
                if different < 5 {
                    println!("different: symmetric {symmetric}, h {h}, n {n}");
                }
            }
        }
    }
    println!("band solvers: {} matrices, seed {seed}, {none} refused by Cholesky: {different} different", 2 * count);
    different
}

pub fn bench() {
    let mut random = Random::new(5);
    for (n, h) in [(64, 2), (64, 3), (64, 10), (256, 2), (256, 3), (256, 10), (1024, 2), (1024, 3), (1024, 10)] {
        let ratio = |what: &str, theirs: f64, mine: f64| println!("{what}, n {n}, h {h}, us: ours {:.2}, the Rust's {:.2}, ratio {:.2}", mine * 1e6, theirs * 1e6, mine / theirs);
        let right = points(&mut random, n);
        for symmetric in [true, false] {
            let w = if symmetric { h + 1 } else { 2 * h + 1 };
            let matrix: Vec<f64> = (0..n * w).map(|i| if i % w == h { 4.0 + w as f64 } else { random.unit() }).collect();
            let mut a = matrix.clone();
            let (mut theirs, mut mine) = (f64::INFINITY, f64::INFINITY);
            for _ in 0..60 {
                theirs = theirs.min(least_seconds(3, || {
                    a.copy_from_slice(&matrix);
                    if symmetric { black_box(pieces::factor_symmetric_band(black_box(&mut a), h, 1e-12)); } else { pieces::factor_band(black_box(&mut a), h); }
                }));
                mine = mine.min(least_seconds(3, || {
                    a.copy_from_slice(&matrix);
                    if symmetric { black_box(ours::factor_symmetric_band(black_box(&mut a), h, n, 1e-12)); } else { ours::factor_band(black_box(&mut a), h, n); }
                }));
            }
            ratio(if symmetric { "Cholesky" } else { "LU" }, theirs, mine);
            let mut poles = right.clone();
            let places = ours::places(&right);
            let mut solved = places.clone();
            let (mut theirs, mut mine) = (f64::INFINITY, f64::INFINITY);
            for _ in 0..60 {
                theirs = theirs.min(least_seconds(3, || {
                    poles.copy_from_slice(&right);
                    if symmetric { pieces::substitute_symmetric_band(&a, h, black_box(&mut poles)) } else { pieces::substitute_band(&a, h, black_box(&mut poles)) }
                }));
                mine = mine.min(least_seconds(3, || {
                    solved.copy_from_slice(&places);
                    ours::substitute(symmetric, &a, black_box(&mut solved), h, n);
                }));
            }
            ratio(if symmetric { "Cholesky's substitution" } else { "LU's substitution" }, theirs, mine);
        }
    }
}
