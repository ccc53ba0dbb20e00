//! Ladders and grids of every kind: smooth, noisy, with corners, with points that nearly coincide, with far jumps, with doubles at the edges of the range.
//! Small gaps along the first axis are divided by the lightness factor, so that their distances are what they are at the factor 1.
use crate::Point3D;
use crate::lightness;
use crate::random::Random;

fn p(x: f64, y: f64, z: f64) -> Point3D {
    Point3D::new(x, y, z)
}

/// `before` points alternating between two far corners, `close` points a little over the bound of coincidence apart, `after` more alternating.
pub fn alternating(before: usize, close: usize, after: usize) -> Vec<Point3D> {
    let far = |k: usize| if k % 2 == 0 { p(-1e6, -1e6, -1e6) } else { p(1e6, 1e6, 1e6) };
    let gap = 1.000001e-7 / lightness::factor();
    let mut points: Vec<Point3D> = (0..before).map(far).collect();
    points.extend((1..=close).map(|k| p(k as f64 * gap, 0.0, 0.0)));
    points.extend((0..after).map(far));
    points
}

/// `before` points alternating between two corners of this size, one at the far corner, and `close` points a little over the bound of coincidence apart.
pub fn swinging(before: usize, size: f64, close: usize) -> Vec<Point3D> {
    let corner = |x: f64| p(x, x, x);
    let mut points: Vec<Point3D> = (0..before).map(|k| corner(if k % 2 == 0 { -size } else { size })).collect();
    points.push(corner(1e6));
    points.extend(alternating(0, close, 0));
    points
}

/// n points of a ladder.
pub fn ladder(random: &mut Random, n: usize) -> Vec<Point3D> {
    let line = |f: &mut dyn FnMut(usize) -> Point3D| (0..n).map(f).collect::<Vec<_>>();
    let size = *random.of(&[1.0, 100.0, 1e-3, 1e6, 1e-6]);
    let mut points = match random.below(9) {
        0 => line(&mut |k| p(k as f64, 0.0, 0.0)),
        1 => {
            let (a, b) = (random.unit() * 6.0, random.unit() * 3.0);
            line(&mut |k| { let t = k as f64 / n as f64; p((t * a).sin() * size, (t * b).cos() * size, t * size) })
        }
        2 => line(&mut |_| p(random.unit() * size, random.unit() * size, random.unit() * size)),
        3 => {
            let noise = *random.of(&[1e-6, 1e-2, 0.3]);
            line(&mut |k| { let t = k as f64; p(t, (t * 0.3).sin() + noise * random.unit(), noise * random.unit()) })
        }
        4 => {
            let corner = random.from_to(0, n - 1);
            line(&mut |k| p(k as f64, if k < corner { 0.0 } else { (k - corner) as f64 }, 0.0))
        }
        5 => line(&mut |_| p(random.below(4) as f64, random.below(4) as f64, random.below(3) as f64)),
        6 => line(&mut |k| p((k as f64 * 0.37).exp().min(1e6), -0.0, 0.0)),
        7 => {
            let close = random.from_to(0, n);
            let before = random.from_to(0, n - close);
            alternating(before, close, n - close - before)
        }
        _ => line(&mut |_| p(edge(random), edge(random), edge(random))),
    };
    if random.one_in(12) {
        let k = random.from_to(1, n - 1);
        let near = points[k - 1];
        let gap = *random.of(&[0.0, 1e-7, 1.0000000000000002e-7, 9.999999999999999e-8, 5e-324, 1e-8]);
        points[k] = p(near.x + gap / lightness::factor(), near.y, near.z);
    }
    points
}

/// n points one apart along the second axis, but for two neighbours: these are apart along the first alone, by about the bound of coincidence.
pub fn close(random: &mut Random, n: usize) -> Vec<Point3D> {
    let (at, bound) = (random.from_to(1, n - 1), 1e-7 / lightness::factor());
    let gap = *random.of(&[bound, bound.next_up(), bound.next_up().next_up(), bound.next_down()]) * *random.of(&[1.0, -1.0]);
    (0..n).map(|k| if k < at { p(0.0, k as f64, 0.0) } else { p(gap, k as f64 - 1.0, 0.0) }).collect()
}

/// Whether a coordinate is not finite or above 1,000,000 in size.
pub fn too_far(places: &[f64]) -> bool {
    places.iter().any(|x| !x.is_finite() || x.abs() > 1_000_000.0)
}

/// A coordinate that is no larger than 1,000,000 in size.
fn edge(random: &mut Random) -> f64 {
    loop {
        let x = random.double();
        if x.abs() <= 1e6 {
            return x;
        }
    }
}

/// rows x cols points of a grid, row after row.
pub fn grid(random: &mut Random, rows: usize, cols: usize) -> Vec<Point3D> {
    let size = *random.of(&[1.0, 100.0, 1e-3, 1e5]);
    let (a, b, noise) = (random.unit() * 4.0, random.unit() * 4.0, *random.of(&[0.0, 1e-6, 1e-2, 1.0]));
    let mut points = Vec::with_capacity(rows * cols);
    match random.below(5) {
        0 | 1 => for i in 0..rows { for j in 0..cols {
            let (u, v) = (i as f64 / rows as f64, j as f64 / cols as f64);
            points.push(p(u * size, v * size, ((u * a).sin() * (v * b).cos() + noise * random.unit()) * size));
        } },
        2 => for _ in 0..rows * cols { points.push(p(random.unit() * size, random.unit() * size, random.unit() * size)) },
        3 => for _ in 0..rows * cols { points.push(p(random.below(3) as f64, random.below(3) as f64, random.below(2) as f64)) },
        _ => for _ in 0..rows * cols { points.push(p(edge(random), edge(random), edge(random))) },
    }
    if random.one_in(4) {
        let i = random.from_to(0, rows - 1);
        let at = points[i * cols];
        (0..cols).for_each(|j| points[i * cols + j] = at);
    }
    if random.one_in(8) {
        let j = random.from_to(0, cols - 1);
        let at = points[j];
        (0..rows).for_each(|i| points[i * cols + j] = at);
    }
    points
}

/// Point (i, j) is the sum of half of point i of one ladder and half of point j of another.
pub fn summed(a: &[Point3D], b: &[Point3D]) -> Vec<Point3D> {
    let half = |s: f64, t: f64| 0.5 * s + 0.5 * t;
    a.iter().flat_map(|r| b.iter().map(move |q| p(half(r.x, q.x), half(r.y, q.y), half(r.z, q.z)))).collect()
}

/// One row is the ladder; each other row stays at one point, and so has no length.
pub fn lone(random: &mut Random, rows: usize, ladder: &[Point3D]) -> Vec<Point3D> {
    let (at, apart) = (random.from_to(0, rows - 1), *random.of(&[1.0, 100.0, 1e-3]));
    let row = |i: usize| if i == at { ladder.to_vec() } else { vec![p(i as f64 * apart, 0.5, -0.0); ladder.len()] };
    (0..rows).flat_map(row).collect()
}

/// A flat grid, its lines unevenly apart.
fn flat(random: &mut Random, rows: usize, cols: usize) -> Vec<Point3D> {
    let mut along = |n: usize| { let mut at = 0.0; (0..n).map(|_| { at += 1.0 + random.below(3) as f64; at }).collect::<Vec<f64>>() };
    let (xs, ys) = (along(rows), along(cols));
    xs.iter().flat_map(|&x| ys.iter().map(move |&y| p(x, y, 0.0))).collect()
}

/// Rows about as long as the bound below which they are skipped.
fn short_rows(random: &mut Random, rows: usize, cols: usize) -> Vec<Point3D> {
    let mut points = Vec::with_capacity(rows * cols);
    for i in 0..rows {
        let length = *random.of(&[1e-7, 1e-7, 1e-7f64.next_up(), 1e-7f64.next_down(), 0.0]) / lightness::factor();
        let last = if random.one_in(2) { 1 } else { cols - 1 };
        points.extend((0..cols).map(|j| p(length * j.min(last) as f64 / last as f64, i as f64, 0.0)));
    }
    points
}

/// Points one apart whose heights are bent unevenly along both directions.
fn bent(random: &mut Random, rows: usize, cols: usize) -> Vec<Point3D> {
    let mut heights = |n: usize| (0..n).map(|_| random.below(4) as f64).collect::<Vec<f64>>();
    let (a, b) = (heights(rows), heights(cols));
    (0..rows * cols).map(|k| p((k / cols) as f64, (k % cols) as f64, a[k / cols] + b[k % cols])).collect()
}

/// cols x rows points as rows x cols.
pub fn turned(points: &[Point3D], rows: usize, cols: usize) -> Vec<Point3D> {
    (0..rows * cols).map(|k| points[k % cols * rows + k / cols]).collect()
}

/// rows x cols points of a grid of any kind.
fn upright_grid(random: &mut Random, rows: usize, cols: usize) -> Vec<Point3D> {
    match random.below(12) {
        0 => flat(random, rows, cols),
        1 => short_rows(random, rows, cols),
        2 => { let ladder = ladder(random, cols); lone(random, rows, &ladder) }
        3 | 4 | 5 => bent(random, rows, cols),
        6 | 7 => { let (a, b) = (ladder(random, rows), ladder(random, cols)); summed(&a, &b) }
        _ => grid(random, rows, cols),
    }
}

/// The same, half of them turned.
pub fn any_grid(random: &mut Random, rows: usize, cols: usize) -> Vec<Point3D> {
    if random.one_in(2) { upright_grid(random, rows, cols) } else { turned(&upright_grid(random, cols, rows), rows, cols) }
}
