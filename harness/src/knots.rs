//! Spacing, knots and runs beside the Rust's, on ladders and grids of every kind.
use crate::curves::fitting::{approximation_knots, averaged_knots, pieces};
use crate::ours;
use crate::points;
use crate::random::{Random, all_same};

pub fn compare(count: u64, seed: u64) -> u64 {
    let mut random = Random::new(seed);
    let (mut different, mut refused, mut falling, mut directions) = (0u64, 0u64, 0u64, 0u64);
    let mut tell = |what: &str, same: bool| {
        if !same {
            different += 1;
            if different < 10 {
                println!("different: {what}");
            }
        }
    };
    for round in 0..count {
        let n = match random.below(20) { 0 => 1024, 1 => random.from_to(100, 1023), _ => random.from_to(2, 60) };
        let centripetal = random.one_in(2);
        let ladder = points::ladder(&mut random, n);
        let places = ours::places(&ladder);
        let theirs = pieces::point_parameters(&ladder, centripetal);
        let mine = ours::point_parameters(&places, n, centripetal);
        tell("ladder spacing", match (&theirs, &mine) { (Some(a), Some(b)) => all_same(a, b), (None, None) => true, _ => false });
        refused += theirs.is_none() as u64;
        if let Some(params) = theirs {
            let degree = random.from_to(1, 25.min(n - 1));
            let poles = random.from_to(degree + 1, n);
            let flat = averaged_knots(&params, degree);
            falling += flat.windows(2).any(|w| w[1] < w[0]) as u64;
            tell("averaged knots", all_same(&flat, &ours::averaged_knots(&params, degree)));
            let spread = approximation_knots(&params, poles, degree);
            tell("spread knots", all_same(&spread, &ours::approximation_knots(&params, poles, degree)));
            for list in [&flat, &spread] {
                let (k, m) = pieces::compress_knots(list);
                let (a, b) = ours::compress_knots(list);
                tell("runs", all_same(&k, &a) && m == b);
            }
        }
        if round % 4 == 0 {
            let (rows, cols) = (random.from_to(2, 12), random.from_to(2, 12));
            let grid = points::grid(&mut random, rows, cols);
            let places = ours::places(&grid);
            for by_rows in [true, false] {
                let theirs = if by_rows {
                    pieces::shared_parameters(rows, cols, |r, k| grid[r * cols + k], centripetal)
                } else {
                    pieces::shared_parameters(cols, rows, |r, k| grid[k * cols + r], centripetal)
                };
                let mine = if by_rows { ours::shared_parameters(&places, rows, cols, cols, 1, centripetal) } else { ours::shared_parameters(&places, cols, 1, rows, cols, centripetal) };
                tell("grid spacing", match (&theirs, &mine) { (Some(a), Some(b)) => all_same(a, b), (None, None) => true, _ => false });
                directions += theirs.is_none() as u64;
            }
        }
        if round % 16 == 0 {
            // runs of any doubles
            let mut list: Vec<f64> = (0..random.from_to(1, 20)).map(|_| random.double()).collect();
            for i in 1..list.len() {
                if random.one_in(2) { list[i] = if list[i - 1] == 0.0 { -list[i - 1] } else { list[i - 1] } }
            }
            let (k, m) = pieces::compress_knots(&list);
            let (a, b) = ours::compress_knots(&list);
            tell("runs of any doubles", all_same(&k, &a) && m == b);
        }
    }
    println!("spacing and knots: {count} ladders, seed {seed}, {refused} refused, {falling} with averaged knots that fall, {directions} directions of grids refused: {different} different");
    different
}
