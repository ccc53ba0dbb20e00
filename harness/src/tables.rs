//! Tables, least squares, interpolation and deviations beside the Rust's, on ladders and grids of every kind; and their times.
use crate::Point3D;
use crate::curves::fitting::{BasisTable, approximation_knots, averaged_knots, interpolation, least_squares, pieces};
use crate::ladders::fold;
use crate::ours::{self, Lines, Work};
use crate::points;
use crate::random::{Random, all_same, least_seconds, same};
use crate::surfaces::fitting::pieces as grids;
use std::hint::black_box;

/// Flat knots of `degree` for parameters: averaged, spread, or gathered where chance puts them, some of them more than once.
fn flat_knots(random: &mut Random, params: &[f64], degree: usize) -> Vec<f64> {
    let n = params.len();
    match random.below(4) {
        0 => averaged_knots(params, degree),
        1 | 2 if degree + 1 < n => approximation_knots(params, random.from_to(degree + 1, n - 1), degree),
        _ => {
            let inner = random.from_to(0, n - degree - 1);
            let mut knots: Vec<f64> = (0..inner).map(|_| if random.one_in(3) { params[random.from_to(0, n - 1)] } else { random.unit() }).collect();
            knots.sort_by(f64::total_cmp);
            let mut flat = vec![0.0; degree + 1];
            flat.extend(knots);
            flat.resize(flat.len() + degree + 1, 1.0);
            flat
        }
    }
}

/// How many of a grid's distances are NaN: the Rust keeps only the largest of a row.
fn grid_nans(u: &BasisTable, v: &BasisTable, poles: &[Point3D], columns: usize, lines: &[Vec<Point3D>]) -> usize {
    let column = |l: usize| -> Vec<Point3D> { poles.iter().skip(l).step_by(columns).copied().collect() };
    let by_column: Vec<Vec<Point3D>> = (0..columns).map(column).collect();
    let nans = |(i, line): (usize, &Vec<Point3D>)| {
        let curve: Vec<Point3D> = by_column.iter().map(|c| u.point(i, c)).collect();
        (0..line.len()).filter(|&j| v.point(j, &curve).distance(line[j]).is_nan()).count()
    };
    lines.iter().enumerate().map(nans).sum()
}

struct Tally {
    different: u64,
    grids: u64,
    none: u64,
    fits: u64,
    unreadable: u64,
}

impl Tally {
    fn tell(&mut self, what: &str, same: bool) {
        if !same {
            self.different += 1;
            if self.different < 10 {
                println!("different: {what}");
            }
        }
    }

    fn table(&mut self, work: &mut Work, basis: &BasisTable) {
        work.fill_table_checked();
        self.tell("table", work.firsts() == pieces::firsts(basis) && all_same(work.table_values(), pieces::values(basis)));
    }

    /// Fits by least squares, and by interpolation where there is a pole for each parameter: the poles of the last that gave any.
    fn fits(&mut self, work: &mut Work, basis: &BasisTable, places: &[f64], point: impl Fn(usize, usize) -> Point3D) -> Option<Vec<Point3D>> {
        let theirs = least_squares(basis, work.m, work.given.lines, &point);
        let mine = work.least_squares_checked(places);
        self.fits += 1;
        self.none += theirs.is_none() as u64;
        self.tell("least squares", match &theirs { Some(poles) => mine && all_same(&ours::places(poles), work.found_poles()), None => !mine });
        if work.m < work.count {
            return theirs;
        }
        let theirs = interpolation(basis, work.given.lines, &point);
        work.interpolation(places);
        self.tell("interpolation", all_same(&ours::places(&theirs), work.found_poles()));
        Some(theirs)
    }

    fn ladder(&mut self, random: &mut Random) {
        let n = match random.below(40) { 0 => 1024, 1 | 2 => random.from_to(100, 1023), _ => random.from_to(2, 40) };
        let ladder = points::ladder(random, n);
        let Some(params) = pieces::point_parameters(&ladder, random.one_in(2)) else { return };
        let degree = random.from_to(1, 25.min(n - 1));
        let flat = flat_knots(random, &params, degree);
        let basis = BasisTable::new(&flat, degree, &params);
        let places = ours::places(&ladder);
        let mut work = Work::new(&params, &flat, degree, Lines { kind: 0, lines: 1, across: 0 }, &[]);
        self.table(&mut work, &basis);
        let Some(poles) = self.fits(&mut work, &basis, &places, |_, k| ladder[k]) else { return };
        let theirs: Vec<f64> = (0..n).map(|k| basis.point(k, &poles).distance(ladder[k])).collect();
        let (largest, unreadable) = work.measure(&places);
        let count = theirs.iter().filter(|d| d.is_nan()).count();
        self.unreadable += count as u64;
        self.tell("ladder deviations", all_same(&theirs, &work.deviations()) && same(largest, fold(&theirs)) && unreadable == count);
    }

    fn grid(&mut self, random: &mut Random) {
        let (rows, cols) = (random.from_to(2, 14), random.from_to(2, 14));
        let grid = points::grid(random, rows, cols);
        let centripetal = random.one_in(2);
        let Some(v_params) = pieces::shared_parameters(rows, cols, |r, k| grid[r * cols + k], centripetal) else { return };
        let degree = random.from_to(1, 25.min(cols - 1));
        let flat = flat_knots(random, &v_params, degree);
        let basis = BasisTable::new(&flat, degree, &v_params);
        let places = ours::places(&grid);
        let mut work = Work::new(&v_params, &flat, degree, Lines { kind: 1, lines: rows, across: cols }, &[]);
        self.table(&mut work, &basis);
        let Some(row_poles) = self.fits(&mut work, &basis, &places, |i, j| grid[i * cols + j]) else { return };
        let lines: Vec<Vec<Point3D>> = grid.chunks_exact(cols).map(<[Point3D]>::to_vec).collect();
        let mut theirs = vec![0.0; cols];
        grids::row_deviations(&lines, &basis, &row_poles, work.m, &mut theirs);
        let distances = (0..rows).flat_map(|i| (0..cols).map(move |j| (i, j))).map(|(i, j)| basis.point(j, &row_poles[i * work.m..]).distance(grid[i * cols + j]));
        let count = distances.filter(|d| d.is_nan()).count();
        let (largest, unreadable) = work.measure(&places);
        self.unreadable += count as u64;
        self.tell("row deviations", all_same(&theirs, &work.deviations()) && same(largest, fold(&theirs)) && unreadable == count);

        let Some(u_params) = pieces::shared_parameters(cols, rows, |r, k| grid[k * cols + r], centripetal) else { return };
        let u_degree = random.from_to(1, 25.min(rows - 1));
        let u_flat = flat_knots(random, &u_params, u_degree);
        let u_basis = BasisTable::new(&u_flat, u_degree, &u_params);
        let columns = work.m;
        let mut columns_work = Work::new(&u_params, &u_flat, u_degree, Lines { kind: 2, lines: columns, across: columns }, &ours::places(&row_poles));
        self.table(&mut columns_work, &u_basis);
        let Some(by_column) = self.fits(&mut columns_work, &u_basis, &places, |l, i| row_poles[i * columns + l]) else { return };
        let count = columns_work.m;
        let poles: Vec<Point3D> = (0..count).flat_map(|k| (0..columns).map(move |l| (k, l))).map(|(k, l)| by_column[l * count + k]).collect();
        let mut theirs = vec![0.0; rows];
        grids::deviations(&lines, (&u_basis, &basis), &poles, columns, &mut theirs);
        let (mine, largest, unreadable) = ours::grid_deviations(&columns_work, &work, &places);
        let unread = grid_nans(&u_basis, &basis, &poles, columns, &lines);
        self.unreadable += unread as u64;
        self.grids += 1;
        self.tell("grid deviations", all_same(&theirs, &mine) && same(largest, fold(&theirs)) && unreadable == unread);
    }
}

pub fn compare(count: u64, seed: u64) -> u64 {
    let mut random = Random::new(seed);
    let mut tally = Tally { different: 0, grids: 0, none: 0, fits: 0, unreadable: 0 };
    for round in 0..count {
        if round % 4 == 3 { tally.grid(&mut random) } else { tally.ladder(&mut random) }
    }
    let Tally { different, grids, none, fits, unreadable } = tally;
    println!("tables and fits: {fits} fits, seed {seed}, {none} without least-squares poles, {grids} whole grids measured, {unreadable} unreadable distances: {different} different");
    different
}

pub fn bench() {
    for (n, degree) in [(64, 3), (64, 10), (256, 3), (256, 10), (1024, 3), (1024, 10)] {
        let ladder: Vec<Point3D> = (0..n).map(|k| { let t = k as f64 / n as f64; Point3D::new((t * 5.0).sin(), (t * 3.0).cos(), t) }).collect();
        let places = ours::places(&ladder);
        let params = pieces::point_parameters(&ladder, true).unwrap();
        let m = n / 2;
        let flat = approximation_knots(&params, m, degree);
        let mut work = Work::new(&params, &flat, degree, Lines { kind: 0, lines: 1, across: 0 }, &[]);
        let ratio = |what: &str, theirs: f64, mine: f64| println!("{what}, n {n}, degree {degree}, us: ours {:.2}, the Rust's {:.2}, ratio {:.2}", mine * 1e6, theirs * 1e6, mine / theirs);
        let times = |their: &mut dyn FnMut(), my: &mut dyn FnMut()| {
            let (mut theirs, mut mine) = (f64::INFINITY, f64::INFINITY);
            for _ in 0..60 {
                theirs = theirs.min(least_seconds(3, &mut *their));
                mine = mine.min(least_seconds(3, &mut *my));
            }
            (theirs, mine)
        };
        let (theirs, mine) = times(&mut || { black_box(BasisTable::new(black_box(&flat), degree, &params)); }, &mut || black_box(&mut work).fill_table());
        ratio("table", theirs, mine);
        let basis = BasisTable::new(&flat, degree, &params);
        let (theirs, mine) = times(
            &mut || { black_box(least_squares(black_box(&basis), m, 1, |_, k| ladder[k])); },
            &mut || { black_box(black_box(&mut work).least_squares(&places)); },
        );
        ratio("least squares", theirs, mine);
    }
}
