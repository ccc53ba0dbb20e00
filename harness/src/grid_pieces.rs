//! A child of the published surfaces/fitting.rs: its private functions, under names that the comparison calls.
use super::*;
use crate::curve_math::bspline::distinct_knots;
use crate::curves::fitting::{fit_with_refined_knots, pieces};

fn grid(points: &[Vec<Point3D>]) -> Grid<'_> {
    Grid { points, rows: points.len(), cols: points[0].len(), u_params: vec![], v_params: vec![] }
}

pub fn fit_columns(basis: &BasisTable, count: usize, row_poles: &[Point3D], columns: usize) -> Option<Vec<Point3D>> {
    grid(&[vec![]]).fit_columns(basis, count, row_poles, columns)
}

pub fn row_deviations(points: &[Vec<Point3D>], basis: &BasisTable, row_poles: &[Point3D], count: usize, deviations: &mut [f64]) {
    grid(points).row_deviations(basis, row_poles, count, deviations)
}

pub fn deviations(points: &[Vec<Point3D>], bases: (&BasisTable, &BasisTable), poles: &[Point3D], columns: usize, deviations: &mut [f64]) {
    grid(points).deviations(bases, poles, columns, deviations)
}

/// One direction's knots and poles: the number of its mark, and whether the spread search has fewer poles than a refinement that fits too.
struct Found {
    mark: usize,
    fewer: bool,
    flat: Vec<f64>,
    poles: Vec<Point3D>,
}

impl Found {
    fn of(mark: usize, (flat, poles): (Vec<f64>, Vec<Point3D>)) -> Found {
        Found { mark, fewer: false, flat, poles }
    }
}

/// One direction's fit, each point's distance from it, and whether it interpolates and leaves out a value outside its band.
pub struct Side {
    pub mark: usize,
    pub fewer: bool,
    pub flat: Vec<f64>,
    pub poles: Vec<Point3D>,
    pub distances: Vec<f64>,
    pub drops: bool,
}

/// The fewer poles of refinement and of the spread search below it.
fn fewest(
    params: &[f64], degree: usize, tolerance: f64, mut attempt: impl FnMut(&[f64], &BasisTable, &mut [f64]) -> Option<Vec<Point3D>>,
) -> Option<Found> {
    let refined = fit_with_refined_knots(params, degree, tolerance, &mut attempt);
    let last = refined.as_ref().map_or(params.len(), |(flat, _)| flat.len() - degree - 1);
    match pieces::spread_below(params, degree, tolerance, last, attempt) {
        Some(fit) => Some(Found { fewer: refined.is_some(), ..Found::of(2, fit) }),
        None => refined.map(|fit| Found::of(1, fit)),
    }
}

/// The row poles, how many a row has, and the table of v that they are fitted on.
struct Rows<'a> {
    poles: &'a [Point3D],
    columns: usize,
    basis: &'a BasisTable,
}

/// Along v, within a tolerance of the rows.
fn rows_within(grid: &Grid, degree: usize, tolerance: f64) -> Found {
    let params = &grid.v_params;
    let found = fewest(params, degree, tolerance, |flat, basis, deviations| {
        let count = flat.len() - degree - 1;
        let poles = grid.fit_rows(basis, count)?;
        grid.row_deviations(basis, &poles, count, deviations);
        Some(poles)
    });
    found.unwrap_or_else(|| {
        let flat = averaged_knots(params, degree);
        let poles = interpolation(&BasisTable::new(&flat, degree, params), grid.rows, |i, j| grid.points[i][j]);
        Found::of(3, (flat, poles))
    })
}

/// Along u, within a tolerance of the whole grid.
fn columns_within(grid: &Grid, degree: usize, tolerance: f64, rows: &Rows) -> Found {
    let (params, columns) = (&grid.u_params, rows.columns);
    let found = fewest(params, degree, tolerance, |flat, basis, deviations| {
        let poles = grid.fit_columns(basis, flat.len() - degree - 1, rows.poles, columns)?;
        grid.deviations((basis, rows.basis), &poles, columns, deviations);
        Some(poles)
    });
    found.unwrap_or_else(|| {
        let flat = averaged_knots(params, degree);
        let by_column = interpolation(&BasisTable::new(&flat, degree, params), columns, |l, i| rows.poles[i * columns + l]);
        Found::of(3, (flat, transposed(&by_column, columns, grid.rows)))
    })
}

fn rows_chosen(grid: &Grid, degree: usize, count: usize) -> Option<Found> {
    let flat = approximation_knots(&grid.v_params, count, degree);
    let poles = grid.fit_rows(&BasisTable::new(&flat, degree, &grid.v_params), count)?;
    Some(Found::of(4, (flat, poles)))
}

fn columns_chosen(grid: &Grid, degree: usize, count: usize, rows: &Rows) -> Option<Found> {
    let flat = approximation_knots(&grid.u_params, count, degree);
    let poles = grid.fit_columns(&BasisTable::new(&flat, degree, &grid.u_params), count, rows.poles, rows.columns)?;
    Some(Found::of(4, (flat, poles)))
}

/// Each point's distance from its row's curve at the point's own v.
fn row_distances(grid: &Grid, rows: &Rows) -> Vec<f64> {
    let line = |(row, line): (&[Point3D], &Vec<Point3D>)| (0..grid.cols).map(|j| rows.basis.point(j, row).distance(line[j])).collect::<Vec<f64>>();
    rows.poles.chunks_exact(rows.columns).zip(grid.points).flat_map(line).collect()
}

/// Each point's distance from the surface at the point's own pair.
fn grid_distances(grid: &Grid, u_basis: &BasisTable, poles: &[Point3D], rows: &Rows) -> Vec<f64> {
    let by_column: Vec<Vec<Point3D>> = (0..rows.columns).map(|l| poles.iter().skip(l).step_by(rows.columns).copied().collect()).collect();
    let line = |(i, line): (usize, &Vec<Point3D>)| {
        let curve: Vec<Point3D> = by_column.iter().map(|column| u_basis.point(i, column)).collect();
        (0..grid.cols).map(|j| rows.basis.point(j, &curve).distance(line[j])).collect::<Vec<f64>>()
    };
    grid.points.iter().enumerate().flat_map(line).collect()
}

/// The single distances fold to the same largest as the Rust's own maxima.
fn check_folds(distances: &[f64], deviations: &[f64]) {
    let fold = |list: &[f64]| list.iter().fold(0.0f64, |a, &d| a.max(d)).to_bits();
    assert!(fold(distances) == fold(deviations), "the single distances differ from the maxima");
}

fn side(found: Found, distances: Vec<f64>, params: &[f64], degree: usize) -> Side {
    let Found { mark, fewer, flat, poles } = found;
    let drops = mark == 3 && pieces::drops_values(params, degree, &flat);
    Side { mark, fewer, flat, poles, distances, drops }
}

/// The v direction measured, and what the u direction takes from it.
fn measured_rows(grid: &Grid, degree: usize, found: Found) -> (Side, BasisTable) {
    let basis = BasisTable::new(&found.flat, degree, &grid.v_params);
    let columns = found.flat.len() - degree - 1;
    let distances = row_distances(grid, &Rows { poles: &found.poles, columns, basis: &basis });
    let mut deviations = vec![0.0; grid.cols];
    grid.row_deviations(&basis, &found.poles, columns, &mut deviations);
    check_folds(&distances, &deviations);
    (side(found, distances, &grid.v_params, degree), basis)
}

fn measured_columns(grid: &Grid, degree: usize, found: Found, rows: &Rows) -> Side {
    let basis = BasisTable::new(&found.flat, degree, &grid.u_params);
    let distances = grid_distances(grid, &basis, &found.poles, rows);
    let mut deviations = vec![0.0; grid.rows];
    grid.deviations((&basis, rows.basis), &found.poles, rows.columns, &mut deviations);
    check_folds(&distances, &deviations);
    side(found, distances, &grid.u_params, degree)
}

/// What our call hands out of a surface but for the counts of unreadable distances, which the Rust has no function for: u's knots, v's, and poles.
pub struct Measured {
    pub flat: [Vec<f64>; 2],
    pub distinct: [(Vec<f64>, Vec<u32>); 2],
    pub poles: Vec<Point3D>,
    pub largest: [f64; 2],
}

/// `approximate`, and then the distances by its own functions, on the tables that the fit was made on.
pub fn approximate_measured(points: &[Vec<Point3D>], [p, q]: [usize; 2], [m, n]: [usize; 2], centripetal: bool) -> Option<Measured> {
    let grid = Grid::new(points, pieces::spacing(centripetal)).ok()?;
    let v_flat = approximation_knots(&grid.v_params, n, q);
    let v_basis = BasisTable::new(&v_flat, q, &grid.v_params);
    let u_flat = approximation_knots(&grid.u_params, m, p);
    let u_basis = BasisTable::new(&u_flat, p, &grid.u_params);
    let row_poles = grid.fit_rows(&v_basis, n)?;
    let poles = grid.fit_columns(&u_basis, m, &row_poles, n)?;
    let (mut along_u, mut along_v) = (vec![0.0; grid.rows], vec![0.0; grid.cols]);
    grid.row_deviations(&v_basis, &row_poles, n, &mut along_v);
    grid.deviations((&u_basis, &v_basis), &poles, n, &mut along_u);
    let largest = [along_u, along_v].map(|list| list.iter().fold(0.0f64, |a, &d| a.max(d)));
    Some(Measured { distinct: [distinct_knots(&u_flat), distinct_knots(&v_flat)], flat: [u_flat, v_flat], poles, largest })
}

/// The direction in which least squares gave none.
pub const ROWS: &str = "rows";
pub const COLUMNS: &str = "columns";

/// Both directions of a grid whose parameters exist and whose degrees and pole counts were checked: u and v. Where `counts` is given, as many poles.
pub fn sides(
    points: &[Vec<Point3D>], [p, q]: [usize; 2], counts: Option<[usize; 2]>, tolerance: f64, centripetal: bool,
) -> Result<[Side; 2], &'static str> {
    let grid = Grid::new(points, pieces::spacing(centripetal)).expect("parameters");
    let found = match counts {
        Some([_, m]) => rows_chosen(&grid, q, m).ok_or(ROWS)?,
        None => rows_within(&grid, q, 0.8 * tolerance),
    };
    let (v, basis) = measured_rows(&grid, q, found);
    let rows = Rows { poles: &v.poles, columns: v.poles.len() / grid.rows, basis: &basis };
    let found = match counts {
        Some([m, _]) => columns_chosen(&grid, p, m, &rows).ok_or(COLUMNS)?,
        None => columns_within(&grid, p, tolerance, &rows),
    };
    let u = measured_columns(&grid, p, found, &rows);
    Ok([u, v])
}
