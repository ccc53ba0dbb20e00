//! The inner functions of libpieces.a, and safe functions over them. A slice passes as a pointer and then a length. The library's own calls are those of
//! nigorzai.rs.
use crate::Point3D;
pub use crate::nigorzai::{GridLent, Lent, lent_read as read};
use crate::nigorzai::{Asked, GridAsked, lent_grid, lent_ladder};

unsafe extern "C" {
    safe fn pieces_sqrt(x: f64) -> f64;
    safe fn pieces_whole_part(x: f64) -> usize;
    fn pieces_sort(list: *mut f64, n: usize);
    fn pieces_point_parameters(points: *const f64, len: usize, start: usize, stride: usize, n: usize, centripetal: bool, out: *mut f64, out_len: usize) -> bool;
    fn pieces_shared_parameters(
        points: *const f64, len: usize, lines: usize, pitch: usize, n: usize, stride: usize, centripetal: bool, out: *mut f64, out_len: usize,
    ) -> bool;
    fn pieces_averaged_knots(params: *const f64, params_len: usize, degree: usize, flat: *mut f64, flat_len: usize);
    fn pieces_approximation_knots(params: *const f64, params_len: usize, poles: usize, degree: usize, flat: *mut f64, flat_len: usize);
    fn pieces_compress_knots(flat: *const f64, len: usize, knots: *mut f64, knots_len: usize, mults: *mut u32, mults_len: usize) -> usize;
    fn pieces_factor_symmetric_band(lower: *mut f64, len: usize, h: usize, n: usize, relative: f64) -> bool;
    fn pieces_substitute_symmetric_band(lower: *const f64, lower_len: usize, poles: *mut f64, poles_len: usize, h: usize, n: usize);
    fn pieces_factor_band(band: *mut f64, len: usize, h: usize, n: usize);
    fn pieces_substitute_band(band: *const f64, band_len: usize, poles: *mut f64, poles_len: usize, h: usize, n: usize);
    fn pieces_fill_table(
        flat: *const f64, flat_len: usize, degree: usize, params: *const f64, params_len: usize, firsts: *mut usize, firsts_len: usize,
        values: *mut f64, values_len: usize,
    );
    fn pieces_least_squares(
        degree: usize, m: usize, firsts: *const usize, firsts_len: usize, values: *const f64, values_len: usize, points: *const f64, points_len: usize,
        lines: usize, pitch: usize, stride: usize, band: *mut f64, band_len: usize, poles: *mut f64, poles_len: usize,
    ) -> bool;
    fn pieces_interpolation(
        degree: usize, firsts: *const usize, firsts_len: usize, values: *const f64, values_len: usize, points: *const f64, points_len: usize,
        lines: usize, pitch: usize, stride: usize, band: *mut f64, band_len: usize, poles: *mut f64, poles_len: usize,
    );
    fn pieces_ladder_deviations(
        degree: usize, m: usize, firsts: *const usize, firsts_len: usize, values: *const f64, values_len: usize, poles: *const f64, poles_len: usize,
        points: *const f64, points_len: usize, squares: *mut f64, squares_len: usize, most: *mut f64, most_len: usize,
    ) -> usize;
    fn pieces_row_deviations(
        degree: usize, m: usize, firsts: *const usize, firsts_len: usize, values: *const f64, values_len: usize, rows: usize, poles: *const f64, poles_len: usize,
        points: *const f64, points_len: usize, squares: *mut f64, squares_len: usize, most: *mut f64, most_len: usize,
    ) -> usize;
    fn pieces_grid_deviations(
        pu: usize, mu: usize, fu: *const usize, fu_len: usize, wu: *const f64, wu_len: usize, pv: usize, mv: usize, fv: *const usize, fv_len: usize,
        wv: *const f64, wv_len: usize, poles: *const f64, poles_len: usize, points: *const f64, points_len: usize, curve: *mut f64, curve_len: usize,
        squares: *mut f64, squares_len: usize, most: *mut f64, most_len: usize,
    ) -> usize;
    fn pieces_curve_point(flat: *const f64, flat_len: usize, degree: usize, poles: *const f64, poles_len: usize, u: f64, out: *mut f64, out_len: usize);
}

pub fn sqrt(x: f64) -> f64 {
    pieces_sqrt(x)
}

pub fn whole_part(x: f64) -> usize {
    pieces_whole_part(x)
}

pub fn sort(list: &mut [f64]) {
    unsafe { pieces_sort(list.as_mut_ptr(), list.len()) }
}

/// A reading of a curve whose parts pass the reader's checks.
pub fn curve_point(flat: &[f64], degree: usize, poles: &[f64], u: f64) -> [f64; 3] {
    assert!(degree <= 25 && 2 * degree + 2 <= flat.len() && 3 * (flat.len() - degree - 1) <= poles.len());
    debug_assert!(flat.windows(2).all(|w| w[0] <= w[1]));
    let mut out = [0.0; 3];
    unsafe { pieces_curve_point(flat.as_ptr(), flat.len(), degree, poles.as_ptr(), poles.len(), u, out.as_mut_ptr(), 3) };
    out
}

pub fn places(points: &[Point3D]) -> Vec<f64> {
    points.iter().flat_map(|q| [q.x, q.y, q.z]).collect()
}

/// Places beyond what a function may write, which must come back as they were.
const GUARD: f64 = 7.25;

pub fn point_parameters(points: &[f64], n: usize, centripetal: bool) -> Option<Vec<f64>> {
    assert!(2 <= n && 3 * n <= points.len());
    let mut out = vec![GUARD; n + 1];
    let found = unsafe { pieces_point_parameters(points.as_ptr(), points.len(), 0, 1, n, centripetal, out.as_mut_ptr(), out.len()) };
    assert!(out[n] == GUARD);
    out.truncate(n);
    found.then_some(out)
}

pub fn shared_parameters(points: &[f64], lines: usize, pitch: usize, n: usize, stride: usize, centripetal: bool) -> Option<Vec<f64>> {
    assert!(2 <= n && lines >= 1 && 3 * ((lines - 1) * pitch + stride * (n - 1)) + 3 <= points.len());
    let mut out = vec![GUARD; 2 * n + 1];
    let found = unsafe { pieces_shared_parameters(points.as_ptr(), points.len(), lines, pitch, n, stride, centripetal, out.as_mut_ptr(), out.len()) };
    assert!(out[2 * n] == GUARD);
    out.truncate(n);
    found.then_some(out)
}

/// The flat knots that `fill` puts between two guards, from a copy of the parameters that must come back as it was.
fn knots(params: &[f64], poles: usize, degree: usize, fill: impl Fn(&[f64], &mut [f64])) -> Vec<f64> {
    assert!(params.len() <= 1024 && 1 <= degree && degree <= 25 && degree < poles && poles <= params.len());
    let (copy, end) = (params.to_vec(), poles + degree + 2);
    let mut places = vec![GUARD; end + 1];
    fill(&copy, &mut places[1..end]);
    assert!(copy.iter().zip(params).all(|(a, b)| a.to_bits() == b.to_bits()) && places[0] == GUARD && places[end] == GUARD);
    places[1..end].to_vec()
}

pub fn averaged_knots(params: &[f64], degree: usize) -> Vec<f64> {
    knots(params, params.len(), degree, |params, flat| unsafe {
        pieces_averaged_knots(params.as_ptr(), params.len(), degree, flat.as_mut_ptr(), flat.len())
    })
}

pub fn approximation_knots(params: &[f64], poles: usize, degree: usize) -> Vec<f64> {
    knots(params, poles, degree, |params, flat| unsafe {
        pieces_approximation_knots(params.as_ptr(), params.len(), poles, degree, flat.as_mut_ptr(), flat.len())
    })
}

pub fn compress_knots(flat: &[f64]) -> (Vec<f64>, Vec<u32>) {
    assert!(flat.len() <= 1050);
    let n = flat.len();
    let (mut knots, mut mults) = (vec![GUARD; n + 1], vec![7u32; n + 1]);
    let count = unsafe { pieces_compress_knots(flat.as_ptr(), n, knots.as_mut_ptr(), n + 1, mults.as_mut_ptr(), n + 1) };
    assert!(knots[count..].iter().all(|&x| x == GUARD) && mults[count..].iter().all(|&m| m == 7));
    knots.truncate(count);
    mults.truncate(count);
    (knots, mults)
}

pub fn factor_symmetric_band(lower: &mut [f64], h: usize, n: usize, relative: f64) -> bool {
    assert!(h <= 25 && n * (h + 1) <= lower.len());
    unsafe { pieces_factor_symmetric_band(lower.as_mut_ptr(), lower.len(), h, n, relative) }
}

pub fn factor_band(band: &mut [f64], h: usize, n: usize) {
    assert!(h <= 25 && n * (2 * h + 1) <= band.len());
    unsafe { pieces_factor_band(band.as_mut_ptr(), band.len(), h, n) }
}

/// Solves in place for n points.
pub fn substitute(symmetric: bool, factors: &[f64], poles: &mut [f64], h: usize, n: usize) {
    let w = if symmetric { h + 1 } else { 2 * h + 1 };
    assert!(h <= 25 && n * w <= factors.len() && 3 * n <= poles.len());
    unsafe {
        if symmetric {
            pieces_substitute_symmetric_band(factors.as_ptr(), factors.len(), poles.as_mut_ptr(), poles.len(), h, n)
        } else {
            pieces_substitute_band(factors.as_ptr(), factors.len(), poles.as_mut_ptr(), poles.len(), h, n)
        }
    }
}

/// Lines of data by their kind: 0 a ladder, 1 a grid's rows, 2 the columns of row poles.
#[derive(Clone, Copy)]
pub struct Lines {
    pub kind: usize,
    pub lines: usize,
    pub across: usize,
}

impl Lines {
    /// How many points lie from one line's first to the next's, and from a line's point to its next.
    fn steps(self) -> (usize, usize) {
        match self.kind { 0 => (0, 1), 1 => (self.across, 1), _ => (1, self.across) }
    }
}

/// n places with a guard behind them.
fn guarded(n: usize) -> Vec<f64> {
    vec![GUARD; n + 1]
}

/// A direction's table, band, poles and squares of the deviations, each with a guard behind its places; and its parameters, flat knots and, for columns, row
/// poles.
pub struct Work {
    params: Vec<f64>,
    flat: Vec<f64>,
    row_poles: Vec<f64>,
    firsts: Vec<usize>,
    values: Vec<f64>,
    band: Vec<f64>,
    poles: Vec<f64>,
    squares: Vec<f64>,
    pub degree: usize,
    pub count: usize,
    pub m: usize,
    pub given: Lines,
}

impl Work {
    pub fn new(params: &[f64], flat: &[f64], degree: usize, given: Lines, row_poles: &[f64]) -> Work {
        let (n, m) = (params.len(), flat.len() - degree - 1);
        assert!((1..=25).contains(&degree) && degree < m && m <= n && (2..=1024).contains(&n));
        assert!((1..=64).contains(&given.lines) && given.kind <= 2 && (given.kind != 2 || row_poles.len() == 3 * n * given.across));
        Work {
            params: params.to_vec(), flat: flat.to_vec(), row_poles: row_poles.to_vec(), firsts: vec![77; n + 1], values: guarded(n * (degree + 1)),
            band: guarded(n * (2 * degree + 1)), poles: guarded(3 * given.lines * m), squares: guarded(n), degree, count: n, m, given,
        }
    }

    /// Sees to it that no guard was written over.
    fn checked(&self) {
        let band = self.band.iter().rev().take_while(|x| x.to_bits() == GUARD.to_bits()).count();
        assert!(band >= 1 && self.firsts[self.count] == 77, "a place behind a slice was written");
        for list in [&self.values, &self.poles, &self.squares] {
            assert!(*list.last().unwrap() == GUARD, "a place behind a slice was written");
        }
    }

    pub fn fill_table(&mut self) {
        let n = self.count;
        let places = n * (self.degree + 1);
        unsafe {
            pieces_fill_table(
                self.flat.as_ptr(), self.flat.len(), self.degree, self.params.as_ptr(), n, self.firsts.as_mut_ptr(), n, self.values.as_mut_ptr(), places,
            )
        }
    }

    pub fn fill_table_checked(&mut self) {
        self.fill_table();
        self.checked();
    }

    pub fn firsts(&self) -> &[usize] {
        &self.firsts[..self.count]
    }

    pub fn table_values(&self) -> &[f64] {
        &self.values[..self.count * (self.degree + 1)]
    }

    pub fn found_poles(&self) -> &[f64] {
        &self.poles[..3 * self.given.lines * self.m]
    }

    pub fn least_squares(&mut self, points: &[f64]) -> bool {
        let (n, m, p, d) = (self.count, self.m, self.degree, self.given);
        let (pitch, stride) = d.steps();
        let points = if d.kind == 2 { &self.row_poles[..] } else { points };
        unsafe {
            pieces_least_squares(
                p, m, self.firsts.as_ptr(), n, self.values.as_ptr(), n * (p + 1), points.as_ptr(), points.len(), d.lines, pitch, stride,
                self.band.as_mut_ptr(), m * (p + 1), self.poles.as_mut_ptr(), 3 * d.lines * m,
            )
        }
    }

    pub fn least_squares_checked(&mut self, points: &[f64]) -> bool {
        let before = (self.firsts.clone(), self.values.clone());
        self.band.fill(GUARD);
        let found = self.least_squares(points);
        self.checked();
        assert!(before.0 == self.firsts && before.1.iter().zip(&self.values).all(|(a, b)| a.to_bits() == b.to_bits()), "the table was written");
        found
    }

    pub fn interpolation(&mut self, points: &[f64]) {
        let (n, p, d) = (self.count, self.degree, self.given);
        assert!(self.m == n);
        let (pitch, stride) = d.steps();
        let points = if d.kind == 2 { &self.row_poles[..] } else { points };
        self.band.fill(GUARD);
        unsafe {
            pieces_interpolation(
                p, self.firsts.as_ptr(), n, self.values.as_ptr(), n * (p + 1), points.as_ptr(), points.len(), d.lines, pitch, stride,
                self.band.as_mut_ptr(), n * (2 * (p - 1) + 1), self.poles.as_mut_ptr(), 3 * d.lines * n,
            )
        }
        self.checked();
    }

    /// The largest deviation, and how many are NaN; `deviations()` are the roots of the squares that it leaves.
    pub fn measure(&mut self, points: &[f64]) -> (f64, usize) {
        let (n, p, m, lines) = (self.count, self.degree, self.m, self.given.lines);
        let (poles, firsts, values) = (3 * lines * m, self.firsts.as_ptr(), self.values.as_ptr());
        let mut most = [GUARD; 2];
        let unreadable = unsafe {
            if self.given.kind == 1 {
                pieces_row_deviations(
                    p, m, firsts, n, values, n * (p + 1), lines, self.poles.as_ptr(), poles, points.as_ptr(), points.len(), self.squares.as_mut_ptr(), n,
                    most.as_mut_ptr(), 2,
                )
            } else {
                pieces_ladder_deviations(
                    p, m, firsts, n, values, n * (p + 1), self.poles.as_ptr(), poles, points.as_ptr(), points.len(), self.squares.as_mut_ptr(), n,
                    most.as_mut_ptr(), 2,
                )
            }
        };
        self.checked();
        assert!(most[1] == GUARD);
        (most[0], unreadable)
    }

    pub fn deviations(&self) -> Vec<f64> {
        roots(&self.squares[..self.count])
    }
}

/// The deviations of squares that stand in a work: the machine's root is the one that `roots` holds beside ours.
fn roots(squares: &[f64]) -> Vec<f64> {
    squares.iter().map(|s| s.sqrt()).collect()
}

/// The whole grid against the surface that the columns' fit of `u` gives, with the table of `v`: each row's deviation, the largest, and how many are NaN.
pub fn grid_deviations(u: &Work, v: &Work, points: &[f64]) -> (Vec<f64>, f64, usize) {
    let columns = u.given.lines;
    assert!(columns == v.m);
    let (mut curve, mut squares) = (guarded(3 * columns), guarded(u.count));
    let mut most = [GUARD; 2];
    let unreadable = unsafe {
        pieces_grid_deviations(
            u.degree, u.m, u.firsts.as_ptr(), u.count, u.values.as_ptr(), u.count * (u.degree + 1),
            v.degree, v.m, v.firsts.as_ptr(), v.count, v.values.as_ptr(), v.count * (v.degree + 1),
            u.poles.as_ptr(), 3 * columns * u.m, points.as_ptr(), points.len(), curve.as_mut_ptr(), 3 * columns, squares.as_mut_ptr(), u.count,
            most.as_mut_ptr(), 2,
        )
    };
    assert!(most[1] == GUARD && curve[3 * columns] == GUARD && squares[u.count] == GUARD);
    (roots(&squares[..u.count]), most[0], unreadable)
}

/// The four ladder calls by their numbers.
pub const INTERPOLATE: usize = 0;
pub const APPROXIMATE: usize = 1;
pub const WITHIN: usize = 2;
pub const SEARCH: usize = 3;

/// One of the four ladder calls, of which `count` and `tolerance` are left out where it has none: 0 for a fit, or the number of a refusal.
pub fn ladder(entry: usize, points: &[f64], degree: usize, count: usize, tolerance: f64, spacing: usize, factor: f64, lent: &mut Lent) -> u32 {
    let asked = match entry {
        INTERPOLATE => Asked::Through,
        APPROXIMATE => Asked::Poles(count),
        WITHIN => Asked::Within(tolerance),
        _ => Asked::SpreadWithin(tolerance),
    };
    lent_ladder(points, degree, asked, spacing, factor, lent)
}

/// A grid call, with pole counts along u and v where they are chosen, else within the tolerance: 0 for a fit, or the number of a refusal.
pub fn grid(
    points: &[f64], size: [usize; 2], degrees: [usize; 2], chosen: Option<[usize; 2]>, tolerance: f64, spacing: usize, factor: f64, lent: &mut GridLent,
) -> u32 {
    lent_grid(points, size, degrees, chosen.map_or(GridAsked::Within(tolerance), GridAsked::Poles), spacing, factor, lent)
}
