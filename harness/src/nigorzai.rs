//! Nigorzai for Rust. A program can take this file as it is; it links libinterface.a (`./library interface`), on x86-64. All `unsafe` is in here: the
//! library takes every input, writes nothing but the slices that it is lent, keeps no pointer and allocates nothing, so that a slice's own pointer and length are
//! all that a call needs.
//!
//! `interpolate` and the like allocate what they need; the functions `lent_...` take slices of the caller's and allocate nothing. A refusal is its number in
//! include/nigorzai.h.
//!
//! Each fit takes a lightness factor behind the spacing (document 02, request Five): in every distance of the call the first coordinates' difference is multiplied
//! by it before it is squared. It is from 0.25 to 4, and 1.0 is the plain distance; NaN and numbers outside are refused with 17.
#![allow(dead_code)]

/// The functions as include/nigorzai.h has them.
pub mod c {
    unsafe extern "C" {
        pub fn nigorzai_interpolate(
            points: *const f64, points_len: usize, degree: usize, spacing: usize, factor: f64,
            poles: *mut f64, poles_len: usize, flat: *mut f64, flat_len: usize, knots: *mut f64, knots_len: usize, mults: *mut u32, mults_len: usize,
            work: *mut f64, work_len: usize, index: *mut usize, index_len: usize, largest: *mut f64, largest_len: usize, counts: *mut usize, counts_len: usize,
        ) -> u32;
        pub fn nigorzai_approximate(
            points: *const f64, points_len: usize, degree: usize, count: usize, spacing: usize, factor: f64,
            poles: *mut f64, poles_len: usize, flat: *mut f64, flat_len: usize, knots: *mut f64, knots_len: usize, mults: *mut u32, mults_len: usize,
            work: *mut f64, work_len: usize, index: *mut usize, index_len: usize, largest: *mut f64, largest_len: usize, counts: *mut usize, counts_len: usize,
        ) -> u32;
        pub fn nigorzai_approximate_within(
            points: *const f64, points_len: usize, degree: usize, tolerance: f64, spacing: usize, factor: f64,
            poles: *mut f64, poles_len: usize, flat: *mut f64, flat_len: usize, knots: *mut f64, knots_len: usize, mults: *mut u32, mults_len: usize,
            work: *mut f64, work_len: usize, index: *mut usize, index_len: usize, largest: *mut f64, largest_len: usize, counts: *mut usize, counts_len: usize,
        ) -> u32;
        pub fn nigorzai_search_spread(
            points: *const f64, points_len: usize, degree: usize, tolerance: f64, spacing: usize, factor: f64,
            poles: *mut f64, poles_len: usize, flat: *mut f64, flat_len: usize, knots: *mut f64, knots_len: usize, mults: *mut u32, mults_len: usize,
            work: *mut f64, work_len: usize, index: *mut usize, index_len: usize, largest: *mut f64, largest_len: usize, counts: *mut usize, counts_len: usize,
        ) -> u32;
        pub fn nigorzai_approximate_grid(
            points: *const f64, points_len: usize, rows: usize, cols: usize, u_degree: usize, v_degree: usize, u_count: usize, v_count: usize, spacing: usize, factor: f64,
            poles: *mut f64, poles_len: usize, u_flat: *mut f64, u_flat_len: usize, u_knots: *mut f64, u_knots_len: usize, u_mults: *mut u32, u_mults_len: usize,
            v_flat: *mut f64, v_flat_len: usize, v_knots: *mut f64, v_knots_len: usize, v_mults: *mut u32, v_mults_len: usize,
            work: *mut f64, work_len: usize, index: *mut usize, index_len: usize, largest: *mut f64, largest_len: usize, counts: *mut usize, counts_len: usize,
        ) -> u32;
        pub fn nigorzai_approximate_grid_within(
            points: *const f64, points_len: usize, rows: usize, cols: usize, u_degree: usize, v_degree: usize, tolerance: f64, spacing: usize, factor: f64,
            poles: *mut f64, poles_len: usize, u_flat: *mut f64, u_flat_len: usize, u_knots: *mut f64, u_knots_len: usize, u_mults: *mut u32, u_mults_len: usize,
            v_flat: *mut f64, v_flat_len: usize, v_knots: *mut f64, v_knots_len: usize, v_mults: *mut u32, v_mults_len: usize,
            work: *mut f64, work_len: usize, index: *mut usize, index_len: usize, largest: *mut f64, largest_len: usize, counts: *mut usize, counts_len: usize,
        ) -> u32;
        pub fn nigorzai_read(
            poles: *const f64, poles_len: usize, degree: usize, knots: *const f64, knots_len: usize, mults: *const u32, mults_len: usize, u: f64,
            out: *mut f64, out_len: usize,
        ) -> u32;
    }
}

/// How the parameters of the points are spaced.
#[derive(Clone, Copy, Debug, PartialEq, Eq)]
pub enum Spacing {
    Chordal,
    Centripetal,
}

/// The step that gave the knots and poles.
#[derive(Clone, Copy, Debug, PartialEq, Eq)]
pub enum Mark {
    Refined,
    Spread,
    Interpolated,
    Chosen,
}

/// The knots along one direction, flat and distinct with their multiplicities, the step that gave them, the largest computed deviation of a point, and how many
/// deviations are unreadable (NaN).
#[derive(Clone, Debug, PartialEq)]
pub struct Direction {
    pub degree: usize,
    pub mark: Mark,
    pub largest: f64,
    pub unreadable: usize,
    pub flat: Vec<f64>,
    pub knots: Vec<f64>,
    pub mults: Vec<u32>,
}

impl Direction {
    /// How many poles there are along it.
    pub fn poles(&self) -> usize {
        self.flat.len() - self.degree - 1
    }
}

/// A ladder's curve.
#[derive(Clone, Debug, PartialEq)]
pub struct Fit {
    pub along: Direction,
    pub poles: Vec<[f64; 3]>,
}

impl Fit {
    /// The curve's point at a parameter.
    pub fn at(&self, u: f64) -> Result<[f64; 3], u32> {
        read(&self.poles, self.along.degree, &self.along.knots, &self.along.mults, u)
    }
}

/// A grid's surface: `u.poles()` rows of `v.poles()` poles, row after row.
#[derive(Clone, Debug, PartialEq)]
pub struct Surface {
    pub u: Direction,
    pub v: Direction,
    pub poles: Vec<[f64; 3]>,
}

/// The curve through the points.
pub fn interpolate(points: &[[f64; 3]], degree: usize, spacing: Spacing, factor: f64) -> Result<Fit, u32> {
    fit(points, degree, Asked::Through, spacing, factor)
}

/// Least squares with so many poles.
pub fn approximate(points: &[[f64; 3]], degree: usize, count: usize, spacing: Spacing, factor: f64) -> Result<Fit, u32> {
    fit(points, degree, Asked::Poles(count), spacing, factor)
}

/// Within a tolerance: by refinement, else by the search on spread knots, else through the points.
pub fn approximate_within(points: &[[f64; 3]], degree: usize, tolerance: f64, spacing: Spacing, factor: f64) -> Result<Fit, u32> {
    fit(points, degree, Asked::Within(tolerance), spacing, factor)
}

/// By the search on spread knots alone, else through the points.
pub fn search_spread(points: &[[f64; 3]], degree: usize, tolerance: f64, spacing: Spacing, factor: f64) -> Result<Fit, u32> {
    fit(points, degree, Asked::SpreadWithin(tolerance), spacing, factor)
}

/// Least squares with so many poles along u and v. Sizes, degrees and counts are u's, then v's; the points are row after row.
pub fn approximate_grid(
    points: &[[f64; 3]], size: [usize; 2], degrees: [usize; 2], counts: [usize; 2], spacing: Spacing, factor: f64,
) -> Result<Surface, u32> {
    surface(points, size, degrees, GridAsked::Poles(counts), spacing, factor)
}

/// Within a tolerance.
pub fn approximate_grid_within(
    points: &[[f64; 3]], size: [usize; 2], degrees: [usize; 2], tolerance: f64, spacing: Spacing, factor: f64,
) -> Result<Surface, u32> {
    surface(points, size, degrees, GridAsked::Within(tolerance), spacing, factor)
}

/// The point of a curve at a parameter.
pub fn read(poles: &[[f64; 3]], degree: usize, knots: &[f64], mults: &[u32], u: f64) -> Result<[f64; 3], u32> {
    let mut out = [0.0; 3];
    match lent_read(poles.as_flattened(), degree, knots, mults, u, &mut out) {
        0 => Ok(out),
        refusal => Err(refusal),
    }
}

/// One direction's lent slices.
struct Knots {
    flat: Vec<f64>,
    knots: Vec<f64>,
    mults: Vec<u32>,
}

impl Knots {
    fn new(n: usize, degree: usize) -> Knots {
        let length = n + degree + 1;
        Knots { flat: vec![0.0; length], knots: vec![0.0; length], mults: vec![0; length] }
    }

    /// Cut to what the counts say of them: the mark, the poles, the distinct knots, the unreadable deviations.
    fn taken(mut self, degree: usize, counts: &[usize], largest: f64) -> Direction {
        let mark = [Mark::Refined, Mark::Spread, Mark::Interpolated, Mark::Chosen][counts[0] - 1];
        self.flat.truncate(counts[1] + degree + 1);
        self.knots.truncate(counts[2]);
        self.mults.truncate(counts[2]);
        Direction { degree, mark, largest, unreadable: counts[3], flat: self.flat, knots: self.knots, mults: self.mults }
    }
}

/// More points and higher degrees than these are refused before a slice's length is looked at.
const MOST: (usize, usize, usize) = (1025, 65, 26);

fn fit(points: &[[f64; 3]], degree: usize, asked: Asked, spacing: Spacing, factor: f64) -> Result<Fit, u32> {
    let (n, p) = (points.len().min(MOST.0), degree.min(MOST.2));
    let (mut poles, mut along) = (vec![[0.0; 3]; n], Knots::new(n, p));
    let (mut work, mut index) = (vec![0.0; 4 * p * n + 16 * n + 64], vec![0; 4 * n]);
    let (mut largest, mut counts) = ([0.0], [0; 4]);
    let mut lent = Lent {
        poles: poles.as_flattened_mut(), flat: &mut along.flat, knots: &mut along.knots, mults: &mut along.mults,
        work: &mut work, index: &mut index, largest: &mut largest, counts: &mut counts,
    };
    match lent_ladder(points.as_flattened(), degree, asked, spacing as usize, factor, &mut lent) {
        0 => {
            poles.truncate(counts[1]);
            Ok(Fit { along: along.taken(degree, &counts, largest[0]), poles })
        }
        refusal => Err(refusal),
    }
}

fn surface(points: &[[f64; 3]], size: [usize; 2], degrees: [usize; 2], asked: GridAsked, spacing: Spacing, factor: f64) -> Result<Surface, u32> {
    let ([r, c], [p, q]) = (size.map(|n| n.min(MOST.1)), degrees.map(|p| p.min(MOST.2)));
    let (mut poles, mut u, mut v) = (vec![[0.0; 3]; r * c], Knots::new(r, p), Knots::new(c, q));
    let most = r.max(c);
    let (mut work, mut index) = (vec![0.0; 12 * r * c + most * (6 * p.max(q) + 24) + 128], vec![0; 8 * most]);
    let (mut largest, mut counts) = ([0.0; 2], [0; 8]);
    let mut lent = GridLent {
        poles: poles.as_flattened_mut(), u_flat: &mut u.flat, u_knots: &mut u.knots, u_mults: &mut u.mults,
        v_flat: &mut v.flat, v_knots: &mut v.knots, v_mults: &mut v.mults,
        work: &mut work, index: &mut index, largest: &mut largest, counts: &mut counts,
    };
    match lent_grid(points.as_flattened(), size, degrees, asked, spacing as usize, factor, &mut lent) {
        0 => {
            poles.truncate(counts[1] * counts[5]);
            Ok(Surface { u: u.taken(degrees[0], &counts[..4], largest[0]), v: v.taken(degrees[1], &counts[4..], largest[1]), poles })
        }
        refusal => Err(refusal),
    }
}

/// Which of the ladder calls, with what it asks for.
#[derive(Clone, Copy, Debug)]
pub enum Asked {
    Through,
    Poles(usize),
    Within(f64),
    SpreadWithin(f64),
}

/// Which of the grid calls, with what it asks for.
#[derive(Clone, Copy, Debug)]
pub enum GridAsked {
    Poles([usize; 2]),
    Within(f64),
}

/// The eight slices that a ladder call is lent.
pub struct Lent<'a> {
    pub poles: &'a mut [f64],
    pub flat: &'a mut [f64],
    pub knots: &'a mut [f64],
    pub mults: &'a mut [u32],
    pub work: &'a mut [f64],
    pub index: &'a mut [usize],
    pub largest: &'a mut [f64],
    pub counts: &'a mut [usize],
}

/// A ladder call: 0 for a fit, or the number of a refusal. Any spacing other than 0 is centripetal.
pub fn lent_ladder(points: &[f64], degree: usize, asked: Asked, spacing: usize, factor: f64, lent: &mut Lent) -> u32 {
    macro_rules! call {
        ($f:ident, $($own:expr),*) => {
            unsafe {
                c::$f(
                    points.as_ptr(), points.len(), $($own),*, lent.poles.as_mut_ptr(), lent.poles.len(), lent.flat.as_mut_ptr(), lent.flat.len(),
                    lent.knots.as_mut_ptr(), lent.knots.len(), lent.mults.as_mut_ptr(), lent.mults.len(), lent.work.as_mut_ptr(), lent.work.len(),
                    lent.index.as_mut_ptr(), lent.index.len(), lent.largest.as_mut_ptr(), lent.largest.len(), lent.counts.as_mut_ptr(), lent.counts.len(),
                )
            }
        };
    }
    match asked {
        Asked::Through => call!(nigorzai_interpolate, degree, spacing, factor),
        Asked::Poles(count) => call!(nigorzai_approximate, degree, count, spacing, factor),
        Asked::Within(tolerance) => call!(nigorzai_approximate_within, degree, tolerance, spacing, factor),
        Asked::SpreadWithin(tolerance) => call!(nigorzai_search_spread, degree, tolerance, spacing, factor),
    }
}

/// The eleven slices that a grid call is lent.
pub struct GridLent<'a> {
    pub poles: &'a mut [f64],
    pub u_flat: &'a mut [f64],
    pub u_knots: &'a mut [f64],
    pub u_mults: &'a mut [u32],
    pub v_flat: &'a mut [f64],
    pub v_knots: &'a mut [f64],
    pub v_mults: &'a mut [u32],
    pub work: &'a mut [f64],
    pub index: &'a mut [usize],
    pub largest: &'a mut [f64],
    pub counts: &'a mut [usize],
}

/// A grid call: 0 for a fit, or the number of a refusal.
pub fn lent_grid(
    points: &[f64], [rows, cols]: [usize; 2], [p, q]: [usize; 2], asked: GridAsked, spacing: usize, factor: f64, lent: &mut GridLent,
) -> u32 {
    macro_rules! call {
        ($f:ident, $($own:expr),*) => {
            unsafe {
                c::$f(
                    points.as_ptr(), points.len(), rows, cols, p, q, $($own),*, spacing, factor, lent.poles.as_mut_ptr(), lent.poles.len(),
                    lent.u_flat.as_mut_ptr(), lent.u_flat.len(), lent.u_knots.as_mut_ptr(), lent.u_knots.len(), lent.u_mults.as_mut_ptr(), lent.u_mults.len(),
                    lent.v_flat.as_mut_ptr(), lent.v_flat.len(), lent.v_knots.as_mut_ptr(), lent.v_knots.len(), lent.v_mults.as_mut_ptr(), lent.v_mults.len(),
                    lent.work.as_mut_ptr(), lent.work.len(), lent.index.as_mut_ptr(), lent.index.len(),
                    lent.largest.as_mut_ptr(), lent.largest.len(), lent.counts.as_mut_ptr(), lent.counts.len(),
                )
            }
        };
    }
    match asked {
        GridAsked::Poles([m, n]) => call!(nigorzai_approximate_grid, m, n),
        GridAsked::Within(tolerance) => call!(nigorzai_approximate_grid_within, tolerance),
    }
}

/// A reading: 0 with the point in the first three places of `out`, or the number of a refusal.
pub fn lent_read(poles: &[f64], degree: usize, knots: &[f64], mults: &[u32], u: f64, out: &mut [f64]) -> u32 {
    unsafe {
        c::nigorzai_read(
            poles.as_ptr(), poles.len(), degree, knots.as_ptr(), knots.len(), mults.as_ptr(), mults.len(), u, out.as_mut_ptr(), out.len(),
        )
    }
}
