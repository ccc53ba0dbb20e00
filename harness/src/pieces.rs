//! A child of the published curves/fitting.rs: its private functions, under names that the comparison calls.
use super::*;

pub fn point_parameters(points: &[Point3D], centripetal: bool) -> Option<Vec<f64>> {
    super::point_parameters(points, spacing(centripetal)).ok()
}

pub fn shared_parameters(lines: usize, count: usize, point: impl Fn(usize, usize) -> Point3D, centripetal: bool) -> Option<Vec<f64>> {
    super::shared_parameters(lines, count, point, spacing(centripetal)).ok()
}

pub fn compress_knots(flat: &[f64]) -> (Vec<f64>, Vec<u32>) {
    super::compress_knots(flat)
}

pub fn spacing(centripetal: bool) -> PointParametrization {
    if centripetal { PointParametrization::Centripetal } else { PointParametrization::Chordal }
}

pub fn factor_symmetric_band(lower: &mut [f64], h: usize, relative: f64) -> bool {
    super::factor_symmetric_band(lower, h, relative)
}

pub fn substitute_symmetric_band(lower: &[f64], h: usize, rhs: &mut [Point3D]) {
    super::substitute_symmetric_band(lower, h, rhs)
}

pub fn factor_band(band: &mut [f64], h: usize) {
    super::factor_band(band, h)
}

pub fn substitute_band(band: &[f64], h: usize, rhs: &mut [Point3D]) {
    super::substitute_band(band, h, rhs)
}

pub fn firsts(basis: &BasisTable) -> &[usize] {
    &basis.firsts
}

pub fn values(basis: &BasisTable) -> &[f64] {
    &basis.values
}

/// Flat knots and poles.
pub type Parts = (Vec<f64>, Vec<Point3D>);

/// One try of `approximate_within`: poles by least squares, and each point's deviation.
fn attempt(points: &[Point3D], degree: usize) -> impl FnMut(&[f64], &BasisTable, &mut [f64]) -> Option<Vec<Point3D>> + '_ {
    move |flat, basis, deviations| {
        let poles = least_squares(basis, flat.len() - degree - 1, 1, |_, k| points[k])?;
        for (k, deviation) in deviations.iter_mut().enumerate() {
            *deviation = basis.point(k, &poles).distance(points[k]);
        }
        Some(poles)
    }
}

/// Whether refinement will split beside the first span, whose one parameter lies beyond the halfway mark: the neighbour before it is none.
fn asks_alone(firsts: &[usize], deviations: &[f64], tolerance: f64) -> bool {
    let largest = deviations.iter().fold(0.0f64, |a, &d| a.max(d));
    firsts[0] != firsts[1] && deviations[0] > tolerance && deviations[0] >= 0.5 * (tolerance + largest)
}

/// Told in `lone`: whether the first span's lone parameter asked for its neighbours in some round.
pub fn refined(points: &[Point3D], params: &[f64], degree: usize, tolerance: f64, lone: &mut bool) -> Option<Parts> {
    let mut attempt = attempt(points, degree);
    super::fit_with_refined_knots(params, degree, tolerance, |flat, basis, deviations| {
        let poles = attempt(flat, basis, deviations)?;
        *lone |= asks_alone(&basis.firsts, deviations, tolerance);
        Some(poles)
    })
}

pub fn spread(points: &[Point3D], params: &[f64], degree: usize, tolerance: f64) -> Option<Parts> {
    super::fit_on_spread_knots(params, degree, tolerance, params.len(), attempt(points, degree))
}

/// The spread search below `last` poles, for any data.
pub fn spread_below<F>(
    params: &[f64], degree: usize, tolerance: f64, last: usize, attempt: impl FnMut(&[f64], &BasisTable, &mut [f64]) -> Option<F>,
) -> Option<(Vec<f64>, F)> {
    super::fit_on_spread_knots(params, degree, tolerance, last, attempt)
}

pub fn interpolated(points: &[Point3D], params: &[f64], degree: usize) -> Parts {
    super::interpolated(points, params, degree)
}

/// The fit of `approximate`.
pub fn chosen(points: &[Point3D], params: &[f64], degree: usize, count: usize) -> Option<Parts> {
    let flat = approximation_knots(params, count, degree);
    let poles = least_squares(&BasisTable::new(&flat, degree, params), count, 1, |_, k| points[k])?;
    Some((flat, poles))
}

/// Whether a try of the spread search with so many poles is within the tolerance.
pub fn passes(points: &[Point3D], params: &[f64], degree: usize, count: usize, tolerance: f64) -> bool {
    let flat = approximation_knots(params, count, degree);
    let mut deviations = vec![0.0; params.len()];
    let poles = attempt(points, degree)(&flat, &BasisTable::new(&flat, degree, params), &mut deviations);
    poles.is_some() && deviations.iter().all(|&d| d <= tolerance)
}

/// What our calls hand out of a curve: its parts, the largest distance of a point from it, and how many distances are NaN.
pub struct Measured {
    pub flat: Vec<f64>,
    pub knots: Vec<f64>,
    pub mults: Vec<u32>,
    pub poles: Vec<Point3D>,
    pub largest: f64,
    pub unreadable: usize,
}

/// The distances on the table that the fit was made on, so that nothing is computed twice.
fn measured(points: &[Point3D], basis: &BasisTable, flat: Vec<f64>, poles: Vec<Point3D>) -> Measured {
    let (knots, mults) = super::compress_knots(&flat);
    let (mut largest, mut unreadable) = (0.0f64, 0);
    for (k, &point) in points.iter().enumerate() {
        let distance = basis.point(k, &poles).distance(point);
        largest = largest.max(distance);
        unreadable += distance.is_nan() as usize;
    }
    Measured { flat, knots, mults, poles, largest, unreadable }
}

/// `interpolate`, measured.
pub fn interpolate_measured(points: &[Point3D], degree: usize, centripetal: bool) -> Option<Measured> {
    let params = point_parameters(points, centripetal)?;
    let flat = averaged_knots(&params, degree);
    let basis = BasisTable::new(&flat, degree, &params);
    let poles = interpolation(&basis, 1, |_, k| points[k]);
    Some(measured(points, &basis, flat, poles))
}

/// `approximate`, measured.
pub fn approximate_measured(points: &[Point3D], degree: usize, count: usize, centripetal: bool) -> Option<Measured> {
    let params = point_parameters(points, centripetal)?;
    let flat = approximation_knots(&params, count, degree);
    let basis = BasisTable::new(&flat, degree, &params);
    let poles = least_squares(&basis, count, 1, |_, k| points[k])?;
    Some(measured(points, &basis, flat, poles))
}

/// The points of the fit at its points' own parameters.
pub fn own_points(params: &[f64], degree: usize, (flat, poles): &Parts) -> Vec<Point3D> {
    let basis = BasisTable::new(flat, degree, params);
    (0..params.len()).map(|k| basis.point(k, poles)).collect()
}

/// Each point's distance from the fit read at the point's own parameter.
pub fn deviations(points: &[Point3D], params: &[f64], degree: usize, parts: &Parts) -> Vec<f64> {
    own_points(params, degree, parts).iter().zip(points).map(|(own, &point)| own.distance(point)).collect()
}

/// Whether interpolation leaves out a value other than 0: one outside the band that it solves.
pub fn drops_values(params: &[f64], degree: usize, flat: &[f64]) -> bool {
    let (basis, h) = (BasisTable::new(flat, degree, params), degree - 1);
    let outside = |j: usize, column: usize| column + h < j || column > j + h;
    (0..params.len()).any(|j| {
        let (first, values) = basis.at(j);
        values.iter().enumerate().any(|(a, &value)| outside(j, first + a) && value != 0.0)
    })
}
