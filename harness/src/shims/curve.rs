//! Stands in for curves/bspline.rs: the names of the refusals, and the parts of a curve as the fits hand them over. No number is touched.
pub use super::fitting::PointParametrization;
use crate::Point3D;

#[derive(Debug, Clone, Copy, PartialEq, Eq)]
pub enum BSplineConstructionError {
    InvalidDegree,
    TooFewKnots,
    KnotsNotIncreasing,
    MultiplicityTooLarge,
    PeriodicEndMultiplicityMismatch,
    PoleCountMismatch,
    TooFewPoints,
    DegreeTooHigh,
    TooManyPoles,
    ConfusedPoints,
}

#[allow(dead_code)]
pub struct BSplineCurve3D {
    pub degree: usize,
    pub poles: Vec<Point3D>,
    pub knots: Vec<f64>,
    pub mults: Vec<u32>,
    pub flat: Vec<f64>,
}

impl BSplineCurve3D {
    #[allow(clippy::too_many_arguments)]
    pub(crate) fn from_validated_parts(
        degree: usize,
        poles: Vec<Point3D>,
        _weights: Option<Vec<f64>>,
        knots: Vec<f64>,
        mults: Vec<u32>,
        flat: Vec<f64>,
        _periodic: bool,
    ) -> BSplineCurve3D {
        BSplineCurve3D { degree, poles, knots, mults, flat }
    }
}
