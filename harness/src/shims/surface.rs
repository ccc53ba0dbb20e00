//! Stands in for surfaces/bspline.rs: the parts of a surface as the fits hand them over. No number is touched.
use crate::Point3D;

#[allow(dead_code)]
pub struct BSplineSurface {
    pub u: (usize, Vec<f64>),
    pub v: (usize, Vec<f64>),
    pub poles: Vec<Point3D>,
}

impl BSplineSurface {
    pub(crate) fn from_flat_knots(u: (usize, Vec<f64>), v: (usize, Vec<f64>), poles: Vec<Point3D>) -> BSplineSurface {
        BSplineSurface { u, v, poles }
    }
}
