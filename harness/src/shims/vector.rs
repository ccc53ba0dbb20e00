//! Stands in for src/vector.rs: what the published files say of vectors, so that they compile. No comparison goes through it.
#[derive(Debug, Clone, Copy, PartialEq, Default)]
pub struct Vector2D {
    pub x: f64,
    pub y: f64,
}

#[derive(Debug, Clone, Copy, PartialEq, Default)]
pub struct Vector3D {
    pub x: f64,
    pub y: f64,
    pub z: f64,
}

impl Vector3D {
    pub const fn new(x: f64, y: f64, z: f64) -> Vector3D {
        Vector3D { x, y, z }
    }
}

impl std::ops::Mul<f64> for Vector3D {
    type Output = Vector3D;
    fn mul(self, a: f64) -> Vector3D {
        Vector3D::new(self.x * a, self.y * a, self.z * a)
    }
}

impl std::ops::Mul<Vector3D> for f64 {
    type Output = Vector3D;
    fn mul(self, v: Vector3D) -> Vector3D {
        v * self
    }
}

impl std::ops::Sub for Vector3D {
    type Output = Vector3D;
    fn sub(self, v: Vector3D) -> Vector3D {
        Vector3D::new(self.x - v.x, self.y - v.y, self.z - v.z)
    }
}
