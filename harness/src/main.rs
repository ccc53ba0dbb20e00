//! Runs beside the Rust: this repository's functions and geomcore's, on the same inputs, compared bit for bit. One NaN equals any other.
//! Built with the feature `factor`, geomcore's distances take a lightness factor.
#![allow(dead_code, unused_imports)]

include!(concat!(env!("OUT_DIR"), "/reference.rs"));

pub mod tol {
    pub const CONFUSION: f64 = crate::Tolerance::DEFAULT.confusion;
}
#[path = "shims/vector.rs"]
pub mod vector;
pub use curves::PointParametrization;
pub use point::{Point2D, Point3D};
pub use surfaces::BSplineSurface;
pub use tolerance::Tolerance;
pub use vector::{Vector2D, Vector3D};

mod all;
mod answers;
mod bands;
mod bench;
mod grids;
mod guarded;
mod knots;
mod ladders;
mod lightness;
mod nigorzai;
mod ours;
mod points;
mod random;
mod readings;
mod roots;
mod stack;
mod straying;
mod tables;
mod tally;

fn main() {
    let words: Vec<String> = std::env::args().skip(1).collect();
    let number = |i: usize, d: u64| words.get(i).map_or(d, |w| w.parse().expect("a number"));
    let different = match words.first().map(String::as_str) {
        Some("roots") => roots::compare(number(1, 10_000_000), number(2, 1)),
        Some("readings") => readings::compare(number(1, 1_000_000), number(2, 1)),
        Some("knots") => knots::compare(number(1, 100_000), number(2, 1)),
        Some("bands") => bands::compare(number(1, 20_000), number(2, 1)),
        Some("tables") => tables::compare(number(1, 20_000), number(2, 1)),
        Some("ladders") => ladders::compare(number(1, 20_000), number(2, 1)),
        Some("grids") => grids::compare(number(1, 20_000), number(2, 1)),
        Some("card") => ladders::cards::compare(number(1, 20_000), number(2, 1)),
        Some("all") => all::compare(number(1, 100_000), number(2, 1), number(3, 1)),
        Some("try") => ladders::compare_stated() + grids::compare_stated() + readings::compare_stated(),
        Some("wrapper") => ladders::wrapped::compare(2_000, 1) + grids::wrapped::compare(500, 1) + readings::compare_wrapped(5_000, 1),
        Some("archive") => ladders::archived::compare(number(1, 20_000), number(2, 1)),
        Some("straying") => straying::compare(number(1, 100_000), number(2, 1)),
        Some("answers") => answers::tell(number(1, 100_000), number(2, 1)),
        Some("list") if words.len() == 2 => ladders::list(&words[1]),
        Some("stack") => {
            stack::bench();
            0
        }
        Some("bench") if bench::run(words.get(1).map(String::as_str)) => 0,
        _ => {
            eprintln!("beside roots COUNT SEED | readings COUNT SEED | knots COUNT SEED | bands COUNT SEED | tables COUNT SEED");
            eprintln!("     | ladders COUNT SEED | grids COUNT SEED | card COUNT SEED | all COUNT SEED THREADS | try | wrapper");
            eprintln!("     | archive COUNT SEED | straying COUNT SEED | answers COUNT SEED | list FILE | stack | bench [roots | readings | bands | tables | ladders | grids]");
            std::process::exit(2)
        }
    };
    if different > 0 {
        std::process::exit(1);
    }
}
