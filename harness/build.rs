//! Finds the published Rust (the folder GEOMCORE, with its src/), and writes the module declarations that compile it unchanged into this program.
//! Of each fitting.rs a copy is made beside them whose text is the published one and, after it, the line that declares our module `pieces`:
//! so the comparison reaches its private functions. Links the static libraries of this repository.
//! With the feature `factor` the reference takes a lightness factor (document 02, request Five): of point.rs too a copy is compiled, in which one line of
//! `Point3D::distance` is another.
use std::path::{Path, PathBuf};
use std::{env, fs};

/// The published point.rs with the lightness factor in `Point3D::distance` alone.
fn with_factor(text: &str) -> String {
    let once = |text: &str, part: &str| {
        assert!(text.matches(part).count() == 1, "point.rs has {part:?} not once");
        text.find(part).unwrap()
    };
    let start = once(text, "    pub fn distance(self, other: Point3D) -> f64 {\n");
    let end = start + text[start..].find("\n    }\n").expect("an end of distance");
    let line = "        let dx = other.x - self.x;\n";
    once(&text[start..end], line);
    let distance = text[start..end].replace(line, "        let dx = (other.x - self.x) * crate::lightness::factor();\n");
    let copy = [&text[..start], &distance, &text[end..]].concat();
    assert!(text.lines().zip(copy.lines()).filter(|(a, b)| a != b).count() == 1, "more than one line of point.rs is another");
    copy
}

fn main() {
    let here = PathBuf::from(env::var("CARGO_MANIFEST_DIR").unwrap());
    let out = PathBuf::from(env::var("OUT_DIR").unwrap());
    let given = env::var("GEOMCORE").unwrap_or_else(|_| "../shared/docs/src".into());
    let source = here.join("..").join(&given).join("src");
    let source = fs::canonicalize(&source).unwrap_or_else(|_| panic!("no reference at {}", source.display()));
    let path = |p: &Path| p.to_str().unwrap().to_string();

    let with_child = |file: &str, child: &str, to: &str| {
        let text = fs::read_to_string(source.join(file)).unwrap();
        let line = format!("\n#[path = {:?}]\npub(crate) mod pieces;\n", path(&here.join(child)));
        fs::write(out.join(to), text + &line).unwrap();
    };
    with_child("curves/fitting.rs", "src/pieces.rs", "fitting.rs");
    with_child("surfaces/fitting.rs", "src/grid_pieces.rs", "grid_fitting.rs");

    let at = |file: &str| format!("#[path = {:?}]\n", path(&source.join(file)));
    let point = if env::var_os("CARGO_FEATURE_FACTOR").is_some() {
        fs::write(out.join("point.rs"), with_factor(&fs::read_to_string(source.join("point.rs")).unwrap())).unwrap();
        format!("#[path = {:?}]\n", path(&out.join("point.rs")))
    } else {
        at("point.rs")
    };
    let text = [
        point + "pub mod point;\n",
        at("tolerance.rs") + "pub mod tolerance;\n",
        "pub mod curve_math {\n".into(),
        at("curve_math/bspline.rs") + "pub mod bspline;\n",
        format!("#[path = {:?}]\npub mod analytic;\n}}\n", path(&here.join("src/shims/analytic.rs"))),
        "pub mod curves {\n".into(),
        format!("#[path = {:?}]\npub mod fitting;\n", path(&out.join("fitting.rs"))),
        format!("#[path = {:?}]\nmod curve;\npub use curve::*;\n}}\n", path(&here.join("src/shims/curve.rs"))),
        "pub mod surfaces {\n".into(),
        format!("#[path = {:?}]\npub mod fitting;\n", path(&out.join("grid_fitting.rs"))),
        format!("#[path = {:?}]\nmod surface;\npub use surface::*;\n}}\n", path(&here.join("src/shims/surface.rs"))),
    ];
    fs::write(out.join("reference.rs"), text.concat()).unwrap();

    println!("cargo:rerun-if-env-changed=GEOMCORE");
    println!("cargo:rerun-if-changed={}", source.display());
    println!("cargo:rustc-link-search=native={}", here.join("../target/staticlib").display());
    for library in ["interface", "pieces"] {
        println!("cargo:rerun-if-changed=../target/staticlib/lib{library}.a");
        println!("cargo:rustc-link-lib=static={library}");
    }
}
