//! What the archive reads: the curve of every accepted ladder call through `nigorzai_read` at each point's own parameter, beside the fit's own point there, which is
//! the published table's on the flat knots and poles that were handed out.
use super::wrapped::wrapped;
use super::*;
use crate::nigorzai;

const CURVES: &str = "curves by call and mark";
const READINGS: &str = "curves that the reader takes, and its refusals of others";
const PLACES: &str = "points read back";
const FACTORS: &str = "factors of curves read back";

const INSIDE: &str = "inside a span";
const KNOT: &str = "at a knot inside the range";
const ENDS: [&str; 2] = ["at the range's first parameter", "at its last"];
const TAKEN: &str = "taken";

/// A curve that is read back, with what the fit computed.
struct Archived {
    fit: nigorzai::Fit,
    params: Vec<f64>,
    own: Vec<Point3D>,
    points: Vec<Point3D>,
}

impl Archived {
    /// That of a call that is accepted.
    fn of(c: &Call) -> Option<Archived> {
        let fit = if c.places.len() % 3 == 0 { wrapped(c).ok()? } else { return None };
        let points = c.points();
        let params = pieces::point_parameters(&points, c.spacing != 0).expect("the parameters of a ladder that is accepted");
        let poles = fit.poles.iter().map(|q| Point3D::new(q[0], q[1], q[2])).collect();
        let own = pieces::own_points(&params, c.degree, &(fit.along.flat.clone(), poles));
        Some(Archived { fit, params, own, points })
    }

    fn read(&self, u: f64) -> Result<[f64; 3], u32> {
        let nigorzai::Fit { along, poles } = &self.fit;
        nigorzai::read(poles, along.degree, &along.knots, &along.mults, u)
    }

    /// What is wrong with the readings, if anything is: a point that is not the fit's own, a refusal at some of the parameters alone, a first multiplicity that does
    /// not tell the degree, knots that do not go from 0 to 1, or a largest deviation that is not that of the points read.
    fn wrong(&self) -> Option<String> {
        let answers: Vec<_> = self.params.iter().map(|&u| self.read(u)).collect();
        if let Err(number) = answers[0] {
            return answers.iter().any(|a| *a != Err(number)).then(|| format!("the reader refuses with {number} at some of the parameters alone"));
        }
        let unlike = |(k, answer): (usize, &Result<[f64; 3], u32>)| {
            let Point3D { x, y, z, .. } = self.own[k];
            let same = answer.is_ok_and(|q| all_same(&q, &[x, y, z]));
            (!same).then(|| format!("point {k} is {:?} in the fit and {answer:?} in the archive", [x, y, z]))
        };
        let along = &self.fit.along;
        let first = along.mults[0] as usize != along.degree + 1;
        let ends = !all_same(&[along.knots[0], along.knots[along.knots.len() - 1]], &[0.0, 1.0]);
        let deviations = |answer: &Result<[f64; 3], u32>, point: &Point3D| answer.map_or(f64::NAN, |q| Point3D::new(q[0], q[1], q[2]).distance(*point));
        let largest = fold(&answers.iter().zip(&self.points).map(|(a, p)| deviations(a, p)).collect::<Vec<_>>());
        (answers.iter().enumerate().find_map(unlike))
            .or_else(|| first.then(|| "the first multiplicity does not tell the degree".into()))
            .or_else(|| ends.then(|| "the knots do not go from 0 to 1".into()))
            .or_else(|| (!all_same(&[largest], &[along.largest])).then(|| format!("the points read lie {largest:?} away at most")))
    }

    /// Where a parameter stands.
    fn place(&self, u: f64) -> &'static str {
        match (u == 0.0, u == 1.0, self.fit.along.knots.contains(&u)) {
            (true, ..) => ENDS[0],
            (_, true, _) => ENDS[1],
            (.., true) => KNOT,
            _ => INSIDE,
        }
    }

    fn count(&self, c: &Call, tally: &mut Tally) {
        tally.count(CURVES, &format!("{} {:?}", NAMES[c.entry], self.fit.along.mark), 1);
        match self.read(self.params[0]) {
            Err(number) => tally.count(READINGS, &number.to_string(), 1),
            Ok(_) => {
                tally.count(READINGS, TAKEN, 1);
                tally.count(FACTORS, if c.factor == 1.0 { "1" } else { "others" }, 1);
                self.params.iter().for_each(|&u| tally.count(PLACES, self.place(u), 1));
            }
        }
    }
}

fn wrong(c: &Call) -> Option<String> {
    lightness::with(c.factor, || Archived::of(c)?.wrong())
}

/// Makes a call, and reads its curve back where it is accepted.
fn one(random: &mut Random, tally: &mut Tally) -> Option<String> {
    let c = any(random);
    if !lightness::refused(c.factor) {
        lightness::with(c.factor, || Archived::of(&c).iter().for_each(|curve| curve.count(&c, tally)));
    }
    let what = if lightness::refused(c.factor) { None } else { wrong(&c) }?;
    let less = tally::smallest(c.clone(), smaller, weight, |less| wrong(less).is_some());
    Some(format!("different: {what}\n{}\nsmallest: {}\n{}\n{}", c.line(), wrong(&less).unwrap_or_default(), less.line(), less.words()))
}

pub fn compare(count: u64, seed: u64) -> u64 {
    let tally = Tally::default().expect(READINGS, [TAKEN, "13", "14"]).expect(PLACES, [INSIDE, KNOT, ENDS[0], ENDS[1]]);
    tally::run("archive", count, seed, tally, |random, _, tally| (1, one(random, tally)))
}
