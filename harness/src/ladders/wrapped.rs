//! The functions of nigorzai.rs beside the guarded calls: the examples' cards, with their curves' texts; and random ladders.
use super::*;
use crate::nigorzai::{self, Mark, Spacing};
use crate::readings;

/// The answer through the functions that allocate; the call's places are whole triples.
pub(super) fn wrapped(c: &Call) -> Result<nigorzai::Fit, u32> {
    let points: Vec<[f64; 3]> = c.places.chunks_exact(3).map(|q| [q[0], q[1], q[2]]).collect();
    let spacing = if c.spacing == 0 { Spacing::Chordal } else { Spacing::Centripetal };
    match c.entry {
        INTERPOLATE => nigorzai::interpolate(&points, c.degree, spacing, c.factor),
        APPROXIMATE => nigorzai::approximate(&points, c.degree, c.count, spacing, c.factor),
        WITHIN => nigorzai::approximate_within(&points, c.degree, c.tolerance, spacing, c.factor),
        _ => nigorzai::search_spread(&points, c.degree, c.tolerance, spacing, c.factor),
    }
}

/// As an answer that the guarded call can be held to.
fn unwrapped(answer: &Result<nigorzai::Fit, u32>) -> Answer {
    let nigorzai::Fit { along, poles } = answer.clone()?;
    let mark = 1 + [Mark::Refined, Mark::Spread, Mark::Interpolated, Mark::Chosen].iter().position(|mark| *mark == along.mark).unwrap();
    let nigorzai::Direction { largest, unreadable, flat, knots, mults, .. } = along;
    Ok(Fit { mark, largest, unreadable, poles: poles.concat(), flat, knots, mults, ..Fit::default() })
}

/// What differs between the function and the guarded call, or in a reading at an end of the curve.
fn unlike(c: &Call) -> Option<String> {
    let mine = wrapped(c);
    let read = |fit: &nigorzai::Fit| {
        let unlike = |u: f64| {
            let bits = |at: Result<[f64; 3], u32>| at.map(|q| q.map(f64::to_bits));
            let same = bits(fit.at(u)) == bits(nigorzai::read(&fit.poles, fit.along.degree, &fit.along.knots, &fit.along.mults, u));
            (!same).then(|| format!("another point at {u}")).or_else(|| readings::unlike(&fit.poles, fit.along.degree, &fit.along.knots, &fit.along.mults, u))
        };
        let count = (fit.along.poles() != fit.poles.len()).then(|| format!("{} poles along it", fit.along.poles()));
        count.or_else(|| [0.0, 1.0].iter().find_map(|&u| unlike(u)))
    };
    let different = difference(c, &unwrapped(&mine)).map(|what| format!("the guarded call has {what}"));
    different.or_else(|| mine.as_ref().ok().and_then(read)).or_else(|| unlike_ends(c, &mine))
}

/// The end poles of a curve through the points are the first and the last of them.
fn unlike_ends(c: &Call, answer: &Result<nigorzai::Fit, u32>) -> Option<String> {
    let (Ok(fit), INTERPOLATE) = (answer, c.entry) else { return None };
    let (ends, length) = ([fit.poles[0], fit.poles[fit.poles.len() - 1]], c.places.len());
    (ends.concat() != [&c.places[..3], &c.places[length - 3..]].concat()).then(|| format!("the end poles {ends:?}"))
}

/// The examples' cards: the same text as the file beside each, and the same curve as the guarded call.
fn compare_examples() -> u64 {
    let folder = concat!(env!("CARGO_MANIFEST_DIR"), "/../examples");
    let mut different = 0;
    for name in ["refined", "spread", "interpolated", "refused"] {
        let file = |end: &str| std::fs::read_to_string(format!("{folder}/{name}.{end}")).unwrap_or_else(|e| panic!("{name}.{end}: {e}"));
        let c = cards::parsed(file("card").as_bytes()).expect("a card");
        let text = cards::printed(&unwrapped(&wrapped(&c)));
        let unlike = (text != file("curve")).then(|| format!("the curve is {text:?}")).or_else(|| unlike(&c));
        unlike.iter().for_each(|what| println!("different: {name}.card: {what}"));
        different += unlike.is_some() as u64;
    }
    different
}

/// The examples' cards, and so many other ladders.
pub fn compare(count: u64, seed: u64) -> u64 {
    let (mut different, mut random, mut fits) = (compare_examples(), Random::new(seed), 0);
    for _ in 0..count {
        let mut c = Call { extra: [0; 8], ..any(&mut random) };
        c.places.truncate(c.places.len() / 3 * 3);
        fits += wrapped(&c).is_ok() as u64;
        if let Some(what) = unlike(&c) {
            different += 1;
            println!("different: {what}\n{}", c.line());
        }
    }
    println!("wrapper: 4 cards and {count} ladders, {fits} of them fitted: {different} different");
    different
}
