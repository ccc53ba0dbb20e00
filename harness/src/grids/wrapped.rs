//! The grid functions of nigorzai.rs beside the guarded calls.
use super::*;
use crate::nigorzai::{self, Mark, Spacing};

/// The answer through the functions that allocate; the call's places are whole triples.
fn wrapped(c: &Call) -> Result<nigorzai::Surface, u32> {
    let points: Vec<[f64; 3]> = c.places.chunks_exact(3).map(|q| [q[0], q[1], q[2]]).collect();
    let spacing = if c.centripetal() { Spacing::Centripetal } else { Spacing::Chordal };
    match c.chosen {
        Some(counts) => nigorzai::approximate_grid(&points, c.size, c.degrees, counts, spacing, c.factor),
        None => nigorzai::approximate_grid_within(&points, c.size, c.degrees, c.tolerance, spacing, c.factor),
    }
}

fn side(along: nigorzai::Direction) -> Side {
    let mark = 1 + [Mark::Refined, Mark::Spread, Mark::Interpolated, Mark::Chosen].iter().position(|mark| *mark == along.mark).unwrap();
    let nigorzai::Direction { degree, largest, unreadable, flat, knots, mults, .. } = along;
    Side { degree, mark, largest, unreadable, flat, knots, mults, ..Side::default() }
}

/// What differs between the function and the guarded call. A refusal's cause is the reference's: its number must be the same.
fn unlike(c: &Call) -> Option<String> {
    let mine = match (wrapped(c), answer(c)) {
        (Ok(nigorzai::Surface { u, v, poles }), _) if u.poles() * v.poles() != poles.len() => return Some(format!("{} by {} poles", u.poles(), v.poles())),
        (Ok(nigorzai::Surface { u, v, poles }), _) => Ok(Fit { sides: [side(u), side(v)], poles: poles.concat() }),
        (Err(number), Err(refusal)) if refusal.number == number => Err(refusal),
        (Err(number), theirs) => return Some(format!("the refusal {number}, not {:?}", theirs.err())),
    };
    difference(c, &mine).map(|what| format!("the guarded call has {what}"))
}

/// A small grid by both calls, and so many others.
pub fn compare(count: u64, seed: u64) -> u64 {
    let heights: Vec<f64> = (0..30).flat_map(|k| [(k / 6) as f64, (k % 6) as f64, ((k * k) % 7) as f64]).collect();
    let small = [Some([3, 4]), None].map(|chosen| Call { tolerance: 0.5, ..plain(heights.clone(), [5, 6], [2, 2], chosen) });
    let (mut random, mut different, mut fits) = (Random::new(seed), 0, 0);
    let others = (0..count).map(|_| Call { extra: [0; 11], ..any(&mut random) }).filter(|c| c.places.len() % 3 == 0);
    for c in small.into_iter().chain(others) {
        fits += wrapped(&c).is_ok() as u64;
        if let Some(what) = unlike(&c) {
            different += 1;
            println!("different: {what}\n{}", c.line());
        }
    }
    println!("wrapper: a small grid by both calls and {count} other grids, {fits} of them fitted: {different} different");
    different
}
