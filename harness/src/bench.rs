//! The times of whole calls beside the Rust's.
use crate::random::least_seconds;
use crate::{bands, grids, ladders, readings, roots, tables};

/// Seconds of our call, of the Rust's, and, where that computes no deviation while ours tells them, of the Rust giving the same answer: its call's own steps and
/// then the distances on the tables that it has.
pub struct Timed {
    pub what: String,
    pub mine: f64,
    pub theirs: f64,
    pub same: Option<f64>,
}

impl Timed {
    fn alone(&self) -> f64 {
        self.mine / self.theirs
    }

    /// Where the Rust's call computes the deviations itself, the call alone is what is compared with.
    fn same(&self) -> f64 {
        self.mine / self.same.unwrap_or(self.theirs)
    }

    pub fn tell(&self) {
        let (us, alone) = (|seconds: f64| seconds * 1e6, self.alone());
        let same = self.same.map_or(String::new(), |same| format!("; with deviations {:.2}, ratio to the same answer {:.2}", us(same), self.same()));
        println!("{}, us: ours {:.2}, the Rust's {:.2}, ratio to the call alone {alone:.2}{same}", self.what, us(self.mine), us(self.theirs));
    }
}

/// The least seconds of each of some runs, the first of them ours, taken in turn; short ones are run several times for one measure.
pub fn in_turn<const N: usize>(mut runs: [&mut dyn FnMut(); N]) -> [f64; N] {
    let once = least_seconds(3, &mut *runs[1]);
    let times = (2e-5 / once).ceil().max(1.0) as usize;
    let rounds = (0.3 / (once * times as f64)).clamp(8.0, 100.0) as usize;
    let mut least = [f64::INFINITY; N];
    for _ in 0..rounds {
        for (seconds, run) in least.iter_mut().zip(&mut runs).rev() {
            *seconds = seconds.min(least_seconds(3, || (0..times).for_each(|_| run())) / times as f64);
        }
    }
    least
}

/// The median and the largest of the ratios, and which call has the largest.
fn summary(name: &str, times: &[Timed], ratio: impl Fn(&Timed) -> f64) -> String {
    let mut sorted: Vec<(f64, &str)> = times.iter().map(|t| (ratio(t), t.what.as_str())).collect();
    sorted.sort_by(|a, b| a.0.total_cmp(&b.0));
    let (n, (largest, what)) = (sorted.len(), sorted[sorted.len() - 1]);
    let median = 0.5 * (sorted[(n - 1) / 2].0 + sorted[n / 2].0);
    let above = sorted.iter().filter(|(ratio, _)| *ratio > 1.0).count();
    format!("{name}: median {median:.2}, above 1 in {above}, largest {largest:.2} ({what})")
}

/// The groups, in the order in which they run.
const GROUPS: [(&str, fn() -> Vec<Timed>); 6] = [
    ("roots", || { roots::bench(); vec![] }),
    ("readings", || { readings::bench(); vec![] }),
    ("bands", || { bands::bench(); vec![] }),
    ("tables", || { tables::bench(); vec![] }),
    ("ladders", ladders::bench),
    ("grids", grids::bench),
];

/// Runs one group, or all of them; false for a name that is none's.
pub fn run(name: Option<&str>) -> bool {
    let groups = GROUPS.iter().filter(|(group, _)| name.is_none_or(|name| name == *group));
    let runs: Vec<Vec<Timed>> = groups.map(|(_, bench)| bench()).collect();
    let times: Vec<Timed> = runs.into_iter().flatten().collect();
    if !times.is_empty() {
        let (alone, same) = (summary("ratio to the call alone", &times, Timed::alone), summary("ratio to the same answer", &times, Timed::same));
        println!("{} whole calls, {alone}; {same}", times.len());
    }
    name.is_none_or(|name| GROUPS.iter().any(|(group, _)| name == *group))
}
