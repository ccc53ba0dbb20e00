//! What the calls of a run were like: counts by a group and a name, which add up, and are saved as text and read back. And a run that counts.
use crate::random::Random;
use std::collections::BTreeMap;
use std::time::{Duration, Instant};

#[derive(Clone, Debug, Default, PartialEq)]
pub struct Tally {
    groups: BTreeMap<String, BTreeMap<String, u64>>,
}

impl Tally {
    /// The names of a group that every report is to show, none of them met yet.
    pub fn expect<T: ToString>(mut self, group: &str, names: impl IntoIterator<Item = T>) -> Tally {
        names.into_iter().for_each(|name| self.count(group, &name.to_string(), 0));
        self
    }

    pub fn count(&mut self, group: &str, name: &str, by: u64) {
        match self.groups.get_mut(group).and_then(|names| names.get_mut(name)) {
            Some(n) => *n += by,
            None => drop(self.groups.entry(group.into()).or_default().insert(name.into(), by)),
        }
    }

    pub fn add(&mut self, other: &Tally) {
        for (group, names) in &other.groups {
            names.iter().for_each(|(name, &n)| self.count(group, name, n));
        }
    }

    /// A line for each name: its count, its group and the name, tabs between.
    pub fn text(&self) -> String {
        let lines = |(group, names): (&String, &BTreeMap<String, u64>)| names.iter().map(|(name, n)| format!("{n}\t{group}\t{name}\n")).collect::<String>();
        self.groups.iter().map(lines).collect()
    }

    pub fn of_text(text: &str) -> Option<Tally> {
        let mut tally = Tally::default();
        for line in text.lines() {
            let [n, group, name] = line.split('\t').collect::<Vec<_>>().try_into().ok()?;
            tally.count(group, name, n.parse().ok()?);
        }
        Some(tally)
    }

    /// A line for each group, numbers in their order; of a group with many names how many were met and the rarest; and last the names that were not met.
    pub fn report(&self) {
        let mut missing = vec![];
        for (group, names) in &self.groups {
            let mut names: Vec<(&String, u64)> = names.iter().map(|(name, &n)| (name, n)).collect();
            names.sort_by_key(|(name, _)| (name.split(' ').next().and_then(|word| word.parse().ok()).unwrap_or(u64::MAX), *name));
            if names.len() > 40 {
                let rarest = names.iter().min_by_key(|(_, n)| *n).unwrap();
                let met = names.iter().filter(|(_, n)| *n > 0).count();
                println!("{group}: {met} of {} met, the rarest, {}, {} times", names.len(), rarest.0, rarest.1);
                continue;
            }
            println!("{group}: {}", names.iter().map(|(name, n)| format!("{name} {n}")).collect::<Vec<_>>().join("; "));
            missing.extend(names.iter().filter(|(_, n)| *n == 0).map(|(name, _)| format!("{name} ({group})")));
        }
        println!("met by no call: {}", if missing.is_empty() { "nothing".into() } else { missing.join("; ") });
    }
}

/// Runs `count` calls and counts them; `some` makes at most so many at once, and tells how many and what differs. Stops at the first difference.
pub fn run(what: &str, count: u64, seed: u64, mut tally: Tally, some: impl Fn(&mut Random, u64, &mut Tally) -> (u64, Option<String>)) -> u64 {
    let (mut random, mut done, mut told) = (Random::new(seed), 0, Instant::now());
    let mut different = None;
    while done < count && different.is_none() {
        if told.elapsed() > Duration::from_secs(10) {
            eprintln!("{done} of {count} calls");
            told = Instant::now();
        }
        let (calls, what) = some(&mut random, count - done, &mut tally);
        (done, different) = (done + calls, what);
    }
    different.iter().for_each(|text| println!("{text}"));
    println!("{what}: {done} calls, seed {seed}");
    tally.report();
    println!("{} different", different.is_some() as u64);
    different.is_some() as u64
}

/// The smallest case found for which something still holds: the first of the smaller ones that weighs less, over and over.
pub fn smallest<T, W: PartialOrd>(mut case: T, smaller: impl Fn(&T) -> Vec<T>, weight: impl Fn(&T) -> W, holds: impl Fn(&T) -> bool) -> T {
    while let Some(less) = smaller(&case).into_iter().find(|less| weight(less) < weight(&case) && holds(less)) {
        case = less;
    }
    case
}

/// The numbers rounded to whole ones, to sixteenths, and to three digits.
pub fn rounder(list: &[f64]) -> [Vec<f64>; 3] {
    let digits = |x: f64| format!("{x:.2e}").parse::<f64>().unwrap_or(x);
    let rounds: [fn(f64) -> f64; 2] = [f64::round, |x| (x * 16.0).round() / 16.0];
    let [whole, sixteenths] = rounds.map(|round| list.iter().map(|&x| round(x)).collect());
    [whole, sixteenths, list.iter().map(|&x| digits(x)).collect()]
}

/// How many digits the numbers are written with.
pub fn digits(list: &[f64]) -> usize {
    list.iter().map(|x| format!("{x:?}").len()).sum()
}
