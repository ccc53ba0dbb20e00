//! Slices to be lent: guard places around them, and what each place held before the call.
use crate::random::same;

/// A place of a lent slice, as a word and made of one.
pub trait Place: Copy + std::fmt::Debug {
    fn word(self) -> u64;
    fn of(word: u64) -> Self;
    /// Equal, or two NaN.
    fn same(self, other: Self) -> bool {
        self.word() == other.word()
    }
}

impl Place for f64 {
    fn word(self) -> u64 {
        self.to_bits()
    }
    fn of(word: u64) -> f64 {
        f64::from_bits(word)
    }
    fn same(self, other: f64) -> bool {
        same(self, other)
    }
}

impl Place for u32 {
    fn word(self) -> u64 {
        self as u64
    }
    fn of(word: u64) -> u32 {
        word as u32
    }
}

impl Place for usize {
    fn word(self) -> u64 {
        self as u64
    }
    fn of(word: u64) -> usize {
        word as usize
    }
}

/// How many guard places stand before and behind a lent slice.
const GUARDS: usize = 5;

/// A slice to be lent between guard places, and what it held before the call.
pub struct Guarded<T> {
    now: Vec<T>,
    before: Vec<T>,
}

impl<T: Place> Guarded<T> {
    pub fn new(length: usize, place: impl Fn(usize) -> T) -> Self {
        let guard = |k: usize| T::of(0xc0de_c0de_c0de_c0d0 + k as u64);
        let mut before: Vec<T> = (0..GUARDS).map(guard).collect();
        before.extend((0..length).map(place));
        before.extend((0..GUARDS).map(guard));
        Guarded { now: before.clone(), before }
    }

    /// Filled with values that tell the slice and the place.
    pub fn filled(slice: usize, lengths: &[usize]) -> Self {
        Self::new(lengths[slice], |k| T::of(0x40f5_0000_0000_0000 | (slice << 24) as u64 | k as u64))
    }

    pub fn slice(&mut self) -> &mut [T] {
        let end = self.now.len() - GUARDS;
        &mut self.now[GUARDS..end]
    }

    /// The first place that is neither `wanted` nor, before and behind that, as before the call.
    pub fn differs(&self, name: &str, wanted: &[T]) -> Option<String> {
        let right = |k: usize| match wanted.get(k.wrapping_sub(GUARDS)) {
            Some(&value) => (value, self.now[k].same(value)),
            None => (self.before[k], self.now[k].word() == self.before[k].word()),
        };
        let k = (0..self.now.len()).find(|&k| !right(k).1)?;
        let (now, value) = (self.now[k], right(k).0);
        let place = k as i64 - GUARDS as i64;
        let length = self.now.len() - 2 * GUARDS;
        Some(format!("{name}, place {place} of {length}: {now:?} ({:016x}), not {value:?} ({:016x})", now.word(), value.word()))
    }
}
