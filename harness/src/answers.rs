//! The reference alone: a digest of its answers to calls at the lightness factor 1, which the build that takes factors must print as the unchanged one does.
use crate::random::Random;
use crate::tally::Tally;
use crate::{grids, ladders};

/// The digest of no bytes.
pub const EMPTY: u64 = 0xcbf2_9ce4_8422_2325;

/// The digest (FNV-1a) of bytes and, behind them, of these.
pub fn digest(before: u64, bytes: &[u8]) -> u64 {
    bytes.iter().fold(before, |hash, &byte| (hash ^ byte as u64).wrapping_mul(0x100_0000_01b3))
}

/// The digest of the calls and answers that `some` makes.
fn of_calls(count: u64, mut some: impl FnMut() -> Vec<u64>) -> u64 {
    let words = |hash: u64, words: Vec<u64>| words.iter().fold(hash, |hash, word| digest(hash, &word.to_le_bytes()));
    (0..count).fold(EMPTY, |hash, _| words(hash, some()))
}

/// Answers so many ladder calls, and a tenth as many grid calls.
pub fn tell(count: u64, seed: u64) -> u64 {
    let (mut random, mut tally, grids) = (Random::new(seed), Tally::default(), count / 10);
    let ladder = of_calls(count, || ladders::answered(&mut random, &mut tally));
    let grid = of_calls(grids, || grids::answered(&mut random, &mut tally));
    println!("answers at factor 1, seed {seed}: {count} ladder calls {ladder:016x}, {grids} grid calls {grid:016x}");
    tally.report();
    0
}
