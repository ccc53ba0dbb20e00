//! The comparison at scale: ladder calls, grid calls and readings in a fixed mix, cut into numbered chunks. The generator of a chunk is seeded from the seed and
//! its number, and after each chunk the counts are saved, so that a run that was stopped goes on after its last whole chunk.
use crate::random::Random;
use crate::tally::Tally;
use crate::{answers, grids, ladders, lightness, readings};
use std::collections::BTreeMap;
use std::path::{Path, PathBuf};
use std::sync::atomic::{AtomicU64, Ordering};
use std::sync::mpsc::{Receiver, channel};
use std::time::{Duration, Instant};

/// The calls of a whole chunk.
const CHUNK: u64 = 20_000;

/// Of each 20 calls the first 15 are ladder calls and the next 2 grid calls; the last 3 are readings.
const ROUND: u64 = 20;
const LADDERS: u64 = 15;
const GRIDS_END: u64 = 17;

/// What a chunk gave: what was counted, and what differs, where something does.
struct Chunk {
    tally: Tally,
    different: Option<String>,
}

/// Runs so many calls of the mix.
fn chunk(seed: u64, number: u64, calls: u64) -> Chunk {
    let (mut random, mut tally, mut done) = (Random::of_part(seed, number), Tally::default(), 0);
    let mut different = None;
    while done < calls && different.is_none() {
        let place = done % ROUND;
        let made = match place {
            0..LADDERS => (1, ladders::one(&mut random, &mut tally)),
            LADDERS..GRIDS_END => (1, grids::one(&mut random, &mut tally)),
            _ => readings::some(&mut random, (ROUND - place).min(calls - done), &mut tally),
        };
        (done, different) = (done + made.0, made.1);
    }
    Chunk { tally, different: different.map(|text| format!("chunk {number}, seed {seed}\n{text}")) }
}

/// So many whole chunks, from the first on, with what was counted in them.
struct State {
    file: PathBuf,
    program: u64,
    chunks: u64,
    tally: Tally,
}

/// A number that tells this program, with the library and the reference in it, from another.
fn program() -> u64 {
    let bytes = std::fs::read(std::env::current_exe().expect("the program's path")).expect("the program's bytes");
    answers::digest(answers::EMPTY, &bytes)
}

impl State {
    /// The state that the file holds, if it is this program's; else none of the chunks.
    fn found(file: PathBuf) -> State {
        let mut tally = ladders::expected();
        tally.add(&grids::expected());
        tally.add(&readings::expected());
        let new = State { file, program: program(), chunks: 0, tally };
        let Ok(text) = std::fs::read_to_string(&new.file) else { return new };
        match new.read(&text) {
            Some((chunks, tally)) => State { chunks, tally, ..new },
            None => {
                eprintln!("{} is of another program or damaged: the run begins anew", new.file.display());
                new
            }
        }
    }

    fn read(&self, text: &str) -> Option<(u64, Tally)> {
        let (first, rest) = text.split_once('\n')?;
        let (second, rest) = rest.split_once('\n')?;
        let rest = rest.strip_suffix("end\n")?;
        let same = first.strip_prefix("program ")? == format!("{:016x}", self.program);
        let chunks = second.strip_prefix("chunks ")?.parse().ok()?;
        same.then_some((chunks, Tally::of_text(rest)?))
    }

    fn save(&self) {
        let text = format!("program {:016x}\nchunks {}\n{}end\n", self.program, self.chunks, self.tally.text());
        let beside = self.file.with_extension("new");
        let written = std::fs::write(&beside, text).and_then(|_| std::fs::rename(&beside, &self.file));
        written.unwrap_or_else(|e| panic!("{}: {e}", self.file.display()));
    }
}

/// The calls of the chunks up to a number.
fn calls_before(number: u64, count: u64) -> u64 {
    (number * CHUNK).min(count)
}

/// Starts threads that each take the next chunk, from `first` on.
fn started(threads: u64, count: u64, seed: u64, first: u64) -> Receiver<(u64, Chunk)> {
    let (sender, receiver) = channel();
    let next = std::sync::Arc::new(AtomicU64::new(first));
    for _ in 0..threads {
        let (sender, next) = (sender.clone(), next.clone());
        std::thread::spawn(move || {
            loop {
                let number = next.fetch_add(1, Ordering::Relaxed);
                let calls = calls_before(number + 1, count) - calls_before(number, count);
                if calls == 0 || sender.send((number, chunk(seed, number, calls))).is_err() {
                    break;
                }
            }
        });
    }
    receiver
}

/// Takes the chunks as they come and saves the state after each, in their order. Ends with what differs first, if anything does.
fn taken(state: &mut State, receiver: Receiver<(u64, Chunk)>, count: u64, chunks: u64) -> Option<String> {
    let (start, before, mut told) = (Instant::now(), calls_before(state.chunks, count), Instant::now());
    let mut waiting = BTreeMap::new();
    let progress = |state: &State, different: u64| {
        let done = calls_before(state.chunks, count);
        let rate = (done - before) as f64 / start.elapsed().as_secs_f64();
        eprintln!("{} of {chunks} chunks, {done} of {count} calls, {rate:.0} calls a second, {different} different", state.chunks);
    };
    while state.chunks < chunks {
        let (number, chunk) = receiver.recv().expect("a chunk's thread stopped");
        if chunk.different.is_some() {
            progress(state, 1);
            state.tally.add(&chunk.tally);
            return chunk.different;
        }
        waiting.insert(number, chunk.tally);
        while let Some(tally) = waiting.remove(&state.chunks) {
            state.tally.add(&tally);
            state.chunks += 1;
            state.save();
        }
        if told.elapsed() > Duration::from_secs(5) || state.chunks == chunks {
            progress(state, 0);
            told = Instant::now();
        }
    }
    None
}

pub fn compare(count: u64, seed: u64, threads: u64) -> u64 {
    let chunks = count.div_ceil(CHUNK);
    let folder = Path::new(concat!(env!("CARGO_MANIFEST_DIR"), "/../target"));
    let build = if lightness::TAKEN { "factor-" } else { "" };
    let mut state = State::found(folder.join(format!("beside-all-{build}{seed}-{count}.state")));
    if state.chunks > 0 {
        eprintln!("{} of {chunks} chunks were done before: goes on after them", state.chunks);
    }
    let receiver = started(threads.max(1), count, seed, state.chunks);
    let different = taken(&mut state, receiver, count, chunks);
    different.iter().for_each(|text| println!("{text}"));
    println!("all: {} of {count} calls in whole chunks, seed {seed}", calls_before(state.chunks, count));
    state.tally.report();
    println!("{} different", different.is_some() as u64);
    different.is_some() as u64
}
