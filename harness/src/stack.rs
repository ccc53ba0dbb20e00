//! How much stack each call of the library uses: the stack below the caller is painted, the call runs, and the deepest place that is not as painted is looked for.
use crate::random::Random;
use crate::{grids, ladders, readings};
use std::collections::BTreeMap;

/// How far below the caller is painted, in bytes.
const PAINTED: usize = 256 * 1024;

/// Left as it is between a painting function's own frame and what it paints.
const MARGIN: usize = 256;

/// The words of the painted part: `here` is an address in the caller's frame, `top` one in that of a function which it calls.
fn words(here: usize, top: usize) -> impl Iterator<Item = *mut u64> {
    let bottom = (here - PAINTED) & !7;
    (bottom..top - MARGIN).step_by(8).map(|address| address as *mut u64)
}

#[inline(never)]
fn paint(here: usize, pattern: u64) {
    let own = 0u64;
    let top = &raw const own as usize;
    assert!(top < here && here - top < PAINTED / 2);
    // the painted words lie in this thread's stack, below every frame that is in use
    words(here, top).for_each(|word| unsafe { word.write_volatile(pattern) });
}

/// How far below `here` the deepest word is that has changed; with none it is where the painted part begins.
#[inline(never)]
fn deepest(here: usize, pattern: u64) -> usize {
    let own = 0u64;
    let top = &raw const own as usize;
    let changed = words(here, top).find(|word| unsafe { word.read_volatile() } != pattern);
    here - changed.map_or(top - MARGIN, |word| word as usize)
}

/// Bytes of stack that `f` uses below its caller, with two patterns, so that a word written with one of them is seen too.
#[inline(never)]
fn used(f: &mut dyn FnMut()) -> usize {
    let here = &raw const f as usize;
    let once = |f: &mut dyn FnMut(), pattern: u64| {
        paint(here, pattern);
        f();
        deepest(here, pattern)
    };
    let (a, b) = (once(f, 0xa5a5_5a5a_c3c3_3c3c), once(f, 0x1357_9bdf_0246_8ace));
    a.max(b)
}

/// The most that each call used, with the call that did and how many were measured.
#[derive(Default)]
pub struct Most {
    by_name: BTreeMap<&'static str, (usize, u64, String)>,
}

impl Most {
    pub fn measure(&mut self, name: &'static str, what: impl Fn() -> String, f: &mut dyn FnMut()) {
        let bytes = used(f);
        assert!(bytes < PAINTED, "more than was painted");
        let most = self.by_name.entry(name).or_default();
        most.1 += 1;
        if bytes > most.0 {
            (most.0, most.2) = (bytes, what());
        }
    }
}

/// A function that fills so many bytes of its frame.
#[inline(never)]
fn fill<const BYTES: usize>() {
    std::hint::black_box(&mut [1u8; BYTES]);
}

/// The measure itself: what is left unpainted is little, and a filled frame is seen.
fn check() {
    let (nothing, small, large) = (used(&mut || {}), used(&mut fill::<1024>), used(&mut fill::<50_000>));
    assert!(nothing < 2 * MARGIN && (1024..1024 + 2 * MARGIN).contains(&small) && (50_000..50_000 + 2 * MARGIN).contains(&large), "{nothing} {small} {large}");
}

fn measured() -> Most {
    let (mut most, mut random) = (Most::default(), Random::new(1));
    check();
    ladders::stack(&mut random, &mut most);
    grids::stack(&mut random, &mut most);
    readings::stack(&mut random, &mut most);
    most
}

pub fn bench() {
    let thread = std::thread::Builder::new().stack_size(16 * PAINTED).spawn(measured).expect("a thread");
    for (name, (bytes, calls, what)) in thread.join().expect("the thread ends").by_name {
        println!("nigorzai_{name}: at most {bytes} bytes of stack in {calls} calls, most in {what}");
    }
}
