"""timing.py: a function of the product, optimised, called from a Rust program. What the timing tools share.

In a copy of the repository a library crate exports the function; a Rust program links it, and may use the second program's library too.
Needs rt, cargo and rustc."""
import pathlib
import shutil
import subprocess
import sys
import tempfile

ROOT = pathlib.Path(__file__).resolve().parent.parent

# Rust: the processor's clock, and lent states that the second program makes.
LENT_STATES = r"""
use reference::limits::*;
use reference::random::Random;
use reference::words::*;
use reference::{states, Kernel};
use std::hint::black_box;

const SAMPLED: usize = 10_000;

#[derive(Clone, Copy, Debug, PartialEq)]
struct Lent { words: [u32; WORDS], store: [u8; STORE], outbox: [u8; OUTBOX] }

#[repr(C)]
struct Time { seconds: i64, nanoseconds: i64 }

extern "C" {
    fn clock_gettime(clock: i32, time: *mut Time) -> i32;
}

/// Nanoseconds of processor time of this thread.
fn now() -> f64 {
    let mut time = Time { seconds: 0, nanoseconds: 0 };
    unsafe { clock_gettime(3, &mut time) };
    time.seconds as f64 * 1e9 + time.nanoseconds as f64
}

fn batch(calls: usize, mut call: impl FnMut(usize)) -> f64 {
    let start = now();
    (0..calls).for_each(&mut call);
    (now() - start) / calls as f64
}

fn median(mut times: Vec<f64>) -> f64 {
    times.sort_by(f64::total_cmp);
    times[times.len() / 2]
}

fn tasks() -> impl DoubleEndedIterator<Item = u32> {
    1..=TASKS as u32
}

impl Lent {
    fn of(words: &[u32], store: &[u8], outbox: &[u8]) -> Lent {
        Lent { words: words.try_into().unwrap(), store: store.try_into().unwrap(), outbox: outbox.try_into().unwrap() }
    }

    fn of_kernel(kernel: &Kernel) -> Lent {
        Lent::of(&kernel.to_words(), kernel.store(), kernel.outbox())
    }

    fn kernel(&self) -> Option<Kernel> {
        Kernel::from_words(&self.words, &self.store, &self.outbox)
    }

    fn word(&self, list: usize, number: u32) -> u32 {
        self.words[list + number as usize]
    }

    fn waits(&self, t: u32) -> bool {
        self.word(at::PLACE, t) >= LOCKING
    }

    fn waiting(&self) -> usize {
        tasks().filter(|&t| self.waits(t)).count()
    }
}

/// Busy valid states, those with the most waiting tasks first.
fn busiest() -> Vec<Lent> {
    let mut random = Random::new(2026);
    let mut busy: Vec<Lent> = (0..SAMPLED).map(|_| states::busy(&mut random)).map(|s| Lent::of(&s.words, &s.store, &s.outbox)).collect();
    busy.sort_by_key(|x| std::cmp::Reverse(x.waiting()));
    busy
}
"""


def run(crate, on, program, inputs=lambda folder: []):
    """Proves the crate, whose text is `crate` and which is built on the crates `on`, and runs the Rust program on what `inputs` makes."""
    subprocess.run(["cargo", "build", "--release", "--offline", "--quiet"], cwd=ROOT / "reference", check=True)
    with tempfile.TemporaryDirectory() as name:
        folder = pathlib.Path(name)
        copy = folder / "repository"
        source = copy / "crates/timing/src"
        shutil.copytree(ROOT / "crates", copy / "crates", ignore=shutil.ignore_patterns("out"))
        source.mkdir(parents=True)
        (source / "lib.rt").write_text(crate)
        (copy / "crates.txt").write_text((ROOT / "crates.txt").read_text() + f"timing staticlib: {on}\n")
        log = subprocess.run(["rt", "lib"], cwd=copy / "crates/timing", capture_output=True, text=True)
        if log.returncode != 0:
            sys.exit(f"rt lib of timing failed:\n{log.stdout[-2000:]}{log.stderr[-2000:]}")
        (folder / "time.rs").write_text(program)
        release = ROOT / "reference/target/release"
        link = ["-L", copy / "crates/timing/out", "-l", "static=timing", "--extern", f"reference={release}/libreference.rlib"]
        made = ["rustc", "--edition", "2021", "-C", "opt-level=3", folder / "time.rs", "-o", folder / "time", *link]
        subprocess.run(made, check=True)
        subprocess.run([folder / "time", *inputs(folder)], check=True)
