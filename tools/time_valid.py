#!/usr/bin/env python3
"""time_valid.py: processor time of one check of a busy valid state, optimised.

A Rust program calls `valid::is_valid` on the busiest of many valid states that `reference/` makes, in batches, each on its own
processor time. Prints the median over all batches, and beside it that of the second program's check of the same states."""
import subprocess
import sys

sys.dont_write_bytecode = True
from compare_verdicts import STATES
from timing import run

CRATE = """// The check of a lent state, for another language to call.
#![tactic(auto)]

#[unsafe(no_mangle)]
pub extern "C" fn timing_is_valid(state: &[u32], store: &[u8], outbox: &[u8]) -> bool {
    valid::is_valid(state, store, outbox)
}
"""

PROGRAM = """
use reference::{check, words::{at, LOCKING, PER_TASK}};
use std::hint::black_box;

const CHOSEN: usize = 50;
const BATCHES: usize = 101;
const CALLS: usize = 500;

#[repr(C)]
struct Time { seconds: i64, nanoseconds: i64 }

extern "C" {
    // A slice is passed as a pointer and a length.
    fn timing_is_valid(w: *const u32, wl: usize, s: *const u8, sl: usize, o: *const u8, ol: usize) -> bool;
    fn clock_gettime(clock: i32, time: *mut Time) -> i32;
}

/// Microseconds of processor time of this process.
fn now() -> f64 {
    let mut time = Time { seconds: 0, nanoseconds: 0 };
    unsafe { clock_gettime(2, &mut time) };
    time.seconds as f64 * 1e6 + time.nanoseconds as f64 / 1e3
}

struct State { words: Vec<u32>, store: Vec<u8>, outbox: Vec<u8> }

fn product(x: &State) -> bool {
    let (w, s, o) = (&x.words, &x.store, &x.outbox);
    unsafe { timing_is_valid(w.as_ptr(), w.len(), s.as_ptr(), s.len(), o.as_ptr(), o.len()) }
}

fn second(x: &State) -> bool {
    check(&x.words, &x.store, &x.outbox)
}

fn states() -> Vec<State> {
    let data = std::fs::read(std::env::args().nth(1).unwrap()).unwrap();
    let verdicts = std::fs::read(std::env::args().nth(2).unwrap()).unwrap();
    let number = |at: usize| u32::from_le_bytes(data[at..at + 4].try_into().unwrap());
    let (mut states, mut at) = (Vec::new(), 0);
    for verdict in verdicts.chunks(2) {
        let [words, store, outbox] = [0, 4, 8].map(|i| number(at + i) as usize);
        let (w, s) = (at + 12, at + 12 + 4 * words);
        if verdict[0] == b'1' {
            states.push(State {
                words: (0..words).map(|i| number(w + 4 * i)).collect(),
                store: data[s..s + store].to_vec(),
                outbox: data[s + store..s + store + outbox].to_vec(),
            });
        }
        at = s + store + outbox;
    }
    states
}

fn waits(x: &State) -> usize {
    x.words[at::PLACE..][..PER_TASK].iter().filter(|&&place| place >= LOCKING).count()
}

fn measure(name: &str, states: &[State], is_valid: fn(&State) -> bool) {
    let mut times = Vec::new();
    for _ in 0..BATCHES {
        for state in states {
            let start = now();
            for _ in 0..CALLS {
                assert!(black_box(is_valid(black_box(state))));
            }
            times.push((now() - start) / CALLS as f64);
        }
    }
    times.sort_by(f64::total_cmp);
    let part = |percent: usize| times[(times.len() - 1) * percent / 100];
    println!("{name}: median {:.2} microseconds, a tenth below {:.2}, a tenth above {:.2}", part(50), part(10), part(90));
}

fn main() {
    let mut states = states();
    states.sort_by_key(|state| std::cmp::Reverse(waits(state)));
    states.truncate(CHOSEN);
    println!("{CHOSEN} valid states with {} to {} waiting tasks, {BATCHES} batches of {CALLS} calls on each",
        waits(&states[CHOSEN - 1]), waits(&states[0]));
    measure("is_valid", &states, product);
    measure("the second program's check", &states, second);
}
"""


def inputs(folder):
    frames, verdicts = folder / "frames", folder / "verdicts"
    subprocess.run([STATES, "2026", "10000", frames, verdicts], check=True, stderr=subprocess.DEVNULL)
    return [frames, verdicts]


if __name__ == "__main__":
    run(CRATE, "valid", PROGRAM, inputs)
