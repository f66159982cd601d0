#!/usr/bin/env python3
"""time_state.py [MILLIONS RUNS]: a set and a get of a task's base priority, called from Rust, in pairs.

Without numbers, 20 million pairs, nine runs. What is read depends on the sum so far, so that no loop folds away. Prints the median
run's nanoseconds for one pair, the least and the most; each call from Rust is a call, so it is part of the time."""
import sys

sys.dont_write_bytecode = True
from timing import run

CRATE = """// A set and a get of a task's base priority, for another language to call.
#![tactic(auto)]

use model::number::TaskNumber;
use state::layout::Words;

#[unsafe(no_mangle)]
pub extern "C" fn timing_set(state: &mut Words, n: u32, v: u32) {
    match TaskNumber::from_word(n) {
        Some(t) => state::task::set_base(state, t, v),
        None => {}
    }
}

#[unsafe(no_mangle)]
pub extern "C" fn timing_get(state: &Words, n: u32) -> u32 {
    match TaskNumber::from_word(n) {
        Some(t) => state::task::base(state, t),
        None => 0,
    }
}
"""

PROGRAM = r"""
use reference::limits::TASKS;
use reference::words::WORDS;
use std::time::Instant;

extern "C" {
    fn timing_set(state: *mut u32, n: u32, v: u32);
    fn timing_get(state: *const u32, n: u32) -> u32;
}

fn pairs(state: &mut [u32; WORDS], rounds: u32) -> u32 {
    let tasks = TASKS as u32;
    let mut sum: u32 = 0;
    for i in 0..rounds {
        let read = unsafe {
            timing_set(state.as_mut_ptr(), i % tasks + 1, i);
            timing_get(state.as_ptr(), sum % tasks + 1)
        };
        sum = sum.wrapping_add(read);
    }
    sum
}

fn main() {
    let numbers: Vec<u32> = std::env::args().skip(1).map(|a| a.parse().unwrap()).collect();
    let (millions, runs) = (numbers.first().copied().unwrap_or(20), numbers.get(1).copied().unwrap_or(9));
    let mut state = [0; WORDS];
    let mut times: Vec<f64> = (0..runs)
        .map(|_| {
            let start = Instant::now();
            std::hint::black_box(pairs(&mut state, millions * 1_000_000));
            start.elapsed().as_secs_f64() * 1e3 / millions as f64
        })
        .collect();
    times.sort_by(f64::total_cmp);
    println!("a set and a get: {:.2} ns, {:.2} to {:.2}", times[times.len() / 2], times[0], times[times.len() - 1]);
}
"""

if __name__ == "__main__":
    run(CRATE, "model state", PROGRAM, lambda folder: sys.argv[1:])
