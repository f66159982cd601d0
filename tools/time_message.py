#!/usr/bin/env python3
"""time_message.py [RUNS ROUNDS]: `message::region::append` and `remove` against the same in plain Rust.

Without numbers, 30 runs of 20,000 rounds. The Rust program has `copy_from_slice`, `copy_within` and `fill` on a region of a buffer's
bytes. A round fills an empty region, or empties a copy of a full one; the time of the copies is taken off. Both programs must leave the
same bytes. Prints the least run's nanoseconds for one operation."""
import sys

sys.dont_write_bytecode = True
from timing import run

CRATE = """// A message stored and the oldest removed, for another language to call.
#![tactic(auto)]

#[unsafe(no_mangle)]
pub extern "C" fn timing_append(r: &mut [u8], used: usize, m: &[u8], n: usize) {
    message::region::append(r, used, m, n);
}

#[unsafe(no_mangle)]
pub extern "C" fn timing_remove(r: &mut [u8]) {
    message::region::remove(r);
}
"""

PROGRAM = r"""
use reference::limits::{MESSAGE, STRETCH as REGION};
use std::hint::black_box;
use std::time::Instant;

type Region = [u8; REGION];
type Append = fn(&mut Region, usize, &[u8]);
type Remove = fn(&mut Region);

extern "C" {
    fn timing_append(r: *mut u8, length: usize, used: usize, m: *const u8, bytes: usize, n: usize);
    fn timing_remove(r: *mut u8, length: usize);
}

fn cost(n: usize) -> usize {
    4 + n.div_ceil(4) * 4
}

#[inline(never)]
fn append_here(r: &mut Region, used: usize, m: &[u8]) {
    unsafe { timing_append(r.as_mut_ptr(), REGION, used, m.as_ptr(), m.len(), m.len()) }
}

#[inline(never)]
fn remove_here(r: &mut Region) {
    unsafe { timing_remove(r.as_mut_ptr(), REGION) }
}

#[inline(never)]
fn append_plain(r: &mut Region, used: usize, m: &[u8]) {
    r[used..used + 4].copy_from_slice(&(m.len() as u32).to_le_bytes());
    r[used + 4..used + 4 + m.len()].copy_from_slice(m);
    r[used + 4 + m.len()..used + cost(m.len())].fill(0);
}

#[inline(never)]
fn remove_plain(r: &mut Region) {
    let length = u32::from_le_bytes(r[..4].try_into().unwrap()) as usize;
    r.copy_within(cost(length).., 0);
    r[REGION - cost(length)..].fill(0);
}

fn filled(append: Append, messages: &[Vec<u8>]) -> Region {
    let mut r = [0; REGION];
    let mut used = 0;
    for m in messages {
        append(black_box(&mut r), used, m);
        used += cost(m.len());
    }
    r
}

/// Nanoseconds of one append, and of one removal.
fn time(append: Append, remove: Remove, messages: &[Vec<u8>], rounds: usize) -> (f64, f64) {
    let each = |start: Instant| start.elapsed().as_secs_f64() * 1e9 / (rounds * messages.len()) as f64;
    let start = Instant::now();
    for _ in 0..rounds {
        black_box(filled(append, messages));
    }
    let appends = each(start);
    let full = filled(append, messages);
    let start = Instant::now();
    for _ in 0..rounds {
        black_box(*black_box(&full));
    }
    let copies = each(start);
    let start = Instant::now();
    for _ in 0..rounds {
        let mut r = *black_box(&full);
        for _ in messages {
            remove(black_box(&mut r));
        }
        black_box(r);
    }
    (appends, each(start) - copies)
}

fn compare(messages: &[Vec<u8>]) {
    let (mut here, mut plain) = (filled(append_here, messages), filled(append_plain, messages));
    for _ in messages {
        assert_eq!(here, plain);
        remove_here(&mut here);
        remove_plain(&mut plain);
    }
    assert_eq!(here, [0; REGION]);
    assert_eq!(plain, here);
}

fn main() {
    let numbers: Vec<usize> = std::env::args().skip(1).map(|a| a.parse().unwrap()).collect();
    let (runs, rounds) = (numbers.first().copied().unwrap_or(30), numbers.get(1).copied().unwrap_or(20_000));
    let of = |lengths: &[usize]| -> Vec<Vec<u8>> { lengths.iter().map(|&n| (1..=n as u8).collect()).collect() };
    let mixed = [1, 5, 9, 14, 18, 22, 27, 32, 30];
    for (name, lengths) in [("seven of the longest", vec![MESSAGE; 7]), ("nine of mixed lengths", mixed.to_vec()), ("thirty-two of 1 byte", vec![1; 32])] {
        let messages = of(&lengths);
        compare(&messages);
        let least = |append: Append, remove: Remove| {
            let all: Vec<_> = (0..runs).map(|_| time(append, remove, &messages, rounds)).collect();
            (all.iter().map(|t| t.0).fold(f64::MAX, f64::min), all.iter().map(|t| t.1).fold(f64::MAX, f64::min))
        };
        let (plain, here) = (least(append_plain, remove_plain), least(append_here, remove_here));
        println!("{name}: append {:.1} ns, plain Rust {:.1}; remove {:.1} ns, plain Rust {:.1}", here.0, plain.0, here.1, plain.1);
    }
}
"""

if __name__ == "__main__":
    run(CRATE, "model message", PROGRAM, lambda folder: sys.argv[1:])
