#!/usr/bin/env python3
"""time_recompute.py [CALLS BATCHES RUNS]: processor time of `priority::recompute` against the same job in plain Rust, in busy states.

Without numbers, 2,000 calls to a batch, 101 batches, 3 runs. The plain programs work out own priorities first and then go through
tasks and chain steps in a double loop; one asks every mutex for every task, the other goes through the mutexes once. Both then work out the
bits of the priorities with a ready task. First all three
are run on 2,000,000 random states, half of them garbage, and must leave the same words."""
import sys

sys.dont_write_bytecode = True
from timing import run

CRATE = """// Priorities worked out afresh, for another language to call.
#![tactic(auto)]

use state::layout::Words;

#[unsafe(no_mangle)]
pub extern "C" fn timing_recompute(state: &mut Words) {
    priority::recompute(state);
}
"""

PROGRAM = r"""
use reference::limits::{MUTEXES, PRIORITIES, TASKS};
use reference::words::{at, LOCKING, PER_TASK, READY, WORDS};

const INHERITS: u32 = 2;
const CEILINGED: u32 = 3;
const COMPARED: usize = 2_000_000;

type State = [u32; WORDS];
type Program = fn(&mut State);

#[repr(C)]
struct Time { seconds: i64, nanoseconds: i64 }

extern "C" {
    fn timing_recompute(state: *mut u32);
    fn clock_gettime(clock: i32, time: *mut Time) -> i32;
}

/// Nanoseconds of processor time of this thread.
fn now() -> f64 {
    let mut time = Time { seconds: 0, nanoseconds: 0 };
    unsafe { clock_gettime(3, &mut time) };
    time.seconds as f64 * 1e9 + time.nanoseconds as f64
}

#[inline(never)]
fn product(s: &mut State) {
    unsafe { timing_recompute(s.as_mut_ptr()) }
}

/// Own priorities task by task, each over all mutexes.
#[inline(never)]
fn by_task(s: &mut State) {
    let mut own = [0; PER_TASK];
    for t in 1..=TASKS {
        own[t] = s[at::BASE + t];
        for m in 1..=MUTEXES {
            if s[at::HOLDER + m] as usize == t && s[at::MUTEX_ATTRIBUTE + m] == CEILINGED {
                own[t] = own[t].min(s[at::CEILING + m]);
            }
        }
    }
    along_chains(s, &own)
}

/// Own priorities by the bases, and then mutex by mutex.
#[inline(never)]
fn by_mutex(s: &mut State) {
    let mut own = [0; PER_TASK];
    own[1..].copy_from_slice(&s[at::BASE + 1..at::BASE + PER_TASK]);
    for m in 1..=MUTEXES {
        let t = s[at::HOLDER + m] as usize;
        if s[at::MUTEX_ATTRIBUTE + m] == CEILINGED && (1..=TASKS).contains(&t) {
            own[t] = own[t].min(s[at::CEILING + m]);
        }
    }
    along_chains(s, &own)
}

/// The double loop over tasks and chain steps, and the bits.
#[inline(always)]
fn along_chains(s: &mut State, own: &[u32; PER_TASK]) {
    s[at::CURRENT..at::CURRENT + PER_TASK].copy_from_slice(own);
    for x in 1..=TASKS {
        let mut y = x;
        for _ in 0..TASKS {
            y = next(s, y);
            if y == 0 {
                break;
            }
            s[at::CURRENT + y] = s[at::CURRENT + y].min(own[x]);
        }
    }
    s[at::BITMAP] = bits(s);
}

/// A bit for each priority with a ready task.
#[inline(always)]
fn bits(s: &State) -> u32 {
    let mut bits = 0;
    for t in 1..=TASKS {
        let p = s[at::CURRENT + t];
        if s[at::PLACE + t] == READY && (1..=u32::from(PRIORITIES)).contains(&p) {
            bits |= 1 << (p - 1);
        }
    }
    bits
}

/// The holder of the inheritance mutex that a task waits for, 0 for none.
#[inline(always)]
fn next(s: &State, t: usize) -> usize {
    if s[at::PLACE + t] != LOCKING {
        return 0;
    }
    let m = s[at::OBJECT + t] as usize;
    if m == 0 || m > MUTEXES || s[at::MUTEX_ATTRIBUTE + m] != INHERITS {
        return 0;
    }
    let holder = s[at::HOLDER + m] as usize;
    if holder > TASKS { 0 } else { holder }
}

struct Random(u64);

impl Random {
    fn word(&mut self) -> u32 {
        self.0 ^= self.0 << 13;
        self.0 ^= self.0 >> 7;
        self.0 ^= self.0 << 17;
        (self.0.wrapping_mul(0x2545F4914F6CDD1D) >> 32) as u32
    }

    fn below(&mut self, n: usize) -> u32 {
        self.word() % n as u32
    }
}

fn waits(s: &mut State, t: usize, m: usize) {
    s[at::PLACE + t] = LOCKING;
    s[at::OBJECT + t] = m as u32;
}

/// Every task ready, with the base priority that `base` gives; every mutex there, passing priorities on.
fn ready(base: impl Fn(usize) -> u32) -> State {
    let mut s = [0; WORDS];
    for t in 1..=TASKS {
        s[at::PLACE + t] = READY;
        s[at::BASE + t] = base(t);
    }
    for m in 1..=MUTEXES {
        s[at::MUTEX_EXISTS + m] = 1;
        s[at::MUTEX_ATTRIBUTE + m] = INHERITS;
    }
    s
}

/// Every task waits for some mutex, every mutex is held by some task; of so many mutexes one has a ceiling (0: none).
fn random(r: &mut Random, share: usize) -> State {
    let bases: Vec<u32> = (0..PER_TASK).map(|_| 1 + r.below(PRIORITIES as usize)).collect();
    let mut s = ready(|t| bases[t]);
    for t in 1..=TASKS {
        let m = 1 + r.below(MUTEXES) as usize;
        waits(&mut s, t, m);
    }
    for m in 1..=MUTEXES {
        s[at::HOLDER + m] = 1 + r.below(TASKS);
        if share > 0 && r.below(share) == 0 {
            s[at::MUTEX_ATTRIBUTE + m] = CEILINGED;
            s[at::CEILING + m] = 1 + r.below(PRIORITIES as usize);
        }
    }
    s
}

fn falling(t: usize) -> u32 {
    t as u32
}

fn rising(t: usize) -> u32 {
    (PER_TASK - t) as u32
}

/// A circle through every mutex; the other tasks wait for its members.
fn circle() -> State {
    let mut s = ready(rising);
    for m in 1..=MUTEXES {
        s[at::HOLDER + m] = m as u32;
    }
    for t in 1..=TASKS {
        waits(&mut s, t, if t <= MUTEXES { t % MUTEXES + 1 } else { (t - 1) % MUTEXES + 1 });
    }
    s
}

/// A chain through every mutex: each task waits for what the next one holds.
fn chain(base: fn(usize) -> u32) -> State {
    let mut s = ready(base);
    for m in 1..=MUTEXES {
        waits(&mut s, m, m);
        s[at::HOLDER + m] = m as u32 + 1;
    }
    s
}

/// The other tasks wait for the chain's first mutex.
fn crowded(mut s: State) -> State {
    for t in MUTEXES + 2..=TASKS {
        waits(&mut s, t, 1);
    }
    s
}

/// The last mutex has a ceiling.
fn with_ceiling(mut s: State) -> State {
    s[at::MUTEX_ATTRIBUTE + MUTEXES] = CEILINGED;
    s[at::CEILING + MUTEXES] = PRIORITIES as u32;
    s
}

/// Words of which many are in range and some are not.
fn garbage(r: &mut Random) -> State {
    let most = [PER_TASK, 2 * PER_TASK, u32::MAX as usize][r.below(3) as usize];
    let mut s = [0; WORDS];
    for word in &mut s {
        *word = if r.below(8) == 0 { r.word() } else { r.below(most) };
    }
    s
}

fn compare(programs: &[(&str, Program)]) {
    let mut r = Random(88172645463325252);
    for i in 0..COMPARED {
        let share = r.below(6) as usize;
        let mut s = if i % 2 == 0 { random(&mut r, share) } else { garbage(&mut r) };
        for t in 1..=TASKS {
            if i % 2 == 0 && r.below(3) == 0 {
                s[at::PLACE + t] = r.below(7);
            }
        }
        let results = programs.iter().map(|(_, program)| { let mut s = s; program(&mut s); s });
        assert!(results.collect::<Vec<_>>().windows(2).all(|pair| pair[0] == pair[1]), "state {i} differs");
    }
    println!("{COMPARED} random states, half of them garbage: all programs leave the same words");
}

fn median(mut times: Vec<f64>) -> f64 {
    times.sort_by(f64::total_cmp);
    times[times.len() / 2]
}

/// The programs take batches in turn; the median over the runs of a run's median batch, in nanoseconds for a call.
fn measure(states: &[State], programs: &[(&str, Program)], calls: usize, batches: usize, runs: usize) -> Vec<f64> {
    let mut medians = vec![Vec::new(); programs.len()];
    for _ in 0..runs {
        let mut copies = vec![states.to_vec(); programs.len()];
        let mut times = vec![Vec::new(); programs.len()];
        let mut turn = 0;
        for _ in 0..batches {
            for (i, (_, program)) in programs.iter().enumerate() {
                let start = now();
                for call in 0..calls {
                    program(&mut copies[i][(turn + call) % states.len()]);
                }
                times[i].push((now() - start) / calls as f64);
            }
            turn += calls;
        }
        for (median_times, times) in medians.iter_mut().zip(times) {
            median_times.push(median(times));
        }
    }
    medians.into_iter().map(median).collect()
}

fn main() {
    let numbers: Vec<usize> = std::env::args().skip(1).map(|word| word.parse().unwrap()).collect();
    let [calls, batches, runs] = numbers[..] else { panic!("CALLS BATCHES RUNS") };
    let programs: [(&str, Program); 3] = [("recompute", product), ("by task", by_task), ("by mutex", by_mutex)];
    compare(&programs);
    let mut r = Random(2026);
    let mut thousand = |share| (0..1000).map(|_| random(&mut r, share)).collect::<Vec<_>>();
    let sets = [
        ("random, one ceiling in four", thousand(4)),
        ("random, no ceiling", thousand(0)),
        ("random, ceilings alone", thousand(1)),
        ("circle", vec![circle()]),
        ("chain, falling urgency", vec![chain(falling)]),
        ("chain, rising urgency", vec![chain(rising)]),
        ("the same, others waiting", vec![crowded(chain(rising))]),
        ("the same, with a ceiling", vec![with_ceiling(crowded(chain(rising)))]),
    ];
    println!("{:30}{}", "", programs.map(|(name, _)| format!("{name:>12}")).concat());
    for (name, states) in &sets {
        let times = measure(states, &programs, calls, batches, runs);
        println!("{name:30}{}", times.iter().map(|time| format!("{time:9.0} ns")).collect::<String>());
    }
}
"""

if __name__ == "__main__":
    run(CRATE, "model state priority", PROGRAM, lambda folder: sys.argv[1:] or ["2000", "101", "3"])
