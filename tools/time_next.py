#!/usr/bin/env python3
"""time_next.py [CALLS BATCHES RUNS]: processor time of the search for the next task to run, of ways to find the first bit, and of keeping the bits.

Without numbers, 2,000 calls to a batch, 101 batches, 3 runs. A Rust program calls the functions, optimised: `queue::next::next_to_run` on
the fresh state, with its task at the first and at the last priority, on busy states and on busy states in which nobody is ready, which the
second program makes; three ways to the first bit of a word of random bits; and a call that finds nothing: its time and the loop's are in
those of all of these. On copies of the busy states, the copies' own time taken off, `ready::renew_bit` of a task that has become ready and
of one that is so no more, and `ready::renew_bits`. Prints medians over all batches. Before that, the searches must find the task that the second program runs, the
ways the same priorities, and the bits must come out as they are worked out from the state's words."""
import sys

sys.dont_write_bytecode = True
from timing import LENT_STATES, run

CRATE = """// The search for the next task, ways to the first bit, and the keeping of the bits, for another language to call.
#![tactic(auto)]

ghost use Rattle.model.specs.Valid.{Bitmap};
ghost use Rattle.model.specs.Words.{kernel};

use model::number::{TaskNumber, task_byte};
use queue::next::next_to_run;
use state::layout::Words;

#[unsafe(no_mangle)]
pub extern "C" fn timing_next_to_run(state: &Words) -> u32
    requires { Bitmap (kernel state.now) }
{
    task_byte(next_to_run(state)) as u32
}

#[unsafe(no_mangle)]
pub extern "C" fn timing_renew_bit(state: &mut Words, t: u32) {
    if let Some(n) = TaskNumber::from_word(t) {
        ready::renew_bit(state, n);
    }
}

#[unsafe(no_mangle)]
pub extern "C" fn timing_renew_bits(state: &mut Words) {
    ready::renew_bits(state);
}

// Ways to the priority of a word's first bit: none, for the time of the call itself,
#[unsafe(no_mangle)]
pub extern "C" fn timing_no_way(word: u32) -> u32 {
    word
}

// the zeros below it are counted,
#[unsafe(no_mangle)]
pub extern "C" fn timing_by_count(word: u32) -> u32 {
    u32::trailing_zeros(word) % 32 + 1
}

// the half that has it, its half that has it, and so on,
#[unsafe(no_mangle)]
pub extern "C" fn timing_by_halves(word: u32) -> u32 {
    let mut rest = word;
    let mut zeros: u32 = 0;
    if rest % 256 == 0 {
        rest = rest / 256;
        zeros = 8;
    }
    if rest % 16 == 0 {
        rest = rest / 16;
        zeros = zeros | 4;
    }
    if rest % 4 == 0 {
        rest = rest / 4;
        zeros = zeros | 2;
    }
    if rest % 2 == 0 {
        zeros = zeros | 1;
    }
    zeros % 32 + 1
}

// a table, four bits at a time.
#[unsafe(no_mangle)]
pub extern "C" fn timing_by_table(word: u32) -> u32 {
    let table: [u32; 16] = [0, 1, 2, 1, 3, 1, 2, 1, 4, 1, 2, 1, 3, 1, 2, 1];
    let first = table[(word % 16) as usize];
    if first != 0 {
        return first;
    }
    let second = table[(word / 16 % 16) as usize];
    if second != 0 {
        return second % 32 + 4;
    }
    let third = table[(word / 256 % 16) as usize];
    if third != 0 {
        return third % 32 + 8;
    }
    table[(word / 4096 % 16) as usize] % 32 + 12
}
"""

PROGRAM = r"""
use reference::record::Call;
use reference::Outcome;

const CHOSEN: usize = 50;
const BITS: usize = 1_000;

extern "C" {
    fn timing_next_to_run(words: *const u32) -> u32;
    fn timing_renew_bit(words: *mut u32, t: u32);
    fn timing_renew_bits(words: *mut u32);
    fn timing_no_way(word: u32) -> u32;
    fn timing_by_count(word: u32) -> u32;
    fn timing_by_halves(word: u32) -> u32;
    fn timing_by_table(word: u32) -> u32;
}

type Way = unsafe extern "C" fn(u32) -> u32;

fn runs(x: &Lent) -> u32 {
    x.kernel().unwrap().running().map_or(0, |t| u32::from(t.get()))
}

fn next_to_run(x: &Lent) -> u32 {
    unsafe { timing_next_to_run(x.words.as_ptr()) }
}

/// The fresh state, its task at another priority.
fn fresh_at(priority: i32) -> Lent {
    let (mut kernel, mut out) = (Kernel::fresh(), Outcome::default());
    kernel.run(&Call::ChgPri { task: 0, priority }, &mut out);
    Lent::of_kernel(&kernel)
}

fn first<'a>(states: impl Iterator<Item = &'a Lent>) -> Vec<Lent> {
    let chosen: Vec<Lent> = states.take(CHOSEN).copied().collect();
    assert_eq!(chosen.len(), CHOSEN, "too few states");
    chosen
}

fn is_idle(x: &Lent) -> bool {
    x.words[at::BITMAP] == 0
}

/// A state as it is before the bit of a task's priority is worked out: the task has become ready, or is so no more.
fn before_bit(x: &Lent, t: u32, ready: bool) -> (Lent, Lent) {
    let (mut before, mut after) = (*x, *x);
    let place = if ready { READY } else { LOCKING };
    for words in [&mut before.words, &mut after.words] {
        words[at::PLACE + t as usize] = place;
    }
    after.words[at::BITMAP] = bits(&after.words);
    before.words[at::BITMAP] = after.words[at::BITMAP] ^ changed(&after.words, t);
    (before, after)
}

/// The bit that a task's move changed, 0 where another ready task has its priority.
fn changed(words: &[u32; WORDS], t: u32) -> u32 {
    let priority = words[at::CURRENT + t as usize];
    let others = tasks().filter(|&u| u != t && words[at::PLACE + u as usize] == READY && words[at::CURRENT + u as usize] == priority).count();
    if others > 0 { 0 } else { 1 << (priority - 1) }
}

fn bits(words: &[u32; WORDS]) -> u32 {
    tasks().filter(|&t| words[at::PLACE + t as usize] == READY).fold(0, |bits, t| bits | 1 << (words[at::CURRENT + t as usize] - 1))
}

/// A task that waits, or one that is ready.
fn mover(x: &Lent, waits: bool) -> Option<u32> {
    tasks().find(|&t| if waits { x.waits(t) } else { x.word(at::PLACE, t) == READY })
}

fn time_search(states: &[Lent], calls: usize) -> f64 {
    batch(calls, |i| {
        black_box(next_to_run(black_box(&states[i % CHOSEN])));
    })
}

/// What a change takes beyond the copy that it is made on.
fn time_change(states: &[(Lent, u32)], calls: usize, change: unsafe fn(&mut Lent, u32)) -> f64 {
    let mut x = states[0].0;
    let mut pass = |with: bool| {
        batch(calls, |i| {
            let (state, t) = black_box(&states[i % CHOSEN]);
            x = *state;
            if with {
                unsafe { change(black_box(&mut x), *t) };
            }
            black_box(&mut x);
        })
    };
    let copy = pass(false);
    pass(true) - copy
}

unsafe fn renew_bit(x: &mut Lent, t: u32) {
    timing_renew_bit(x.words.as_mut_ptr(), t)
}

unsafe fn renew_bits(x: &mut Lent, _: u32) {
    timing_renew_bits(x.words.as_mut_ptr())
}

/// Each batch by turns, and the median of each.
fn medians(rounds: usize, names: &[&str], mut time: impl FnMut(usize) -> f64) {
    let mut times = vec![Vec::new(); names.len()];
    for _ in 0..rounds {
        (0..names.len()).for_each(|i| times[i].push(time(i)));
    }
    names.iter().zip(times).for_each(|(name, times)| println!("{name:46}{:7.1}", median(times)));
}

fn main() {
    let numbers: Vec<usize> = std::env::args().skip(1).map(|word| word.parse().unwrap()).collect();
    let [calls, batches, times] = numbers[..] else { panic!("CALLS BATCHES RUNS") };
    let sampled = busiest();
    let searched = [
        ("next_to_run, the fresh state", vec![Lent::of_kernel(&Kernel::fresh()); CHOSEN]),
        ("next_to_run, one task, at priority 1", vec![fresh_at(1); CHOSEN]),
        ("next_to_run, one task, at priority 16", vec![fresh_at(16); CHOSEN]),
        ("next_to_run, busy states", first(sampled.iter().filter(|x| !is_idle(x)))),
        ("next_to_run, busy states, nobody is ready", first(sampled.iter().filter(|x| is_idle(x)))),
    ];
    for x in searched.iter().flat_map(|(_, states)| states) {
        assert_eq!(next_to_run(x), runs(x), "the running task of {x:?}");
    }
    let mut random = Random::new(2026);
    let words: Vec<u32> = (0..BITS).map(|_| (random.word() as u32 & random.word() as u32 & 0xffff).max(1)).collect();
    let ways: [(&str, Way); 3] = [("the first bit, zeros counted", timing_by_count), ("the first bit, by halves", timing_by_halves), ("the first bit, by a table", timing_by_table)];
    for word in 1..=0xffff_u32 {
        assert!(ways.iter().all(|(_, way)| unsafe { way(word) } == word.trailing_zeros() + 1), "the first bit of {word}");
    }
    let busy = first(sampled.iter().filter(|x| mover(x, true).is_some() && mover(x, false).is_some()));
    let moved = |waits: bool| busy.iter().map(move |x| (x, mover(x, waits).unwrap())).map(move |(x, t)| (before_bit(x, t, waits), t));
    for ((mut before, after), t) in moved(true).chain(moved(false)) {
        unsafe { renew_bit(&mut before, t) };
        assert!(before == after, "the bit of task {t}: {before:?}, not {after:?}");
    }
    for x in &busy {
        let mut y = *x;
        y.words[at::BITMAP] = !0;
        unsafe { renew_bits(&mut y, 0) };
        assert!(y == *x, "the bits of {x:?}");
    }
    println!("the searches find the second program's running task, the ways to the first bit agree, and the bits come out right");
    println!("{calls} calls to a batch, {batches} batches, {times} runs; nanoseconds");
    medians(batches * times, &searched.each_ref().map(|(name, _)| *name), |i| time_search(&searched[i].1, calls));
    let timed = [ways.as_slice(), &[("a call that finds nothing", timing_no_way as Way)]].concat();
    medians(batches * times, &timed.iter().map(|(name, _)| *name).collect::<Vec<_>>(), |i| {
        batch(calls, |j| {
            black_box(unsafe { timed[i].1(black_box(words[j % BITS])) });
        })
    });
    let enter: Vec<_> = moved(true).map(|((before, _), t)| (before, t)).collect();
    let leave: Vec<_> = moved(false).map(|((before, _), t)| (before, t)).collect();
    let all: Vec<_> = busy.iter().map(|x| (*x, 0)).collect();
    let names = ["renew_bit, a task has become ready", "renew_bit, a task is so no more", "renew_bits"];
    medians(batches * times, &names, |i| match i {
        0 => time_change(&enter, calls, renew_bit),
        1 => time_change(&leave, calls, renew_bit),
        _ => time_change(&all, calls, renew_bits),
    });
}
"""

if __name__ == "__main__":
    run(CRATE, "model state ready queue", LENT_STATES + PROGRAM, lambda folder: sys.argv[1:] or ["2000", "101", "3"])
