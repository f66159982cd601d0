//! Processor time of the four board calls on busy valid states, and beside it that of the check with which each begins. Every state is the
//! busiest of many that the second program makes. Prints medians over all batches, in microseconds.

use reference::lent_state::State;
use reference::random::Random;
use reference::states::busy;
use reference::words::{at, LOCKING, PER_TASK};
use shinepod::board::{BufferRow, MutexRow, PoolRow, TaskRow};
use shinepod::numbers::{BUFFERS, MUTEXES, POOLS, TASKS};
use std::hint::black_box;

const SAMPLED: usize = 10_000;
const CHOSEN: usize = 50;
const BATCHES: usize = 101;
const CALLS: usize = 200;

#[repr(C)]
struct Time {
    seconds: i64,
    nanoseconds: i64,
}

extern "C" {
    fn clock_gettime(clock: i32, time: *mut Time) -> i32;
}

/// Microseconds of processor time of this thread.
fn now() -> f64 {
    let mut time = Time { seconds: 0, nanoseconds: 0 };
    unsafe { clock_gettime(3, &mut time) };
    time.seconds as f64 * 1e6 + time.nanoseconds as f64 / 1e3
}

fn waits(state: &State) -> usize {
    let places = &state.words[at::PLACE..][..PER_TASK];
    places.iter().filter(|&&place| place >= LOCKING).count()
}

fn measure(name: &str, states: &[State], mut call: impl FnMut(&State) -> bool) {
    let mut times = Vec::new();
    for _ in 0..BATCHES {
        for state in states {
            let start = now();
            for _ in 0..CALLS {
                assert!(black_box(call(black_box(state))));
            }
            times.push((now() - start) / CALLS as f64);
        }
    }
    times.sort_by(f64::total_cmp);
    println!("{name}: {:.2}", times[times.len() / 2]);
}

fn main() {
    let mut random = Random::new(2026);
    let mut states: Vec<State> = (0..SAMPLED).map(|_| busy(&mut random)).collect();
    states.sort_by_key(|state| std::cmp::Reverse(waits(state)));
    states.truncate(CHOSEN);
    println!(
        "{CHOSEN} states with {} to {} waiting tasks, {BATCHES} batches of {CALLS} calls on each, medians in microseconds",
        waits(&states[CHOSEN - 1]),
        waits(&states[0])
    );
    let mut tasks = [TaskRow::default(); TASKS as usize];
    let mut mutexes = [MutexRow::default(); MUTEXES as usize];
    let mut buffers = [BufferRow::default(); BUFFERS as usize];
    let mut pools = [PoolRow::default(); POOLS as usize];
    measure("is_valid", &states, |x| shinepod::is_valid(&x.words, &x.store, &x.outbox));
    measure("ref_tsk", &states, |x| {
        shinepod::ref_tsk(&x.words, &x.store, &x.outbox, &mut tasks).is_ok()
    });
    measure("ref_mtx", &states, |x| {
        shinepod::ref_mtx(&x.words, &x.store, &x.outbox, &mut mutexes).is_ok()
    });
    measure("ref_mbf", &states, |x| {
        shinepod::ref_mbf(&x.words, &x.store, &x.outbox, &mut buffers).is_ok()
    });
    measure("ref_mpf", &states, |x| {
        shinepod::ref_mpf(&x.words, &x.store, &x.outbox, &mut pools).is_ok()
    });
}
