#!/usr/bin/env python3
"""time_acts.py [CALLS BATCHES RUNS]: processor time of the acts that calls are made of, optimised, in busy valid states.

Without numbers, 2,000 calls to a batch, 101 batches, 3 runs. A Rust program calls the acts on the busiest of many valid states that
`reference/` makes, each time on a fresh copy, in two ways: right after the copy, whose own time is taken off, and on copies that were all
made before. Neither is exact: a call begins while the copy before it still goes on, and on copies made before it has to fetch its state
first. Prints the median over all batches both ways, and the second program's time for a record in memory. Before that, each act must
leave the words, the areas and the log that the second program leaves after a call that comes to the same."""
import sys

sys.dont_write_bytecode = True
from timing import LENT_STATES, run

CRATE = """// The acts that calls are made of, for another language to call.
#![tactic(auto)]

ghost use Rattle.std.specs.Prelude.{◌≡◌, length};
ghost use Rattle.model.specs.Sizes.{tasks};
ghost use Rattle.model.specs.Valid.{Arrivals, Priorities, Bitmap};
ghost use Rattle.model.specs.Words.{kernel};
ghost use Rattle.order.specs.Order.{Tasks};

use model::number::{BufferNumber, MutexNumber, TaskNumber};
use state::layout::Words;

#[unsafe(no_mangle)]
pub extern "C" fn timing_end_wait(
    state: &mut Words,
    outbox: &mut [u8],
    log: &mut [u8],
    at: usize,
    t: u32,
    code: i32,
) -> usize {
    match TaskNumber::from_word(t) {
        Some(n) => act::wait::end_wait(state, outbox, log, at, n, code),
        None => 0,
    }
}

#[unsafe(no_mangle)]
pub extern "C" fn timing_release(
    state: &mut Words,
    outbox: &mut [u8],
    log: &mut [u8],
    at: usize,
    m: u32,
) -> usize {
    match MutexNumber::from_word(m) {
        Some(n) => act::mutex::release(state, outbox, log, at, n),
        None => 0,
    }
}

#[unsafe(no_mangle)]
pub extern "C" fn timing_release_settled(
    state: &mut Words,
    outbox: &mut [u8],
    log: &mut [u8],
    at: usize,
    m: u32,
) -> usize
    requires priorities { Priorities (kernel state.old) }
    requires bitmap { Bitmap (kernel state.old) }
    requires arrivals { Arrivals (kernel state.old) }
{
    match MutexNumber::from_word(m) {
        Some(n) => act::mutex::release_settled(state, outbox, log, at, n),
        None => 0,
    }
}

#[unsafe(no_mangle)]
pub extern "C" fn timing_become_dormant(
    state: &mut Words,
    outbox: &mut [u8],
    log: &mut [u8],
    at: usize,
    t: u32,
) -> usize {
    match TaskNumber::from_word(t) {
        Some(n) => act::task::become_dormant(state, outbox, log, at, n),
        None => 0,
    }
}

#[unsafe(no_mangle)]
pub extern "C" fn timing_tick_task(
    state: &mut Words,
    outbox: &mut [u8],
    log: &mut [u8],
    at: usize,
    t: u32,
) -> usize {
    match TaskNumber::from_word(t) {
        Some(n) => act::task::tick_task(state, outbox, log, at, n),
        None => 0,
    }
}

#[unsafe(no_mangle)]
pub extern "C" fn timing_queue_order(
    state: &Words,
    place: u32,
    object: u32,
    order: &mut [u32],
) -> usize
    requires { length order.old ≡ tasks }
{
    order::queue_order(state, place, object, order)
}

#[unsafe(no_mangle)]
pub extern "C" fn timing_end_waits(
    state: &mut Words,
    outbox: &mut [u8],
    log: &mut [u8],
    at: usize,
    order: &[u32],
    code: i32,
) -> usize
    requires { Tasks order.now }
{
    act::waits::end_waits(state, outbox, log, at, order, code)
}

#[unsafe(no_mangle)]
pub extern "C" fn timing_take_oldest(state: &mut Words, store: &mut [u8], b: u32) {
    match BufferNumber::from_word(b) {
        Some(n) => transfer::store::take_oldest(state, store, n),
        None => {}
    }
}

#[unsafe(no_mangle)]
pub extern "C" fn timing_drain(
    state: &mut Words,
    store: &mut [u8],
    outbox: &mut [u8],
    log: &mut [u8],
    at: usize,
) -> usize {
    transfer::drain::drain(state, store, outbox, log, at)
}
"""

PROGRAM = r"""
use reference::generator::{generate, RECORDS};
use reference::record::{self, Call};
use reference::tally::Tally;
use reference::{Answer, Outcome};

const CHOSEN: usize = 50;
const SCRIPTS: u64 = 60;
/// A queue of several tasks has at least so many.
const SEVERAL: usize = 3;
/// Where the log goes on: behind a code.
const START: usize = 5;
const ENDED: u8 = 0x83;

type Log = [u8; LOG];
type Act = fn(&mut Lent, &mut Log, &Case) -> usize;

/// A state and the number that the act is about; what it must leave, and the bytes that it must log.
struct Case { lent: Lent, queue: u32, number: u32, after: Lent, ended: Vec<u8> }

/// An act, the cases on which it is timed, and what shows that it did something.
struct Timed { name: &'static str, act: Act, cases: Vec<Case>, did: fn(&Case, &Lent) -> bool }

// A slice is passed as a pointer and a length, the state as a pointer.
extern "C" {
    fn timing_end_wait(w: *mut u32, o: *mut u8, ol: usize, l: *mut u8, ll: usize, at: usize, t: u32, code: i32) -> usize;
    fn timing_release(w: *mut u32, o: *mut u8, ol: usize, l: *mut u8, ll: usize, at: usize, m: u32) -> usize;
    fn timing_release_settled(w: *mut u32, o: *mut u8, ol: usize, l: *mut u8, ll: usize, at: usize, m: u32) -> usize;
    fn timing_become_dormant(w: *mut u32, o: *mut u8, ol: usize, l: *mut u8, ll: usize, at: usize, t: u32) -> usize;
    fn timing_tick_task(w: *mut u32, o: *mut u8, ol: usize, l: *mut u8, ll: usize, at: usize, t: u32) -> usize;
    fn timing_queue_order(w: *const u32, place: u32, object: u32, order: *mut u32, length: usize) -> usize;
    fn timing_end_waits(w: *mut u32, o: *mut u8, ol: usize, l: *mut u8, ll: usize, at: usize,
        order: *const u32, length: usize, code: i32) -> usize;
    fn timing_take_oldest(w: *mut u32, s: *mut u8, sl: usize, b: u32);
    fn timing_drain(w: *mut u32, s: *mut u8, sl: usize, o: *mut u8, ol: usize, l: *mut u8, ll: usize, at: usize) -> usize;
}

// The acts.

fn end_wait(x: &mut Lent, log: &mut Log, c: &Case) -> usize {
    let (w, o) = (&mut x.words, &mut x.outbox);
    unsafe { timing_end_wait(w.as_mut_ptr(), o.as_mut_ptr(), OUTBOX, log.as_mut_ptr(), LOG, START, c.number, E_TMOUT) }
}

fn release(x: &mut Lent, log: &mut Log, c: &Case) -> usize {
    let (w, o) = (&mut x.words, &mut x.outbox);
    unsafe { timing_release(w.as_mut_ptr(), o.as_mut_ptr(), OUTBOX, log.as_mut_ptr(), LOG, START, c.number) }
}

fn release_settled(x: &mut Lent, log: &mut Log, c: &Case) -> usize {
    let (w, o) = (&mut x.words, &mut x.outbox);
    unsafe { timing_release_settled(w.as_mut_ptr(), o.as_mut_ptr(), OUTBOX, log.as_mut_ptr(), LOG, START, c.number) }
}

fn become_dormant(x: &mut Lent, log: &mut Log, c: &Case) -> usize {
    let (w, o) = (&mut x.words, &mut x.outbox);
    unsafe { timing_become_dormant(w.as_mut_ptr(), o.as_mut_ptr(), OUTBOX, log.as_mut_ptr(), LOG, START, c.number) }
}

fn drain(x: &mut Lent, log: &mut Log, _: &Case) -> usize {
    let (w, s, o) = (&mut x.words, &mut x.store, &mut x.outbox);
    unsafe { timing_drain(w.as_mut_ptr(), s.as_mut_ptr(), STORE, o.as_mut_ptr(), OUTBOX, log.as_mut_ptr(), LOG, START) }
}

/// The order of the queue is put down, and then all its waits end.
fn end_waits(x: &mut Lent, log: &mut Log, c: &Case) -> usize {
    let (w, o) = (&mut x.words, &mut x.outbox);
    let mut order = [0; TASKS];
    let start = unsafe { timing_queue_order(w.as_ptr(), c.queue, c.number, order.as_mut_ptr(), TASKS) };
    let (line, l) = (&order[start..], log.as_mut_ptr());
    unsafe { timing_end_waits(w.as_mut_ptr(), o.as_mut_ptr(), OUTBOX, l, LOG, START, line.as_ptr(), line.len(), E_DLT) }
}

/// A millisecond passes for each task in turn.
fn tick(x: &mut Lent, log: &mut Log, _: &Case) -> usize {
    let (w, o, l) = (&mut x.words, &mut x.outbox, log.as_mut_ptr());
    tasks().fold(START, |at, t| unsafe { timing_tick_task(w.as_mut_ptr(), o.as_mut_ptr(), OUTBOX, l, LOG, at, t) })
}

// The states.

fn mutexes() -> impl Iterator<Item = u32> {
    1..=MUTEXES as u32
}

impl Lent {
    fn caller(&self) -> Option<u32> {
        Some(u32::from(self.kernel()?.running()?.get()))
    }

    fn queued(&self, place: u32, object: u32) -> usize {
        tasks().filter(|&t| self.word(at::PLACE, t) == place && self.word(at::OBJECT, t) == object).count()
    }

    fn held(&self, t: u32) -> impl Iterator<Item = u32> + '_ {
        mutexes().filter(move |&m| self.word(at::HOLDER, m) == t)
    }
}

fn several(n: usize) -> bool {
    n >= SEVERAL
}

impl Case {
    /// The case that comes to the same as a call of the second program, if that is answered well and ends as many waits as wanted.
    fn of(lent: Lent, queue: u32, number: u32, call: Call, wanted: impl Fn(usize) -> bool) -> Option<Case> {
        let mut kernel = lent.kernel()?;
        let mut out = Outcome::default();
        kernel.run(&call, &mut out);
        let good = matches!(out.answer, Answer::Code(0..) | Answer::Exited) && wanted(out.ended.len());
        let ended = out.ended.iter().flat_map(|e| [&[ENDED, e.task.get()][..], &e.code.to_le_bytes()].concat()).collect();
        good.then(|| Case { lent, queue, number, after: Lent::of_kernel(&kernel), ended })
    }

    /// One wait ends: a tick with one millisecond left for it, and no end for the others.
    fn end_wait(x: &Lent, wanted: impl Fn(u32) -> bool) -> Option<Case> {
        let t = tasks().find(|&t| wanted(x.word(at::PLACE, t)))?;
        let mut lent = *x;
        for u in tasks().filter(|&u| x.waits(u)) {
            lent.words[at::LEFT + u as usize] = if u == t { 1 } else { ENDLESS };
        }
        Case::of(lent, 0, t, Call::Tick, |n| n == 1)
    }

    /// The running task gives up a mutex that somebody waits for, or nobody, of an attribute that is wanted.
    fn release(x: &Lent, waited: bool, wanted: impl Fn(u32) -> bool) -> Option<Case> {
        let fits = |&m: &u32| (x.queued(LOCKING, m) > 0) == waited && wanted(x.word(at::MUTEX_ATTRIBUTE, m));
        let m = x.held(x.caller()?).find(fits)?;
        Case::of(*x, LOCKING, m, Call::UnlMtx { mutex: m as i32 }, |n| n == usize::from(waited))
    }

    /// A task ends itself or is ended: the one that holds the most mutexes of those that hold a number that is wanted.
    fn become_dormant(x: &Lent, wanted: impl Fn(usize) -> bool) -> Option<Case> {
        let started = tasks().filter(|&t| x.word(at::PLACE, t) >= READY && wanted(x.held(t).count()));
        let t = started.max_by_key(|&t| x.held(t).count())?;
        let waited = x.held(t).filter(|&m| x.queued(LOCKING, m) > 0).count();
        let call = if x.caller()? == t { Call::ExtTsk } else { Call::TerTsk { task: t as i32 } };
        Case::of(*x, 0, t, call, |n| n == waited)
    }

    /// Valid states are those after a drain: another one changes nothing.
    fn idle_drain(x: &Lent, anyone: bool) -> Option<Case> {
        let sends = tasks().any(|t| x.word(at::PLACE, t) == SENDING);
        (sends == anyone).then(|| Case { lent: *x, queue: 0, number: 0, after: *x, ended: Vec::new() })
    }

    /// The drain of a call that receives: the oldest message has left the buffer already.
    fn drain(x: &Lent, wanted: impl Fn(usize) -> bool) -> Option<Case> {
        (1..=BUFFERS as u32).filter(|&b| x.word(at::USED, b) > 0).find_map(|b| {
            let mut case = Case::of(*x, SENDING, b, Call::RcvMbf { buffer: b as i32, timeout: 0 }, &wanted)?;
            let (w, s) = (&mut case.lent.words, &mut case.lent.store);
            unsafe { timing_take_oldest(w.as_mut_ptr(), s.as_mut_ptr(), STORE, b) };
            Some(case)
        })
    }

    /// All waits of an object's queue end, as in a deletion; but the object stays.
    fn end_waits(x: &Lent, places: &[u32]) -> Option<Case> {
        let queues = tasks().map(|t| (x.word(at::PLACE, t), x.word(at::OBJECT, t)));
        let (place, object) = queues.filter(|(place, _)| places.contains(place)).max_by_key(|&(p, o)| x.queued(p, o))?;
        if place == LOCKING && x.word(at::MUTEX_ATTRIBUTE, object) == u32::from(MUTEX_CEILING) {
            return None;
        }
        let queued = x.queued(place, object);
        let number = object as i32;
        let call = match place {
            LOCKING => Call::DelMtx { mutex: number },
            GETTING => Call::DelMpf { pool: number },
            _ => Call::DelMbf { buffer: number },
        };
        let mut case = Case::of(*x, place, object, call, |n| n == queued && several(n))?;
        case.after.words[at::MUTEX_EXISTS..].copy_from_slice(&x.words[at::MUTEX_EXISTS..]);
        case.after.store = x.store;
        Some(case)
    }

    /// A millisecond passes and no wait ends.
    fn tick(x: &Lent) -> Option<Case> {
        let timed = tasks().filter(|&t| ![0, ENDLESS].contains(&x.word(at::LEFT, t))).count();
        if several(timed) { Case::of(*x, 0, 0, Call::Tick, |n| n == 0) } else { None }
    }
}

/// All tasks but the one that runs wait in one queue, those that arrived first the least urgent; so long is the longest queue in a deletion.
fn crowd(make: &[Call], wait: Call) -> Lent {
    let lowest = i32::from(PRIORITIES);
    let mut calls = make.to_vec();
    calls.push(Call::CreMbf { attribute: 0, bufsz: 0, maxmsz: 1 });
    for t in tasks().skip(1) {
        calls.extend([Call::CreTsk { priority: lowest }, Call::StaTsk { task: t as i32 }]);
    }
    calls.push(Call::RcvMbf { buffer: 1, timeout: 1 });
    calls.extend(tasks().skip(1).map(|_| wait));
    calls.push(Call::Tick);
    calls.extend(tasks().skip(1).map(|t| Call::ChgPri { task: t as i32, priority: (lowest + 2 - t as i32).max(1) }));
    let (mut kernel, mut out) = (Kernel::fresh(), Outcome::default());
    for call in &calls {
        kernel.run(call, &mut out);
        assert!(!matches!(out.answer, Answer::Code(code) if code < 0), "{call:?}: {:?}", out.answer);
    }
    let lent = Lent::of_kernel(&kernel);
    assert_eq!(lent.waiting(), TASKS - 1);
    lent
}

fn timed() -> Vec<Timed> {
    let busy = busiest();
    let of = |name, act, did, case: &dyn Fn(&Lent) -> Option<Case>| {
        let cases: Vec<Case> = busy.iter().filter_map(case).take(CHOSEN).collect();
        assert_eq!(cases.len(), CHOSEN, "{name}: too few states");
        Timed { name, act, cases, did }
    };
    let crowded = |name, x: Lent, place| Timed { name, act: end_waits, cases: vec![Case::end_waits(&x, &[place]).unwrap()], did: all_ready };
    let ready = |c: &Case, x: &Lent| x.word(at::PLACE, c.number) == READY;
    let dormant = |c: &Case, x: &Lent| x.word(at::PLACE, c.number) == DORMANT && x.held(c.number).count() == 0;
    let same = |c: &Case, x: &Lent| c.lent == *x;
    let grew = |c: &Case, x: &Lent| x.word(at::USED, c.number) > c.lent.word(at::USED, c.number);
    let free = |c: &Case, x: &Lent| x.word(at::HOLDER, c.number) == 0;
    let ceiling = u32::from(MUTEX_CEILING);
    let lock = Call::LocMtx { mutex: 1, timeout: -1 };
    let get = Call::GetMpf { pool: 1, timeout: -1 };
    let inherits = [Call::CreMtx { attribute: i32::from(MUTEX_INHERIT), ceiling: 0 }, lock];
    let ranked = [Call::CreMpf { attribute: 1, count: 1, size: 1 }, get];
    vec![
        of("end_wait, for a mutex", end_wait, ready, &|x| Case::end_wait(x, |place| place == LOCKING)),
        of("end_wait, another wait", end_wait, ready, &|x| Case::end_wait(x, |place| place > LOCKING)),
        of("release, somebody waits", release, waiter_holds, &|x| Case::release(x, true, |_| true)),
        of("release, nobody waits, no ceiling", release, free, &|x| Case::release(x, false, |a| a != ceiling)),
        of("release_settled, somebody waits", release_settled, waiter_holds, &|x| Case::release(x, true, |_| true)),
        of("release_settled, nobody waits, no ceiling", release_settled, free, &|x| Case::release(x, false, |a| a != ceiling)),
        of("release_settled, nobody waits, a ceiling", release_settled, free, &|x| Case::release(x, false, |a| a == ceiling)),
        of("become_dormant, holds mutexes", become_dormant, dormant, &|x| Case::become_dormant(x, |n| n > 1)),
        of("become_dormant, holds none", become_dormant, dormant, &|x| Case::become_dormant(x, |n| n == 0)),
        of("drain, nobody sends", drain, same, &|x| Case::idle_drain(x, false)),
        of("drain, nothing fits", drain, same, &|x| Case::idle_drain(x, true)),
        of("drain, one message fits", drain, grew, &|x| Case::drain(x, |n| n == 1)),
        of("drain, several fit", drain, grew, &|x| Case::drain(x, |n| n > 1)),
        of("end_waits, several at a mutex", end_waits, all_ready, &|x| Case::end_waits(x, &[LOCKING])),
        of("end_waits, several elsewhere", end_waits, all_ready, &|x| Case::end_waits(x, &[SENDING, RECEIVING, GETTING])),
        crowded("end_waits, all but the caller at a mutex", crowd(&inherits, lock), LOCKING),
        crowded("end_waits, all but the caller at a pool", crowd(&ranked, get), GETTING),
        of("tick_task, all tasks", tick, |c, x| c.lent.words[at::LEFT..][..PER_TASK] != x.words[at::LEFT..][..PER_TASK], &Case::tick),
    ]
}

/// The task that holds the mutex now waited for it.
fn waiter_holds(c: &Case, x: &Lent) -> bool {
    let t = x.word(at::HOLDER, c.number);
    (c.lent.word(at::PLACE, t), c.lent.word(at::OBJECT, t)) == (LOCKING, c.number) && x.word(at::PLACE, t) == READY
}

fn all_ready(c: &Case, x: &Lent) -> bool {
    several(c.lent.queued(c.queue, c.number)) && x.queued(c.queue, c.number) == 0
}

/// The act does what it should, and logs it.
fn check(timed: &Timed) {
    for case in &timed.cases {
        let (mut x, mut log) = (case.lent, [0; LOG]);
        let next = (timed.act)(&mut x, &mut log, case);
        assert!((timed.did)(case, &x), "{}: not done", timed.name);
        assert!(x == case.after, "{}: the second program leaves another state", timed.name);
        assert_eq!(log[START..next], case.ended, "{}: the log", timed.name);
        assert!(log[..START].iter().chain(&log[next..]).all(|&byte| byte == 0), "{}: the rest of the log", timed.name);
    }
}

// The times.

/// What a copy takes, and what a call right after it takes beyond that.
fn after_copy(timed: &Timed, calls: usize) -> [f64; 2] {
    let (cases, act) = (&timed.cases, timed.act);
    let (mut x, mut log) = (cases[0].lent, [0; LOG]);
    let copy = batch(calls, |i| {
        x = *black_box(&cases[i % cases.len()].lent);
        black_box(&mut x);
    });
    let both = batch(calls, |i| {
        let case = &cases[i % cases.len()];
        x = *black_box(&case.lent);
        black_box(act(black_box(&mut x), &mut log, case));
    });
    [copy, both - copy]
}

/// What a call takes when all copies were made before it, without the loop and the clock.
fn copied_before(timed: &Timed, calls: usize) -> f64 {
    let (cases, act) = (&timed.cases, timed.act);
    let mut log = [0; LOG];
    let rounds = calls.div_ceil(CHOSEN);
    let mut total = 0.0;
    for _ in 0..rounds {
        let mut copies: Vec<Lent> = cases.iter().cycle().take(CHOSEN).map(|case| case.lent).collect();
        let empty = batch(CHOSEN, |i| {
            black_box((&mut copies[i], &cases[i % cases.len()]));
        });
        let full = batch(CHOSEN, |i| {
            black_box(act(black_box(&mut copies[i]), &mut log, &cases[i % cases.len()]));
        });
        total += full - empty;
    }
    total / rounds as f64
}

fn scripts() -> Vec<Vec<Call>> {
    let read = |i| {
        let bytes = generate(2026, i, RECORDS, &mut Tally::default());
        let (mut calls, mut at) = (Vec::new(), 0);
        while let Some((call, length)) = record::read(&bytes[at..]) {
            calls.push(call);
            at += length;
        }
        calls
    };
    (0..SCRIPTS).map(read).collect()
}

/// The second program's time for a record: all scripts in memory, from the fresh kernel on.
fn second(scripts: &[Vec<Call>]) -> f64 {
    let mut out = Outcome::default();
    let start = now();
    for script in scripts {
        let mut kernel = Kernel::fresh();
        for call in script {
            kernel.run(black_box(call), &mut out);
        }
        black_box(&kernel);
    }
    (now() - start) / scripts.iter().map(Vec::len).sum::<usize>() as f64
}

fn main() {
    let numbers: Vec<usize> = std::env::args().skip(1).map(|word| word.parse().unwrap()).collect();
    let [calls, batches, runs] = numbers[..] else { panic!("CALLS BATCHES RUNS") };
    let timed = timed();
    timed.iter().for_each(check);
    println!("every act leaves the words, areas and log bytes that the second program leaves");
    let scripts = scripts();
    let mut copies = Vec::new();
    let mut times = vec![[Vec::new(), Vec::new()]; timed.len()];
    let mut records = Vec::new();
    for _ in 0..runs {
        for (timed, times) in timed.iter().zip(&mut times) {
            for _ in 0..batches {
                let [copy, after] = after_copy(timed, calls);
                copies.push(copy);
                times[0].push(after);
                times[1].push(copied_before(timed, calls));
            }
        }
        records.extend((0..batches).map(|_| second(&scripts)));
    }
    let record = median(records);
    println!("{calls} calls to a batch, {batches} batches, {runs} runs");
    println!("first column: right after a copy of the state and the areas, whose own {:.0} ns are taken off", median(copies));
    println!("second column: all copies made before, {CHOSEN} at a time; the time of the loop and the clock is taken off");
    for (timed, times) in timed.iter().zip(times) {
        let [after, before] = times.map(median);
        let waiting = || timed.cases.iter().map(|case| case.lent.waiting());
        let (least, most) = (waiting().min().unwrap(), waiting().max().unwrap());
        let than = match (after > record, before > record) {
            (true, true) => "longer than a record",
            (false, false) => "shorter than a record",
            _ => "about a record",
        };
        println!("{:42}{after:6.0} ns{before:6.0} ns   {than}; {least} to {most} tasks wait", timed.name);
    }
    println!("{:42}{record:6.0} ns", "the second program, a record in memory");
}
"""

if __name__ == "__main__":
    run(CRATE, "model state order act transfer", LENT_STATES + PROGRAM, lambda folder: sys.argv[1:] or ["2000", "101", "3"])
