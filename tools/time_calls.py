#!/usr/bin/env python3
"""time_calls.py [CALLS BATCHES RUNS]: processor time of a record of every kind and of scripts of 1,000 records, optimised.

Without numbers, 1,000 calls to a batch, 101 batches, 3 runs. A Rust program runs each record on the busiest of many valid states that
`reference/` makes in which it comes to what the line says: with the check of the state (`run::run_record`, which reads the record and
calls `call::call`), without it (the reader and `call::step::valid_step`), and in the second program (read, run in memory, log written).
Beside that, two parts of every record that is carried out, on the state that it leaves: the drain, and the search for the next task to
run. Each call gets a fresh copy, whose own time is taken off. Then whole scripts the same ways, all tasks busy. Prints medians over all
batches. Before that, each record must leave the words, areas, log bytes and running task that the second program leaves, with the check
and without, and each script its log."""
import sys

sys.dont_write_bytecode = True
from timing import LENT_STATES, run

CRATE = """// A record of a script with the check of the state and without, and parts of it, for another language to call.
#![tactic(auto)]

ghost use Rattle.model.specs.Sizes.{tasks};
ghost use Rattle.model.specs.Number.{maybe_task, word_number};
ghost use Rattle.model.specs.Valid.{Bitmap};
ghost use Rattle.model.specs.Words.{kernel};
ghost use Rattle.act.specs.Held.{areas};
ghost use Rattle.call.specs.Steps.{Ready};

use call::step::valid_step;
use model::call::{Cursor, Progress, Record};
use model::number::{TaskNumber, task_byte};
use queue::next::next_to_run;
use run::run_record;
use script::reader::{message, read_record};
use state::layout::Words;

// Answers how many bytes of log were written; the place goes on to the next record.
#[unsafe(no_mangle)]
pub extern "C" fn timing_checked(
    state: &mut Words,
    store: &mut [u8],
    outbox: &mut [u8],
    log: &mut [u8],
    script: &[u8],
    at: &mut usize,
) -> usize {
    let ran = run_record(state, store, outbox, log, script, Cursor { at: *at });
    let progress = ran.progress;
    if let Progress::Answered { answer: _, next } = progress {
        *at = next.at;
    }
    ran.written
}

// The task that runs is handed over, and the next one handed back.
#[unsafe(no_mangle)]
pub extern "C" fn timing_unchecked(
    state: &mut Words,
    store: &mut [u8],
    outbox: &mut [u8],
    log: &mut [u8],
    script: &[u8],
    at: &mut usize,
    runs: u32,
    written: &mut usize,
) -> u32
    requires { Ready (areas state.old store.old outbox.old log.old) (maybe_task (word_number runs tasks)) }
{
    let caller = TaskNumber::from_word(runs);
    let place = Cursor { at: *at };
    let Ok(Record { call, next }) = read_record(script, place) else {
        return 0;
    };
    let step = valid_step(
        state,
        store,
        outbox,
        log,
        caller,
        call,
        message(script, place),
    );
    *at = next.at;
    *written = step.written;
    task_byte(step.runs) as u32
}

#[unsafe(no_mangle)]
pub extern "C" fn timing_read(script: &[u8], at: usize) -> usize {
    let Ok(Record { call: _, next }) = read_record(script, Cursor { at: at }) else {
        return 0;
    };
    next.at
}

#[unsafe(no_mangle)]
pub extern "C" fn timing_drain(
    state: &mut Words,
    store: &mut [u8],
    outbox: &mut [u8],
    log: &mut [u8],
) -> usize {
    transfer::drain::drain(state, store, outbox, log, 0)
}

#[unsafe(no_mangle)]
pub extern "C" fn timing_next_to_run(state: &Words) -> u32
    requires { Bitmap (kernel state.now) }
{
    task_byte(next_to_run(state)) as u32
}
"""

PROGRAM = r"""
use reference::kernel::Place;
use reference::number::{BufferNo, MutexNo, PoolNo, TaskNo};
use reference::record::{self, Call};
use reference::{run_script, Answer, Outcome};
use std::collections::BTreeSet;

const CHOSEN: usize = 50;
/// So many waits are several.
const SEVERAL: usize = 3;
const SCRIPTS: usize = 20;
const RECORDS: usize = 1_000;
/// So many of a hundred records are any call, refused or not; no other is refused. Of dormant tasks as many are deleted.
const ANY: usize = 10;
/// What a log area holds before.
const BEFORE: u8 = 0xAA;

type Log = [u8; LOG];

/// A record on a state, here and in the second program, and what it must leave: a state, a log, the task that runs next.
struct Case { lent: Lent, kernel: Kernel, call: Call, record: Vec<u8>, after: Lent, log: Vec<u8>, runs: u32 }

struct Timed { name: &'static str, cases: Vec<Case> }

/// A script as bytes and as calls, and what it must leave.
struct Script { bytes: Vec<u8>, calls: Vec<Call>, log: Vec<u8>, after: Lent }

// A slice is passed as a pointer and a length, the state as a pointer.
extern "C" {
    fn timing_checked(w: *mut u32, s: *mut u8, sl: usize, o: *mut u8, ol: usize, l: *mut u8, ll: usize,
        script: *const u8, length: usize, at: *mut usize) -> usize;
    fn timing_unchecked(w: *mut u32, s: *mut u8, sl: usize, o: *mut u8, ol: usize, l: *mut u8, ll: usize,
        script: *const u8, length: usize, at: *mut usize, runs: u32, written: *mut usize) -> u32;
    fn timing_read(script: *const u8, length: usize, at: usize) -> usize;
    fn timing_drain(w: *mut u32, s: *mut u8, sl: usize, o: *mut u8, ol: usize, l: *mut u8, ll: usize) -> usize;
    fn timing_next_to_run(w: *const u32) -> u32;
}

// The product: the record at a place of a script. Answers how many bytes of log it wrote.

fn checked(x: &mut Lent, log: &mut Log, script: &[u8], at: &mut usize) -> usize {
    let (w, s, o, l) = (x.words.as_mut_ptr(), x.store.as_mut_ptr(), x.outbox.as_mut_ptr(), log.as_mut_ptr());
    unsafe { timing_checked(w, s, STORE, o, OUTBOX, l, LOG, script.as_ptr(), script.len(), at) }
}

fn unchecked(x: &mut Lent, log: &mut Log, script: &[u8], at: &mut usize, runs: &mut u32) -> usize {
    let (w, s, o, l) = (x.words.as_mut_ptr(), x.store.as_mut_ptr(), x.outbox.as_mut_ptr(), log.as_mut_ptr());
    let mut written = 0;
    *runs = unsafe { timing_unchecked(w, s, STORE, o, OUTBOX, l, LOG, script.as_ptr(), script.len(), at, *runs, &mut written) };
    written
}

fn drain(x: &mut Lent, log: &mut Log) -> usize {
    let (w, s, o, l) = (x.words.as_mut_ptr(), x.store.as_mut_ptr(), x.outbox.as_mut_ptr(), log.as_mut_ptr());
    unsafe { timing_drain(w, s, STORE, o, OUTBOX, l, LOG) }
}

fn next_to_run(x: &Lent) -> u32 {
    unsafe { timing_next_to_run(x.words.as_ptr()) }
}

/// The second program's record: read, run, logged.
fn second(kernel: &mut Kernel, out: &mut Outcome, log: &mut Vec<u8>, record: &[u8]) {
    let (call, _) = record::read(record).unwrap();
    kernel.run(&call, out);
    log.clear();
    out.write(log);
}

fn running(kernel: &Kernel) -> u32 {
    kernel.running().map_or(0, |t| u32::from(t.get()))
}

// The records.

impl Case {
    /// The call on a state, if it comes to what is wanted.
    fn of(lent: &Lent, call: Call, wanted: &dyn Fn(&Outcome) -> bool) -> Option<Case> {
        let kernel = lent.kernel()?;
        let (mut after, mut out) = (kernel.clone(), Outcome::default());
        after.run(&call, &mut out);
        let (mut record, mut log) = (Vec::new(), Vec::new());
        call.write(&mut record);
        out.write(&mut log);
        wanted(&out).then(|| Case { lent: *lent, kernel, call, record, after: Lent::of_kernel(&after), log, runs: running(&after) })
    }
}

fn one(call: Call) -> impl Fn(&Lent) -> Vec<Call> {
    move |_| vec![call]
}

fn each(last: usize, call: fn(i32) -> Call) -> impl Fn(&Lent) -> Vec<Call> {
    among(last, |_, _| true, call)
}

fn among(last: usize, wanted: fn(&Lent, u32) -> bool, call: fn(i32) -> Call) -> impl Fn(&Lent) -> Vec<Call> {
    move |x| (1..=last as u32).filter(|&n| wanted(x, n)).map(|n| call(n as i32)).collect()
}

fn rel_mpf(_: &Lent) -> Vec<Call> {
    let blocks = |pool| (1..=BLOCKS as i32).map(move |block| Call::RelMpf { pool, block });
    (1..=POOLS as i32).flat_map(blocks).collect()
}

fn snd_mbf(buffer: i32, timeout: i32) -> Call {
    Call::SndMbf { buffer, msgsz: 8, timeout, bytes: message(8) }
}

fn message(msgsz: i32) -> [u8; MESSAGE] {
    std::array::from_fn(|i| if (i as i32) < msgsz { msgsz as u8 } else { 0 })
}

fn stores(x: &Lent, b: u32) -> bool {
    x.word(at::USED, b) > 0
}

fn locks(x: &Lent, t: u32) -> bool {
    x.word(at::PLACE, t) == LOCKING
}

fn done(out: &Outcome) -> bool {
    matches!(out.answer, Answer::Code(0..) | Answer::Exited)
}

fn alone(out: &Outcome) -> bool {
    done(out) && out.ended.is_empty()
}

fn ends(out: &Outcome) -> bool {
    done(out) && !out.ended.is_empty()
}

fn ends_several(out: &Outcome) -> bool {
    done(out) && out.ended.len() >= SEVERAL
}

fn waits(out: &Outcome) -> bool {
    out.answer == Answer::Waits
}

fn refuses(out: &Outcome) -> bool {
    matches!(out.answer, Answer::Code(..=-1))
}

fn refused(code: i32) -> impl Fn(&Outcome) -> bool {
    move |out| out.answer == Answer::Code(code)
}

/// Busy states, those with the most waiting tasks first.
struct Busy(Vec<Lent>);

impl Busy {
    /// On each state the first of the calls that comes to what is wanted.
    fn of(&self, name: &'static str, calls: &dyn Fn(&Lent) -> Vec<Call>, wanted: &dyn Fn(&Outcome) -> bool) -> Timed {
        let case = |x| calls(x).into_iter().find_map(|call| Case::of(x, call, wanted));
        let cases: Vec<Case> = self.0.iter().filter_map(case).take(CHOSEN).collect();
        assert_eq!(cases.len(), CHOSEN, "{name}: too few states");
        Timed { name, cases }
    }
}

fn of_tasks(busy: &Busy) -> Vec<Timed> {
    let create = one(Call::CreTsk { priority: 8 });
    let delete = each(TASKS, |task| Call::DelTsk { task });
    let start = each(TASKS, |task| Call::StaTsk { task });
    let exit = one(Call::ExtTsk);
    let terminate = each(TASKS, |task| Call::TerTsk { task });
    let terminate_waiting = among(TASKS, Lent::waits, |task| Call::TerTsk { task });
    let change = each(TASKS, |task| Call::ChgPri { task, priority: 1 });
    let change_locking = among(TASKS, locks, |task| Call::ChgPri { task, priority: 1 });
    let change_caller = one(Call::ChgPri { task: 0, priority: 1 });
    vec![
        busy.of("cre_tsk", &create, &done),
        busy.of("cre_tsk, refused, no number unused", &create, &refused(E_LIMIT)),
        busy.of("del_tsk", &delete, &done),
        busy.of("del_tsk, refused, not dormant", &delete, &refused(E_OBJ)),
        busy.of("sta_tsk", &start, &done),
        busy.of("sta_tsk, refused, not dormant", &start, &refused(E_OBJ)),
        busy.of("ext_tsk, no wait ends", &exit, &alone),
        busy.of("ext_tsk, a wait or more ends", &exit, &ends),
        busy.of("ext_tsk, refused, no task runs", &exit, &refused(E_CTX)),
        busy.of("ter_tsk, a waiting task, no other wait ends", &terminate_waiting, &alone),
        busy.of("ter_tsk, a wait or more ends", &terminate, &ends),
        busy.of("ter_tsk, refused, dormant", &terminate, &refused(E_OBJ)),
        busy.of("chg_pri, a task that waits for a mutex", &change_locking, &alone),
        busy.of("chg_pri, the caller", &change_caller, &alone),
        busy.of("chg_pri, refused, above a ceiling", &change, &refused(E_ILUSE)),
    ]
}

fn of_mutexes(busy: &Busy) -> Vec<Timed> {
    let create = one(Call::CreMtx { attribute: i32::from(MUTEX_INHERIT), ceiling: 0 });
    let delete = each(MUTEXES, |mutex| Call::DelMtx { mutex });
    let lock = each(MUTEXES, |mutex| Call::LocMtx { mutex, timeout: -1 });
    let try_lock = each(MUTEXES, |mutex| Call::LocMtx { mutex, timeout: 0 });
    let unlock = each(MUTEXES, |mutex| Call::UnlMtx { mutex });
    vec![
        busy.of("cre_mtx", &create, &done),
        busy.of("cre_mtx, refused, no number unused", &create, &refused(E_LIMIT)),
        busy.of("del_mtx, nobody waits", &delete, &alone),
        busy.of("del_mtx, three or more wait", &delete, &ends_several),
        busy.of("del_mtx, refused, does not exist", &delete, &refused(E_NOEXS)),
        busy.of("loc_mtx, free", &lock, &done),
        busy.of("loc_mtx, waits", &lock, &waits),
        busy.of("loc_mtx, refused, would wait", &try_lock, &refused(E_TMOUT)),
        busy.of("unl_mtx, nobody waits", &unlock, &alone),
        busy.of("unl_mtx, somebody waits", &unlock, &ends),
        busy.of("unl_mtx, refused, not the holder", &unlock, &refused(E_ILUSE)),
    ]
}

fn of_buffers(busy: &Busy) -> Vec<Timed> {
    let create = one(Call::CreMbf { attribute: 1, bufsz: STRETCH as i32, maxmsz: MESSAGE as i32 });
    let delete = each(BUFFERS, |buffer| Call::DelMbf { buffer });
    let send = each(BUFFERS, |buffer| snd_mbf(buffer, -1));
    let try_send = each(BUFFERS, |buffer| snd_mbf(buffer, 0));
    let receive = each(BUFFERS, |buffer| Call::RcvMbf { buffer, timeout: -1 });
    let receive_stored = among(BUFFERS, stores, |buffer| Call::RcvMbf { buffer, timeout: -1 });
    let receive_sent = among(BUFFERS, |x, b| !stores(x, b), |buffer| Call::RcvMbf { buffer, timeout: -1 });
    let try_receive = each(BUFFERS, |buffer| Call::RcvMbf { buffer, timeout: 0 });
    vec![
        busy.of("cre_mbf", &create, &done),
        busy.of("cre_mbf, refused, no number unused", &create, &refused(E_LIMIT)),
        busy.of("del_mbf, nobody waits", &delete, &alone),
        busy.of("del_mbf, three or more wait", &delete, &ends_several),
        busy.of("del_mbf, refused, does not exist", &delete, &refused(E_NOEXS)),
        busy.of("snd_mbf, handed over", &send, &ends),
        busy.of("snd_mbf, stored", &send, &alone),
        busy.of("snd_mbf, waits", &send, &waits),
        busy.of("snd_mbf, refused, would wait", &try_send, &refused(E_TMOUT)),
        busy.of("rcv_mbf, stored", &receive_stored, &alone),
        busy.of("rcv_mbf, stored, a sender's message fits then", &receive_stored, &ends),
        busy.of("rcv_mbf, from a sender", &receive_sent, &ends),
        busy.of("rcv_mbf, waits", &receive, &waits),
        busy.of("rcv_mbf, refused, would wait", &try_receive, &refused(E_TMOUT)),
    ]
}

fn of_pools_and_time(busy: &Busy) -> Vec<Timed> {
    let create = one(Call::CreMpf { attribute: 1, count: 1, size: 1 });
    let delete = each(POOLS, |pool| Call::DelMpf { pool });
    let get = each(POOLS, |pool| Call::GetMpf { pool, timeout: -1 });
    let try_get = each(POOLS, |pool| Call::GetMpf { pool, timeout: 0 });
    let tick = one(Call::Tick);
    vec![
        busy.of("cre_mpf", &create, &done),
        busy.of("cre_mpf, refused, no number unused", &create, &refused(E_LIMIT)),
        busy.of("del_mpf, nobody waits", &delete, &alone),
        busy.of("del_mpf, three or more wait", &delete, &ends_several),
        busy.of("del_mpf, refused, does not exist", &delete, &refused(E_NOEXS)),
        busy.of("get_mpf, a block is free", &get, &done),
        busy.of("get_mpf, waits", &get, &waits),
        busy.of("get_mpf, refused, would wait", &try_get, &refused(E_TMOUT)),
        busy.of("rel_mpf, nobody waits", &rel_mpf, &alone),
        busy.of("rel_mpf, somebody waits", &rel_mpf, &ends),
        busy.of("rel_mpf, refused, not handed out", &rel_mpf, &refused(E_PAR)),
        busy.of("tick, no wait ends", &tick, &alone),
        busy.of("tick, a wait or more ends", &tick, &ends),
    ]
}

// The scripts.

/// The call that makes what is not there, or starts or deletes a dormant task.
fn missing(kernel: &Kernel, random: &mut Random) -> Option<Call> {
    if TaskNo::all().any(|t| kernel.task(t).place == Place::Absent) {
        return Some(Call::CreTsk { priority: random.between(1, i32::from(PRIORITIES)) });
    }
    if let Some(t) = TaskNo::all().find(|&t| kernel.task(t).place == Place::Dormant) {
        let task = i32::from(t.get());
        return Some(if random.percent(ANY) { Call::DelTsk { task } } else { Call::StaTsk { task } });
    }
    if MutexNo::all().any(|m| kernel.mutex(m).is_none()) {
        let inherits = i32::from(MUTEX_INHERIT);
        return Some(Call::CreMtx { attribute: random.pick(&[0, 1, inherits, inherits, inherits, i32::from(MUTEX_CEILING)]), ceiling: 1 });
    }
    if BufferNo::all().any(|b| kernel.buffer(b).is_none()) {
        return Some(Call::CreMbf { attribute: random.between(0, 1), bufsz: random.pick(&[0, 64, 128, 256]), maxmsz: MESSAGE as i32 });
    }
    let pool = Call::CreMpf { attribute: random.between(0, 1), count: random.between(1, 4), size: 8 };
    PoolNo::all().any(|p| kernel.pool(p).is_none()).then_some(pool)
}

fn any_call(random: &mut Random) -> Call {
    let mut number = |last: usize| random.between(1, last as i32);
    let (task, mutex, buffer, pool, block) = (number(TASKS), number(MUTEXES), number(BUFFERS), number(POOLS), number(4));
    let (timeout, msgsz, priority) = (number(40), number(MESSAGE), number(usize::from(PRIORITIES)));
    match number(100) {
        1..=22 => Call::LocMtx { mutex, timeout },
        23..=38 => Call::UnlMtx { mutex },
        39..=52 => Call::SndMbf { buffer, msgsz, timeout, bytes: message(msgsz) },
        53..=66 => Call::RcvMbf { buffer, timeout },
        67..=75 => Call::GetMpf { pool, timeout },
        76..=83 => Call::RelMpf { pool, block },
        84..=89 => Call::ChgPri { task, priority },
        90 => Call::TerTsk { task },
        91 => Call::ExtTsk,
        92 => Call::DelMtx { mutex },
        93 => Call::DelMbf { buffer },
        94 => Call::DelMpf { pool },
        _ => Call::Tick,
    }
}

fn is_refused(kernel: &Kernel, call: &Call) -> bool {
    let mut out = Outcome::default();
    kernel.clone().run(call, &mut out);
    refuses(&out)
}

/// A tick is never refused, so a call is found.
fn next_call(kernel: &Kernel, random: &mut Random) -> Call {
    let allowed = |call: &Call| !is_refused(kernel, call);
    if random.percent(ANY) {
        return any_call(random);
    }
    missing(kernel, random).filter(allowed).or_else(|| std::iter::repeat_with(|| any_call(random)).find(allowed)).unwrap()
}

/// What happens in scripts, for the reader of the figures.
#[derive(Default)]
struct Counts { refused: usize, begun: usize, ended: usize, waiting: usize, started: usize, bytes: usize }

impl Script {
    fn new(random: &mut Random, counts: &mut Counts) -> Script {
        let (mut kernel, mut out) = (Kernel::fresh(), Outcome::default());
        let (mut bytes, mut calls) = (Vec::new(), Vec::new());
        for _ in 0..RECORDS {
            let call = next_call(&kernel, random);
            kernel.run(&call, &mut out);
            call.write(&mut bytes);
            calls.push(call);
            let lent = Lent::of_kernel(&kernel);
            counts.refused += usize::from(refuses(&out));
            counts.begun += usize::from(waits(&out));
            counts.ended += out.ended.len();
            counts.waiting += lent.waiting();
            counts.started += tasks().filter(|&t| lent.word(at::PLACE, t) >= READY).count();
        }
        counts.bytes += bytes.len();
        assert!(bytes.len() <= SCRIPT, "a script is too long");
        Script { log: run_script(&bytes), bytes, calls, after: Lent::of_kernel(&kernel) }
    }

    /// Runs the script with a way to run a record, which answers how many bytes of log it wrote.
    fn run(&self, mut record: impl FnMut(&mut Lent, &mut Log, &mut usize) -> usize, mut logged: impl FnMut(&[u8])) -> Lent {
        let (mut x, mut log, mut at) = (Lent::of_kernel(&Kernel::fresh()), [BEFORE; LOG], 0);
        while at < self.bytes.len() {
            let written = record(&mut x, &mut log, &mut at);
            logged(&log[..written]);
        }
        x
    }

    fn run_checked(&self, logged: impl FnMut(&[u8])) -> Lent {
        self.run(|x, log, at| checked(x, log, &self.bytes, at), logged)
    }

    fn run_unchecked(&self, logged: impl FnMut(&[u8])) -> Lent {
        let mut runs = running(&Kernel::fresh());
        self.run(|x, log, at| unchecked(x, log, &self.bytes, at, &mut runs), logged)
    }

    fn read(&self) {
        let mut at = 0;
        while at < self.bytes.len() {
            at = unsafe { timing_read(self.bytes.as_ptr(), self.bytes.len(), at) };
        }
    }

    /// The second program on calls that were read before; it writes no log.
    fn run_decoded(&self) -> Kernel {
        let (mut kernel, mut out) = (Kernel::fresh(), Outcome::default());
        for call in &self.calls {
            kernel.run(call, &mut out);
        }
        kernel
    }
}

// The checks.

/// What a record left is what the second program leaves.
fn same(name: &str, case: &Case, x: &Lent, log: &Log, written: usize, at: usize) {
    assert!(*x == case.after, "{name}: {:?} on {:?} leaves {x:?}, not {:?}", case.call, case.lent, case.after);
    assert_eq!(log[..written], case.log, "{name}: {:?} on {:?}: the log", case.call, case.lent);
    assert!(log[written..].iter().all(|&byte| byte == BEFORE), "{name}: {:?} on {:?}: the rest of the log", case.call, case.lent);
    assert_eq!(at, case.record.len(), "{name}: where the next record stands");
}

fn check(timed: &Timed) {
    for case in &timed.cases {
        let (mut x, mut log, mut at) = (case.lent, [BEFORE; LOG], 0);
        let written = checked(&mut x, &mut log, &case.record, &mut at);
        same(timed.name, case, &x, &log, written, at);
        let (mut x, mut log, mut at, mut runs) = (case.lent, [BEFORE; LOG], 0, running(&case.kernel));
        let written = unchecked(&mut x, &mut log, &case.record, &mut at, &mut runs);
        same(timed.name, case, &x, &log, written, at);
        assert_eq!(runs, case.runs, "{}: {:?} on {:?}: the task that runs next", timed.name, case.call, case.lent);
        assert_eq!(next_to_run(&x), case.runs, "next_to_run");
        assert!(drain(&mut x, &mut log) == 0 && x == case.after, "the drain of a state that is drained");
    }
}

fn check_script(script: &Script) {
    let (mut with, mut without) = (Vec::new(), Vec::new());
    assert!(script.run_checked(|log| with.extend_from_slice(log)) == script.after, "the state after a script, with the check");
    assert!(script.run_unchecked(|log| without.extend_from_slice(log)) == script.after, "the state after a script, without the check");
    assert!(with == script.log && without == script.log, "the log of a script");
}

// The times.

/// A batch after a round over all cases that does not count: it fetches what the batch needs.
fn warm(calls: usize, mut call: impl FnMut(usize)) -> f64 {
    (0..CHOSEN).for_each(&mut call);
    batch(calls, call)
}

/// What a way to use a copy takes beyond the copy.
fn beyond_copy<T: Clone, R>(timed: &Timed, calls: usize, of: impl Fn(&Case) -> &T, mut way: impl FnMut(&mut T, &Case) -> R) -> f64 {
    let case = |i: usize| black_box(&timed.cases[i % CHOSEN]);
    let mut x = of(case(0)).clone();
    let copy = warm(calls, |i| {
        x = of(case(i)).clone();
        black_box(&mut x);
    });
    let both = warm(calls, |i| {
        x = of(case(i)).clone();
        black_box(way(black_box(&mut x), case(i)));
    });
    both - copy
}

/// A record with the check and without it, the drain and the next task on what it leaves, and the second program's record.
fn time(timed: &Timed, calls: usize) -> [f64; 5] {
    let (mut log, mut out, mut bytes) = ([BEFORE; LOG], Outcome::default(), Vec::new());
    [
        beyond_copy(timed, calls, |c| &c.lent, |x, c| checked(x, &mut log, &c.record, &mut 0)),
        beyond_copy(timed, calls, |c| &c.lent, |x, c| unchecked(x, &mut log, &c.record, &mut 0, &mut running(&c.kernel))),
        beyond_copy(timed, calls, |c| &c.after, |x, _| drain(x, &mut log)),
        beyond_copy(timed, calls, |c| &c.after, |x, _| next_to_run(x)),
        beyond_copy(timed, calls, |c| &c.kernel, |kernel, c| second(kernel, &mut out, &mut bytes, &c.record)),
    ]
}

/// A record of all scripts: with the check, without it, the second program on the same bytes and on calls, the reader alone.
fn time_scripts(scripts: &[Script]) -> [f64; 5] {
    fn record<T>(scripts: &[Script], way: impl Fn(&Script) -> T) -> f64 {
        batch(scripts.len(), |i| {
            black_box(way(black_box(&scripts[i])));
        }) / RECORDS as f64
    }
    [
        record(scripts, |script| script.run_checked(|_| {})),
        record(scripts, |script| script.run_unchecked(|_| {})),
        record(scripts, |script| run_script(&script.bytes)),
        record(scripts, Script::run_decoded),
        record(scripts, Script::read),
    ]
}

fn medians<const N: usize>(times: &[[f64; N]]) -> [f64; N] {
    std::array::from_fn(|i| median(times.iter().map(|row| row[i]).collect()))
}

fn print(timed: &Timed, times: &[[f64; 5]]) {
    let [with, without, drained, next, second] = medians(times);
    let share = 100.0 * (with - without) / with;
    let parts = if is_refused(&timed.cases[0].kernel, &timed.cases[0].call) { String::new() } else { format!("{drained:.0} + {next:.0}") };
    let waiting = || timed.cases.iter().map(|case| case.lent.waiting());
    let (least, most) = (waiting().min().unwrap(), waiting().max().unwrap());
    println!("{:46}{with:7.0}{without:7.0}{share:6.0} %{parts:>10}{second:8.0}{:7.1}   {least} to {most}", timed.name, without / second);
}

fn print_scripts(counts: &Counts, times: &[[f64; 5]]) {
    let [with, without, bytes, calls, read] = medians(times);
    let records = SCRIPTS * RECORDS;
    let [begun, ended, waiting, started, length] =
        [counts.begun, counts.ended, counts.waiting, counts.started, counts.bytes].map(|count| count as f64 / records as f64);
    println!("{SCRIPTS} scripts of {RECORDS} records, a record takes {length:.1} bytes: {:.1} % are refused", 100.0 * counts.refused as f64 / records as f64);
    println!("a record begins {begun:.2} waits and ends {ended:.2}; after it {started:.1} of {TASKS} tasks are started, {waiting:.1} of them wait");
    println!("{:46}{with:7.0} ns a record, {:.0} % of it the check", "run_record", 100.0 * (with - without) / with);
    println!("{:46}{without:7.0} ns", "the reader and valid_step");
    println!("{:46}{bytes:7.0} ns", "the second program on the same bytes");
    println!("{:46}{calls:7.0} ns", "the second program on calls, no log");
    println!("{:46}{read:7.0} ns", "the reader alone");
    println!("against the second program on the same bytes: {:.1} times with the check, {:.1} without", with / bytes, without / bytes);
}

fn main() {
    let numbers: Vec<usize> = std::env::args().skip(1).map(|word| word.parse().unwrap()).collect();
    let [calls, batches, runs] = numbers[..] else { panic!("CALLS BATCHES RUNS") };
    let busy = Busy(busiest());
    let timed = [of_tasks(&busy), of_mutexes(&busy), of_buffers(&busy), of_pools_and_time(&busy)].into_iter().flatten().collect::<Vec<_>>();
    timed.iter().for_each(check);
    let (mut random, mut counts) = (Random::new(2026), Counts::default());
    let scripts: Vec<Script> = (0..SCRIPTS).map(|_| Script::new(&mut random, &mut counts)).collect();
    scripts.iter().for_each(check_script);
    let kinds: BTreeSet<u8> = scripts.iter().flat_map(|script| &script.calls).map(Call::kind).collect();
    assert_eq!(kinds.len(), record::KINDS.len(), "a kind of record is in no script");
    println!("every record leaves the words, areas, log bytes and running task that the second program leaves, every script its log");
    let (mut times, mut script_times) = (vec![Vec::new(); timed.len()], Vec::new());
    for _ in 0..runs * batches {
        timed.iter().zip(&mut times).for_each(|(timed, times)| times.push(time(timed, calls)));
        script_times.push(time_scripts(&scripts));
    }
    println!("{calls} calls to a batch, {batches} batches, {runs} runs; nanoseconds");
    println!("check: with the check; none: without it; share: the check's; parts of none: the drain + next_to_run; ratio: none to second");
    println!("{:46}{:>7}{:>7}{:>8}{:>10}{:>8}{:>7}   tasks that wait", "a record", "check", "none", "share", "parts", "second", "ratio");
    timed.iter().zip(&times).for_each(|(timed, times)| print(timed, times));
    print_scripts(&counts, &script_times);
}
"""

if __name__ == "__main__":
    on = "model state script queue act transfer call run"
    run(CRATE, on, LENT_STATES + PROGRAM, lambda folder: sys.argv[1:] or ["1000", "101", "3"])
