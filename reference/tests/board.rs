//! The status board: what each row shows, which rows are written, and what is refused.

mod common;

use common::*;
use reference::board::*;
use reference::lent_state::State;
use reference::limits::*;
use reference::random::Random;
use reference::states::state;
use reference::words::*;
use reference::{Answer, Call};

/// The four tables, with as many rows as are wanted.
#[derive(Clone, PartialEq, Debug)]
struct Tables {
    tasks: Vec<TaskRow>,
    mutexes: Vec<MutexRow>,
    buffers: Vec<BufferRow>,
    pools: Vec<PoolRow>,
}

/// As many rows as there are numbers.
const ENOUGH: [usize; 4] = [TASKS, MUTEXES, BUFFERS, POOLS];

/// What a row holds before: no field of it is ever shown.
const OLD: u32 = 0xA5A5_A5A5;
const OLD_TASK: TaskRow =
    TaskRow { state: OLD, base: OLD, current: OLD, kind: OLD, object: OLD, left: OLD as i32 };
const OLD_MUTEX: MutexRow = MutexRow { holder: OLD, waiter: OLD };
const OLD_BUFFER: BufferRow =
    BufferRow { free: OLD, room: OLD as i32, next: OLD, receiver: OLD, sender: OLD };
const OLD_POOL: PoolRow = PoolRow { free: OLD, waiter: OLD };

impl Tables {
    fn old([tasks, mutexes, buffers, pools]: [usize; 4]) -> Tables {
        Tables {
            tasks: vec![OLD_TASK; tasks],
            mutexes: vec![OLD_MUTEX; mutexes],
            buffers: vec![OLD_BUFFER; buffers],
            pools: vec![OLD_POOL; pools],
        }
    }

    /// The four calls on a lent state, with their codes.
    fn show(&mut self, lent: &State) -> [i32; 4] {
        let State { words, store, outbox } = lent;
        [
            ref_tsk(words, store, outbox, &mut self.tasks),
            ref_mtx(words, store, outbox, &mut self.mutexes),
            ref_mbf(words, store, outbox, &mut self.buffers),
            ref_mpf(words, store, outbox, &mut self.pools),
        ]
    }

    /// The board of a kernel, with just enough rows.
    #[track_caller]
    fn of(test: &TestKernel) -> Tables {
        let mut tables = Tables::old(ENOUGH);
        assert_eq!(tables.show(&State::of(&test.kernel)), [E_OK; 4]);
        tables
    }
}

// The row of an object that exists or does not, by its number.

fn task(test: &TestKernel, number: i32) -> TaskRow {
    Tables::of(test).tasks[number as usize - 1]
}

fn mutex(test: &TestKernel, number: i32) -> MutexRow {
    Tables::of(test).mutexes[number as usize - 1]
}

fn buffer(test: &TestKernel, number: i32) -> BufferRow {
    Tables::of(test).buffers[number as usize - 1]
}

fn pool(test: &TestKernel, number: i32) -> PoolRow {
    Tables::of(test).pools[number as usize - 1]
}

/// A task that does not wait and is not raised.
fn idle(state: u32, priority: u32) -> TaskRow {
    TaskRow { state, base: priority, current: priority, ..TaskRow::default() }
}

/// A waiting task that is not raised.
fn waiting(priority: u32, kind: u32, object: u32, left: i32) -> TaskRow {
    TaskRow { state: 4, base: priority, current: priority, kind, object, left }
}

#[test]
fn the_fresh_kernel() {
    let mut expected = Tables::old(ENOUGH);
    expected.tasks[0] = TaskRow { state: 1, base: 8, current: 8, kind: 0, object: 0, left: 0 };
    assert_eq!(Tables::of(&TestKernel::new()), expected);
}

#[test]
fn states_of_tasks() {
    assert_eq!([TTS_RUN, TTS_RDY, TTS_WAI, TTS_DMT], [1, 2, 4, 16]);
    let mut test = TestKernel::new();
    test.code(cre_mbf(0, 0, 1));
    let ready = test.start(9);
    let dormant = test.code(cre_tsk(3));
    let waits = test.start(5);
    assert_eq!(task(&test, waits), idle(1, 5));
    assert_eq!(task(&test, 1), idle(2, 8));
    test.waits(rcv_mbf(1, -1));
    let rows = [1, ready, dormant, waits, waits + 1].map(|t| task(&test, t));
    assert_eq!(rows, [idle(1, 8), idle(2, 9), idle(16, 3), waiting(5, 0x20, 1, -1), OLD_TASK]);
    // Of equals one runs.
    test.ok(chg_pri(ready, 8));
    assert_eq!([1, ready].map(|t| task(&test, t).state), [1, 2]);
    test.ok(chg_pri(1, 8));
    assert_eq!([1, ready].map(|t| task(&test, t).state), [2, 1]);
}

#[test]
fn where_no_task_runs() {
    let mut test = TestKernel::new();
    test.code(cre_mbf(0, 0, 1));
    let receiver = test.start(3);
    test.waits(rcv_mbf(1, 2));
    assert_eq!(test.run(Call::ExtTsk), Answer::Exited);
    assert_eq!(test.running(), 0);
    assert_eq!(task(&test, 1), idle(16, 8));
    assert_eq!(task(&test, receiver), waiting(3, 0x20, 1, 2));
}

#[test]
fn base_of_a_dormant_task() {
    let mut test = TestKernel::new();
    let dormant = test.code(cre_tsk(3));
    test.ok(chg_pri(dormant, LEAST_URGENT));
    assert_eq!(task(&test, dormant), idle(16, LEAST_URGENT as u32));
    // It starts with that base, and ends with the initial one.
    test.ok(sta_tsk(dormant));
    assert_eq!(task(&test, dormant), idle(2, LEAST_URGENT as u32));
    test.ok(ter_tsk(dormant));
    assert_eq!(task(&test, dormant), idle(16, 3));
}

#[test]
fn a_raised_task_has_two_priorities() {
    // By the tasks that wait for its mutex, in a chain.
    let mut test = TestKernel::new();
    test.code(cre_mtx(2, 0));
    test.code(cre_mtx(2, 0));
    test.ok(loc_mtx(1, 0));
    let second = test.start(6);
    test.ok(loc_mtx(2, 0));
    test.waits(loc_mtx(1, -1));
    let third = test.start(3);
    test.waits(loc_mtx(2, 7));
    let raised = |state, base| TaskRow { state, base, current: 3, ..TaskRow::default() };
    assert_eq!(task(&test, 1), raised(1, 8));
    let linked = TaskRow { kind: 0x10, object: 1, left: -1, ..raised(4, 6) };
    assert_eq!(task(&test, second), linked);
    assert_eq!(task(&test, third), waiting(3, 0x10, 2, 7));
    // By the ceiling of a mutex that it holds.
    let mut test = TestKernel::new();
    test.code(cre_mtx(3, 5));
    test.ok(loc_mtx(1, 0));
    let row = TaskRow { state: 1, base: 8, current: 5, ..TaskRow::default() };
    assert_eq!(task(&test, 1), row);
    test.ok(unl_mtx(1));
    assert_eq!(task(&test, 1), idle(1, 8));
}

#[test]
fn each_kind_of_object_that_is_awaited() {
    let mut test = TestKernel::new();
    for _ in 0..3 {
        test.code(cre_mtx(0, 0));
    }
    for _ in 0..2 {
        test.code(cre_mbf(0, 0, 4));
    }
    for _ in 0..4 {
        test.code(cre_mpf(0, 1, 1));
    }
    test.ok(loc_mtx(3, 0));
    test.ok(get_mpf(4, 0));
    for (call, creation, object) in [
        (loc_mtx(3, -1), cre_mtx(0, 0), 3),
        (snd_mbf(1, 4, -1), cre_mbf(0, 0, 4), 1),
        (rcv_mbf(2, -1), cre_mbf(0, 0, 4), 2),
        (get_mpf(4, -1), cre_mpf(0, 1, 1), 4),
    ] {
        let waits = test.start(5);
        test.waits(call);
        let kind = u32::from(creation.kind());
        assert_eq!(task(&test, waits), waiting(5, kind, object, -1), "{call:?}");
    }
    assert_eq!([2, 3, 4, 5].map(|t| task(&test, t).kind), [0x10, 0x20, 0x20, 0x30]);
    // A wait that is over shows nothing of what was awaited.
    test.ok(del_mtx(3));
    assert_eq!(task(&test, 2), idle(1, 5));
}

#[test]
fn milliseconds_left() {
    let mut test = TestKernel::new();
    test.code(cre_mbf(0, 0, 1));
    let [short, long, endless] = [3, i32::MAX, -1].map(|timeout| {
        let waits = test.start(5);
        test.waits(rcv_mbf(1, timeout));
        waits
    });
    for passed in 0..3 {
        let left = [short, long, endless].map(|t| task(&test, t).left);
        assert_eq!(left, [3 - passed, i32::MAX - passed, -1]);
        test.ok(Call::Tick);
    }
    assert_eq!(task(&test, short), idle(1, 5));
    assert_eq!([long, endless].map(|t| task(&test, t).left), [i32::MAX - 3, -1]);
    // Another base leaves the time as it is.
    test.ok(chg_pri(long, 9));
    assert_eq!(task(&test, long), waiting(9, 0x20, 1, i32::MAX - 3));
}

/// Who the first of a queue is, by the board.
type First = fn(&TestKernel) -> u32;

/// An object of the attribute, with number 1, at which everyone who makes the call has to wait.
fn prepare(call: Call, attribute: i32) -> (TestKernel, First) {
    let mut test = TestKernel::new();
    let first: First = match call {
        Call::LocMtx { .. } => {
            // The holder waits elsewhere, so that its priority is in nobody's way.
            test.code(cre_mtx(attribute, 1));
            test.code(cre_mbf(0, 0, 1));
            test.start(2);
            test.ok(loc_mtx(1, -1));
            test.waits(rcv_mbf(1, -1));
            |test| mutex(test, 1).waiter
        }
        Call::SndMbf { .. } => {
            test.code(cre_mbf(attribute, 0, 1));
            |test| buffer(test, 1).sender
        }
        Call::RcvMbf { .. } => {
            test.code(cre_mbf(attribute, 0, 1));
            |test| buffer(test, 1).receiver
        }
        _ => {
            test.code(cre_mpf(attribute, 1, 1));
            test.ok(get_mpf(1, 0));
            |test| pool(test, 1).waiter
        }
    };
    (test, first)
}

#[test]
fn the_first_waiter_by_arrival_and_by_priority() {
    let [lock, send, receive, get] =
        [loc_mtx(1, -1), snd_mbf(1, 1, -1), rcv_mbf(1, -1), get_mpf(1, -1)];
    let by_arrival = [
        (lock, 0),
        (send, 0),
        (receive, 0),
        (receive, 1),
        (get, 0),
        (get, 256),
        (get, 512),
        (get, 768),
    ];
    let by_priority =
        [(lock, 1), (lock, 2), (lock, 3), (send, 1), (get, 1), (get, 257), (get, 513), (get, 769)];
    for (call, attribute) in by_arrival {
        let (mut test, first) = prepare(call, attribute);
        let what = format!("{call:?} {attribute}");
        assert_eq!(first(&test), 0, "{what}");
        let mut waits = [0; 3];
        for (i, priority) in [6, 4, 5].into_iter().enumerate() {
            waits[i] = test.start(priority);
            test.waits(call);
            assert_eq!(first(&test), waits[0] as u32, "{what}");
        }
        // Nothing but the end of its wait makes another one first.
        test.ok(chg_pri(waits[2], 1));
        assert_eq!(first(&test), waits[0] as u32, "{what}");
        test.ok(ter_tsk(waits[0]));
        assert_eq!(first(&test), waits[1] as u32, "{what}");
    }
    for (call, attribute) in by_priority {
        let (mut test, first) = prepare(call, attribute);
        let what = format!("{call:?} {attribute}");
        assert_eq!(first(&test), 0, "{what}");
        let mut waits = [0; 3];
        // The most urgent so far; of equals the earlier one.
        for (i, (priority, expected)) in [(6, 0), (4, 1), (4, 1)].into_iter().enumerate() {
            waits[i] = test.start(priority);
            test.waits(call);
            assert_eq!(first(&test), waits[expected] as u32, "{what}");
        }
        // The same base again is a new arrival.
        test.ok(chg_pri(waits[1], 4));
        assert_eq!(first(&test), waits[2] as u32, "{what}");
        test.ok(chg_pri(waits[0], 3));
        assert_eq!(first(&test), waits[0] as u32, "{what}");
        test.ok(ter_tsk(waits[0]));
        assert_eq!(first(&test), waits[2] as u32, "{what}");
    }
}

/// A queue by priority goes by current priorities: a less urgent sender is raised past another.
#[test]
fn the_first_waiter_goes_by_current_priority() {
    let mut test = TestKernel::new();
    test.code(cre_mtx(2, 0));
    test.code(cre_mbf(1, 0, 8));
    let low = test.start(7);
    test.ok(loc_mtx(1, 0));
    test.waits(snd_mbf(1, 3, -1));
    let high = test.start(6);
    test.waits(snd_mbf(1, 5, -1));
    // 8 bytes cost 12, which bufsz 0 lacks.
    let row = |next, sender: i32| BufferRow {
        room: -12,
        next,
        sender: sender as u32,
        ..BufferRow::default()
    };
    assert_eq!(buffer(&test, 1), row(5, high));
    let urgent = test.start(2);
    test.waits(loc_mtx(1, 1));
    assert_eq!(buffer(&test, 1), row(3, low));
    assert_eq!(mutex(&test, 1), MutexRow { holder: low as u32, waiter: urgent as u32 });
    test.ok(Call::Tick);
    assert_eq!(buffer(&test, 1), row(5, high));
    assert_eq!(mutex(&test, 1), MutexRow { holder: low as u32, waiter: 0 });
}

#[test]
fn holders_of_mutexes() {
    let mut test = TestKernel::new();
    for attribute in 0..4 {
        test.code(cre_mtx(attribute, 1));
    }
    assert_eq!(mutex(&test, 1), MutexRow { holder: 0, waiter: 0 });
    test.ok(loc_mtx(2, 0));
    let other = test.start(5);
    test.ok(loc_mtx(4, 0));
    test.waits(loc_mtx(2, -1));
    let holders = [1, 2, 3, 4].map(|m| mutex(&test, m));
    let row = |holder: i32, waiter: i32| MutexRow { holder: holder as u32, waiter: waiter as u32 };
    assert_eq!(holders, [row(0, 0), row(1, other), row(0, 0), row(other, 0)]);
    // The first waiter gets it.
    test.ok(unl_mtx(2));
    assert_eq!(mutex(&test, 2), row(other, 0));
    assert_eq!(mutex(&test, 5), OLD_MUTEX);
}

#[test]
fn free_bytes_and_the_next_message() {
    let mut test = TestKernel::new();
    test.code(cre_mbf(0, STRETCH as i32, MESSAGE as i32));
    test.code(cre_mbf(0, 35, MESSAGE as i32));
    test.code(cre_mbf(0, 0, MESSAGE as i32));
    let row = |free, room, next, sender: i32| BufferRow {
        free,
        room,
        next,
        receiver: 0,
        sender: sender as u32,
    };
    let rows = |test: &TestKernel| [1, 2, 3].map(|b| buffer(test, b));
    assert_eq!(rows(&test), [row(256, 220, 0, 0), row(35, -1, 0, 0), row(0, -36, 0, 0)]);
    // A message costs 4 and its length, rounded up to a multiple of 4; the oldest is next.
    for (msgsz, free, room) in [(5, 244, 208), (1, 236, 200), (4, 228, 192), (32, 192, 156)] {
        test.ok(snd_mbf(1, msgsz, 0));
        assert_eq!(buffer(&test, 1), row(free, room, 5, 0));
    }
    // Whose message does not fit waits; before it what is stored is taken.
    test.ok(snd_mbf(2, 9, 0));
    let second = test.start(7);
    test.waits(snd_mbf(2, 32, -1));
    let third = test.start(7);
    test.waits(snd_mbf(3, 31, -1));
    let expected = [row(192, 156, 5, 0), row(19, -17, 9, second), row(0, -36, 31, third)];
    assert_eq!(rows(&test), expected);
    for (left, free, room, next) in
        [(3, 204, 168, 1), (2, 212, 176, 4), (1, 220, 184, 32), (0, 256, 220, 0)]
    {
        assert!(test.code(rcv_mbf(1, 0)) > 0);
        assert_eq!(buffer(&test, 1), row(free, room, next, 0), "{left} are stored");
    }
    // In the buffer of 35 a message of 32 bytes is never stored.
    assert_eq!(test.code(rcv_mbf(2, 0)), 9);
    assert_eq!(buffer(&test, 2), row(35, -1, 32, second));
    assert_eq!(test.code(rcv_mbf(2, 0)), 32);
    assert_eq!(test.code(rcv_mbf(3, 0)), 31);
    assert_eq!(rows(&test), [row(256, 220, 0, 0), row(35, -1, 0, 0), row(0, -36, 0, 0)]);
}

#[test]
fn a_buffer_that_is_full_and_one_with_receivers() {
    let mut test = TestKernel::new();
    test.code(cre_mbf(1, 36, MESSAGE as i32));
    test.ok(snd_mbf(1, 32, 0));
    let row = BufferRow { free: 0, room: -36, next: 32, receiver: 0, sender: 0 };
    assert_eq!(buffer(&test, 1), row);
    test.code(cre_mbf(1, 36, MESSAGE as i32));
    let [early, _] = [6, 2].map(|priority| {
        let waits = test.start(priority);
        test.waits(rcv_mbf(2, -1));
        waits
    });
    let row = BufferRow { free: 36, room: 0, next: 0, receiver: early as u32, sender: 0 };
    assert_eq!(buffer(&test, 2), row);
}

#[test]
fn free_blocks_and_the_first_waiter() {
    let mut test = TestKernel::new();
    test.code(cre_mpf(1, MOST_BLOCKS, 1));
    test.code(cre_mpf(768, 2, 256));
    let row = |free, waiter: i32| PoolRow { free, waiter: waiter as u32 };
    for out in 0..BLOCKS as u32 {
        assert_eq!(pool(&test, 1), row(BLOCKS as u32 - out, 0));
        test.ok(get_mpf(1, 0));
    }
    assert_eq!(pool(&test, 1), row(0, 0));
    // A block that comes back from the middle counts, too.
    test.ok(rel_mpf(1, 2));
    assert_eq!(pool(&test, 1), row(1, 0));
    test.ok(get_mpf(2, 0));
    test.ok(get_mpf(2, 0));
    let waits = test.start(5);
    test.waits(get_mpf(2, -1));
    assert_eq!(pool(&test, 2), row(0, waits));
    // A returned block goes to the waiter: none is free.
    test.ok(rel_mpf(2, 1));
    assert_eq!(pool(&test, 2), row(0, 0));
    test.ok(rel_mpf(2, 2));
    assert_eq!([2, 3].map(|p| pool(&test, p)), [row(1, 0), OLD_POOL]);
}

/// Every number of every kind in use, then some deleted: their rows are left, those beside are not.
#[test]
fn rows_of_deleted_objects_are_left() {
    let mut test = TestKernel::new();
    for _ in 1..TASKS {
        assert!(test.code(cre_tsk(9)) > 0);
    }
    for _ in 0..MUTEXES {
        assert!(test.code(cre_mtx(1, 0)) > 0);
    }
    for _ in 0..BUFFERS {
        assert!(test.code(cre_mbf(0, 40, 1)) > 0);
    }
    for _ in 0..POOLS {
        assert!(test.code(cre_mpf(0, 3, 1)) > 0);
    }
    let mut expected = Tables {
        tasks: vec![idle(16, 9); TASKS],
        mutexes: vec![MutexRow::default(); MUTEXES],
        buffers: vec![BufferRow { free: 40, room: 32, ..BufferRow::default() }; BUFFERS],
        pools: vec![PoolRow { free: 3, waiter: 0 }; POOLS],
    };
    expected.tasks[0] = idle(1, 8);
    assert_eq!(Tables::of(&test), expected);
    for (number, row) in [(2, 1), (LAST_TASK, TASKS - 1)] {
        test.ok(del_tsk(number));
        expected.tasks[row] = OLD_TASK;
    }
    for (number, row) in [(1, 0), (MUTEXES as i32, MUTEXES - 1)] {
        test.ok(del_mtx(number));
        expected.mutexes[row] = OLD_MUTEX;
    }
    for (number, row) in [(1, 0), (BUFFERS as i32, BUFFERS - 1)] {
        test.ok(del_mbf(number));
        expected.buffers[row] = OLD_BUFFER;
    }
    for (number, row) in [(1, 0), (POOLS as i32, POOLS - 1)] {
        test.ok(del_mpf(number));
        expected.pools[row] = OLD_POOL;
    }
    assert_eq!(Tables::of(&test), expected);
}

/// A kernel in which every kind of object exists, all tasks but the last, which is not there, wait or
/// are ready, and something is stored.
fn busy() -> TestKernel {
    let mut test = TestKernel::new();
    test.code(cre_mtx(2, 0));
    test.code(cre_mbf(1, 36, 32));
    test.code(cre_mpf(0, 1, 1));
    test.ok(loc_mtx(1, 0));
    test.ok(get_mpf(1, 0));
    test.ok(snd_mbf(1, 32, 0));
    let calls = [loc_mtx(1, 5), snd_mbf(1, 32, -1), get_mpf(1, -1)];
    for i in 2..TASKS {
        test.start(if i % 2 == 0 { 3 } else { 4 });
        // The raised holder may run before the new task.
        let task = i as i32;
        test.as_task(task, |test| test.waits(calls[i % calls.len()]));
    }
    test
}

#[test]
fn more_rows_and_fewer() {
    let lent = State::of(&busy().kernel);
    let mut enough = Tables::old(ENOUGH);
    assert_eq!(enough.show(&lent), [E_OK; 4]);
    assert_ne!(enough, Tables::old(ENOUGH));
    for fewer in [ENOUGH.map(|rows| rows - 1), ENOUGH.map(|rows| rows / 2), [1; 4], [0; 4]] {
        let mut tables = Tables::old(fewer);
        assert_eq!(tables.show(&lent), [E_PAR; 4]);
        assert_eq!(tables, Tables::old(fewer));
    }
    for more in [1, 2, 100] {
        let mut tables = Tables::old(ENOUGH.map(|rows| rows + more));
        assert_eq!(tables.show(&lent), [E_OK; 4]);
        // Those behind stay; the others are as in a table without them.
        let mut expected = enough.clone();
        expected.tasks.extend(vec![OLD_TASK; more]);
        expected.mutexes.extend(vec![OLD_MUTEX; more]);
        expected.buffers.extend(vec![OLD_BUFFER; more]);
        expected.pools.extend(vec![OLD_POOL; more]);
        assert_eq!(tables, expected);
    }
}

/// However few objects there are, a row is asked for each number.
#[test]
fn rows_are_counted_by_numbers_not_by_objects() {
    let lent = State::of(&TestKernel::new().kernel);
    let fewer = ENOUGH.map(|rows| rows - 1);
    let mut tables = Tables::old(fewer);
    assert_eq!(tables.show(&lent), [E_PAR; 4]);
    assert_eq!(tables, Tables::old(fewer));
    // A kernel without any object is valid, and nothing is written.
    let none = State { words: vec![0; WORDS], store: vec![0; STORE], outbox: vec![0; OUTBOX] };
    let mut tables = Tables::old(ENOUGH);
    assert_eq!(tables.show(&none), [E_OK; 4]);
    assert_eq!(tables, Tables::old(ENOUGH));
}

/// Refused as an invalid state, whatever the number of rows is: before E_PAR.
#[track_caller]
fn not_valid(lent: &State) {
    let fewer = ENOUGH.map(|rows| rows - 1);
    for rows in [ENOUGH, fewer, [0; 4], ENOUGH.map(|rows| rows + 1)] {
        let mut tables = Tables::old(rows);
        assert_eq!(tables.show(lent), [E_SYS; 4]);
        assert_eq!(tables, Tables::old(rows));
    }
}

#[test]
fn damaged_states_are_refused_first() {
    let good = State::of(&busy().kernel);
    for (at, word) in [
        (at::PLACE, 1),
        (at::PLACE + 2, GETTING + 1),
        (at::BASE + 1, 0),
        (at::CURRENT + 1, good.words[at::CURRENT + 1] - 1),
        (at::LEFT + 1, 1),
        (at::ARRIVALS, good.words[at::ARRIVALS + 1]),
        (at::BITMAP, good.words[at::BITMAP] ^ 1),
        (at::BITMAP, good.words[at::BITMAP] ^ 1 << 31),
        (at::HOLDER + 1, 0),
        (at::HOLDER + 1, TASKS as u32 + 1),
        (at::HOLDER + MUTEXES, 1),
        (at::BUFSZ + 1, 35),
        (at::BUFSZ + 1, STRETCH as u32),
        (at::USED + 1, 35),
        (at::FLAGS + PER_BLOCK + 1, 0),
        (at::END - 1, 1),
    ] {
        let mut lent = good.clone();
        lent.words[at] = word;
        not_valid(&lent);
    }
    let mut lent = good.clone();
    lent.store[STORE - 1] = 1;
    not_valid(&lent);
    let mut lent = good.clone();
    lent.outbox[OUTBOX - 1] = 1;
    not_valid(&lent);
}

#[test]
fn other_lengths_are_refused_first() {
    let good = State::of(&busy().kernel);
    for length in [0, WORDS - 1, WORDS + 1, 2 * WORDS] {
        let mut lent = good.clone();
        lent.words.resize(length, 0);
        not_valid(&lent);
    }
    for length in [0, STORE - 1, STORE + 1, 2 * STORE] {
        let mut lent = good.clone();
        lent.store.resize(length, 0);
        not_valid(&lent);
    }
    for length in [0, OUTBOX - 1, OUTBOX + 1, 2 * OUTBOX] {
        let mut lent = good.clone();
        lent.outbox.resize(length, 0);
        not_valid(&lent);
    }
}

// The same told from the words alone, for any valid state.

/// The first of those who wait so at an object: the arrivals stand in the words as they came.
fn first_of(lent: &State, place: u32, object: usize, by_priority: bool) -> u32 {
    let arrivals = lent.words[at::ARRIVALS..][..TASKS].iter().map(|&t| t as usize);
    let mut queue = arrivals.filter(|&t| {
        t != 0 && lent.word(at::PLACE, t) == place && lent.word(at::OBJECT, t) == object as u32
    });
    let first =
        if by_priority { queue.min_by_key(|&t| lent.word(at::CURRENT, t)) } else { queue.next() };
    first.unwrap_or(0) as u32
}

fn task_by_words(lent: &State, t: usize) -> TaskRow {
    let place = lent.word(at::PLACE, t);
    let running = first_of(lent, READY, 0, true) == t as u32;
    TaskRow {
        state: match place {
            DORMANT => 16,
            READY if running => 1,
            READY => 2,
            _ => 4,
        },
        base: lent.word(at::BASE, t),
        current: lent.word(at::CURRENT, t),
        kind: [0, 0, 0, 0x10, 0x20, 0x20, 0x30][place as usize],
        object: lent.word(at::OBJECT, t),
        left: lent.word(at::LEFT, t) as i32,
    }
}

fn mutex_by_words(lent: &State, m: usize) -> MutexRow {
    let by_priority = lent.word(at::MUTEX_ATTRIBUTE, m) != 0;
    MutexRow { holder: lent.word(at::HOLDER, m), waiter: first_of(lent, LOCKING, m, by_priority) }
}

fn buffer_by_words(lent: &State, b: usize) -> BufferRow {
    let sender = first_of(lent, SENDING, b, lent.word(at::BUFFER_ATTRIBUTE, b) == 1);
    let used = lent.word(at::USED, b);
    let free = lent.word(at::BUFSZ, b) - used;
    let cost = 4 + lent.word(at::MAXMSZ, b).div_ceil(4) * 4;
    BufferRow {
        free,
        room: free as i32 - cost as i32,
        next: match (used, sender) {
            (0, 0) => 0,
            (0, sender) => lent.word(at::ARGUMENT, sender as usize),
            _ => u32::from(lent.store[(b - 1) * STRETCH]),
        },
        receiver: first_of(lent, RECEIVING, b, false),
        sender,
    }
}

fn pool_by_words(lent: &State, p: usize) -> PoolRow {
    let out: u32 = lent.words[at::FLAGS + p * PER_BLOCK..][..PER_BLOCK].iter().sum();
    PoolRow {
        free: lent.word(at::COUNT, p) - out,
        waiter: first_of(lent, GETTING, p, lent.word(at::POOL_ATTRIBUTE, p) % 2 == 1),
    }
}

/// The code, and what the table has to hold: the rows of the numbers that exist by this list of
/// words, the others as they came.
fn expected<Row: Copy>(
    lent: &State,
    (list, numbers): (usize, usize),
    (rows, old): (usize, Row),
    row: fn(&State, usize) -> Row,
) -> (i32, Vec<Row>) {
    if rows < numbers {
        return (E_PAR, vec![old; rows]);
    }
    let exists = |n: usize| n <= numbers && lent.word(list, n) != 0;
    (E_OK, (1..=rows).map(|n| if exists(n) { row(lent, n) } else { old }).collect())
}

#[test]
fn generated_states() {
    let mut random = Random::new(71);
    let mut seen = [0; 3];
    for index in 0..6_000 {
        let (kind, lent) = state(72, index);
        let rows = ENOUGH.map(|enough| match random.below(6) {
            0 => random.below(enough),
            1 => enough - 1,
            2 => enough + 1 + random.below(2 * enough),
            _ => enough,
        });
        let mut tables = Tables::old(rows);
        let codes = tables.show(&lent);
        for code in codes {
            seen[[E_OK, E_SYS, E_PAR].iter().position(|&one| one == code).unwrap()] += 1;
        }
        if !lent.is_valid() {
            assert_eq!((codes, tables), ([E_SYS; 4], Tables::old(rows)), "{kind:?}");
            continue;
        }
        let tasks = expected(&lent, (at::PLACE, TASKS), (rows[0], OLD_TASK), task_by_words);
        let mutexes =
            expected(&lent, (at::MUTEX_EXISTS, MUTEXES), (rows[1], OLD_MUTEX), mutex_by_words);
        let buffers =
            expected(&lent, (at::BUFFER_EXISTS, BUFFERS), (rows[2], OLD_BUFFER), buffer_by_words);
        let pools = expected(&lent, (at::POOL_EXISTS, POOLS), (rows[3], OLD_POOL), pool_by_words);
        assert_eq!((codes[0], tables.tasks), tasks, "{kind:?}");
        assert_eq!((codes[1], tables.mutexes), mutexes, "{kind:?}");
        assert_eq!((codes[2], tables.buffers), buffers, "{kind:?}");
        assert_eq!((codes[3], tables.pools), pools, "{kind:?}");
    }
    assert!(seen.iter().all(|&count| count > 1_000), "{seen:?}");
}
