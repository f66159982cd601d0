//! "Keep one bit for each priority with a ready task": the bitmap of a lent state, which valid states
//! have "as worked out afresh". A ready task of priority 1 gives 1, of 2 gives 2, of 3 gives 4, and so
//! on, of 8 gives 128, of 16 gives 32,768. The numbers after calls are worked out by hand.

mod common;

use common::*;
use reference::boundary::Boundary;
use reference::clauses::{afresh, Clause};
use reference::generator::{generate, RECORDS};
use reference::lent_state::State;
use reference::limits::*;
use reference::random::Random;
use reference::record::{self, KINDS};
use reference::states::{busy, state_at_boundary, state_failing, state_with_wrong_bit, wrong_bits};
use reference::tally::Tally;
use reference::words::*;
use reference::{next_message, run_record, Answer, Call, Kernel, Outcome};

fn bitmap(test: &TestKernel) -> u32 {
    test.kernel.to_words()[at::BITMAP]
}

/// Behind the seven lists of tasks, each with an entry for none, and the arrivals.
#[test]
fn the_fresh_state() {
    assert_eq!(at::BITMAP, 7 * (TASKS + 1) + TASKS);
    assert_eq!(at::MUTEX_EXISTS, at::BITMAP + 1);
    assert_eq!(Kernel::fresh().to_words()[at::BITMAP], 128);
}

#[test]
fn a_task_is_created_and_started() {
    let mut test = TestKernel::new();
    let task = test.code(cre_tsk(3));
    assert_eq!(bitmap(&test), 128);
    test.ok(sta_tsk(task));
    assert_eq!(bitmap(&test), 132);
}

#[test]
fn idle() {
    let mut test = TestKernel::new();
    // A dormant task has no bit.
    test.code(cre_tsk(3));
    assert_eq!(test.run(Call::ExtTsk), Answer::Exited);
    assert_eq!(bitmap(&test), 0);
    test.ok(Call::Tick);
    assert_eq!(bitmap(&test), 0);
    let mut test = TestKernel::new();
    test.code(cre_mbf(0, 0, 1));
    test.waits(rcv_mbf(1, -1));
    assert_eq!((test.running(), bitmap(&test)), (0, 0));
}

#[test]
fn two_of_one_priority_leave() {
    let mut test = TestKernel::new();
    test.code(cre_mbf(0, 0, 1));
    test.start(8);
    assert_eq!(bitmap(&test), 128);
    test.waits(rcv_mbf(1, -1));
    assert_eq!((test.running(), bitmap(&test)), (2, 128));
    test.waits(rcv_mbf(1, -1));
    assert_eq!((test.running(), bitmap(&test)), (0, 0));
}

#[test]
fn chg_pri_of_a_ready_task() {
    let mut test = TestKernel::new();
    test.start(12);
    assert_eq!(bitmap(&test), 2_176);
    // The one that does not run: down to the last, beside the other, up to the first.
    for (priority, expected) in [(16, 32_896), (8, 128), (9, 384), (1, 129)] {
        test.ok(chg_pri(2, priority));
        assert_eq!(bitmap(&test), expected, "{priority}");
    }
    // The caller: task 2 back to its initial priority, then task 1 to the last.
    test.ok(chg_pri(0, 0));
    assert_eq!((test.running(), bitmap(&test)), (1, 2_176));
    test.ok(chg_pri(0, 16));
    assert_eq!((test.running(), bitmap(&test)), (2, 34_816));
    test.ok(chg_pri(1, 12));
    assert_eq!(bitmap(&test), 2_048);
}

#[test]
fn chg_pri_of_other_tasks() {
    let mut test = TestKernel::new();
    test.code(cre_mbf(0, 0, 1));
    let waits = test.start(3);
    test.waits(rcv_mbf(1, -1));
    let dormant = test.code(cre_tsk(5));
    for task in [waits, dormant] {
        test.ok(chg_pri(task, 1));
        assert_eq!(bitmap(&test), 128, "task {task}");
    }
    test.ok(sta_tsk(dormant));
    assert_eq!(bitmap(&test), 129);
}

/// Task 1 (8) holds an inheritance mutex that task 2 (3) waits for: task 1 alone is ready, with 3.
#[track_caller]
fn raised(timeout: i32) -> TestKernel {
    let mut test = TestKernel::new();
    test.code(cre_mtx(2, 0));
    test.ok(loc_mtx(1, 0));
    test.start(3);
    assert_eq!(bitmap(&test), 132);
    test.waits(loc_mtx(1, timeout));
    assert_eq!((test.running(), bitmap(&test)), (1, 4));
    test
}

#[test]
fn raised_and_lowered_by_unlocking() {
    let mut test = raised(-1);
    test.ok(unl_mtx(1));
    assert_eq!((test.running(), bitmap(&test)), (2, 132));
}

#[test]
fn raised_and_lowered_by_a_timeout() {
    let mut test = raised(1);
    test.ok(Call::Tick);
    assert_eq!((test.ended(), bitmap(&test)), (vec![(2, E_TMOUT)], 132));
}

#[test]
fn raised_and_lowered_by_another_base() {
    let mut test = raised(-1);
    for (priority, expected) in [(5, 16), (1, 1), (16, 128)] {
        test.ok(chg_pri(2, priority));
        assert_eq!(bitmap(&test), expected, "{priority}");
    }
}

/// Task 1 is ready and does not run, since task 3 (2) is more urgent.
#[test]
fn raised_and_lowered_behind_the_running_task() {
    let mut test = raised(-1);
    test.start(2);
    assert_eq!((test.running(), bitmap(&test)), (3, 6));
    test.ok(chg_pri(2, 5));
    assert_eq!(bitmap(&test), 18);
    test.ok(ter_tsk(2));
    assert_eq!(bitmap(&test), 130);
}

/// 01's chain: A (12) holds 1, B (8) holds 2 and waits for 1, C (3) waits for 2 and times out.
#[test]
fn raised_along_a_chain() {
    let mut test = TestKernel::new();
    test.ok(chg_pri(0, 12));
    assert_eq!(bitmap(&test), 2_048);
    test.code(cre_mtx(2, 0));
    test.code(cre_mtx(2, 0));
    test.ok(loc_mtx(1, 0));
    test.start(8);
    test.ok(loc_mtx(2, 0));
    assert_eq!(bitmap(&test), 2_176);
    test.waits(loc_mtx(1, -1));
    assert_eq!(bitmap(&test), 128);
    test.start(3);
    assert_eq!(bitmap(&test), 132);
    test.waits(loc_mtx(2, 1));
    assert_eq!(bitmap(&test), 4);
    test.ok(Call::Tick);
    assert_eq!(bitmap(&test), 132);
}

/// 01's circle: all wait, whatever their priorities are, until C (2) times out.
#[test]
fn waits_in_a_circle() {
    let mut test = TestKernel::new();
    test.ok(chg_pri(0, 12));
    test.code(cre_mtx(2, 0));
    test.code(cre_mtx(2, 0));
    test.ok(loc_mtx(1, 0));
    test.start(8);
    test.ok(loc_mtx(2, 0));
    test.waits(loc_mtx(1, -1));
    test.start(2);
    assert_eq!(bitmap(&test), 130);
    test.waits(loc_mtx(1, 2));
    assert_eq!((test.running(), bitmap(&test)), (1, 2));
    test.waits(loc_mtx(2, -1));
    assert_eq!((test.running(), bitmap(&test)), (0, 0));
    test.ok(Call::Tick);
    assert_eq!(bitmap(&test), 0);
    test.ok(Call::Tick);
    assert_eq!((test.running(), bitmap(&test)), (3, 2));
}

#[test]
fn raised_by_ceilings() {
    let mut test = TestKernel::new();
    test.code(cre_mtx(3, 2));
    test.code(cre_mtx(3, 5));
    for (call, expected) in [
        (loc_mtx(2, 0), 16),
        (loc_mtx(1, 0), 2),
        (unl_mtx(2), 2),
        (loc_mtx(2, 0), 2),
        (unl_mtx(1), 16),
        (unl_mtx(2), 128),
    ] {
        test.ok(call);
        assert_eq!(bitmap(&test), expected, "{call:?}");
    }
}

#[test]
fn ter_tsk_of_a_ready_task() {
    let mut test = TestKernel::new();
    let (first, second) = (test.start(12), test.start(12));
    assert_eq!(bitmap(&test), 2_176);
    test.ok(ter_tsk(first));
    assert_eq!(bitmap(&test), 2_176);
    test.ok(ter_tsk(second));
    assert_eq!(bitmap(&test), 128);
}

/// Task 2 (12) is ready with 3, and its mutex goes to task 3 (3), which waited for it.
#[test]
fn ter_tsk_of_a_ready_holder() {
    let mut test = TestKernel::new();
    test.code(cre_mtx(2, 0));
    test.start(12);
    test.as_task(2, |test| test.ok(loc_mtx(1, 0)));
    assert_eq!(bitmap(&test), 2_176);
    test.start(3);
    assert_eq!(bitmap(&test), 2_180);
    test.waits(loc_mtx(1, -1));
    assert_eq!((test.running(), bitmap(&test)), (2, 132));
    test.start(2);
    assert_eq!((test.running(), bitmap(&test)), (4, 134));
    test.ok(ter_tsk(2));
    assert_eq!((test.ended(), bitmap(&test)), (vec![(3, E_OK)], 134));
    test.ok(ter_tsk(3));
    assert_eq!(bitmap(&test), 130);
}

#[test]
fn ext_tsk_of_the_last_of_its_priority() {
    let mut test = TestKernel::new();
    test.start(8);
    test.start(3);
    for (running, expected) in [(3, 132), (1, 128), (2, 128), (0, 0)] {
        assert_eq!((test.running(), bitmap(&test)), (running, expected));
        if running != 0 {
            assert_eq!(test.run(Call::ExtTsk), Answer::Exited);
        }
    }
}

#[test]
fn waits_end_by_timeouts() {
    let mut test = TestKernel::new();
    test.code(cre_mbf(0, 0, 1));
    test.start(5);
    assert_eq!(bitmap(&test), 144);
    test.waits(rcv_mbf(1, 2));
    assert_eq!(bitmap(&test), 128);
    test.waits(rcv_mbf(1, 3));
    for expected in [0, 0, 16, 144] {
        assert_eq!(bitmap(&test), expected);
        test.ok(Call::Tick);
    }
    // Both in one tick.
    test.waits(rcv_mbf(1, 1));
    test.waits(rcv_mbf(1, 1));
    assert_eq!(bitmap(&test), 0);
    test.ok(Call::Tick);
    assert_eq!(bitmap(&test), 144);
}

#[test]
fn a_mutex_with_a_waiter_is_deleted() {
    let mut test = raised(-1);
    test.ok(del_mtx(1));
    assert_eq!((test.ended(), bitmap(&test)), (vec![(2, E_DLT)], 132));
    // By another than the holder, task 3 (2).
    let mut test = raised(-1);
    test.start(2);
    test.ok(del_mtx(1));
    assert_eq!((test.running(), bitmap(&test)), (3, 134));
    // With two waiters, of 3 and 5.
    let mut test = raised(-1);
    test.start(5);
    assert_eq!((test.running(), bitmap(&test)), (1, 20));
    test.as_task(3, |test| test.waits(loc_mtx(1, -1)));
    assert_eq!(bitmap(&test), 4);
    test.ok(del_mtx(1));
    assert_eq!((test.ended(), bitmap(&test)), (vec![(2, E_DLT), (3, E_DLT)], 148));
}

/// What task 1 does before task 2 (3) waits, that wait, and the call of task 1's that ends it.
#[test]
fn waits_end_by_calls() {
    let wait_and_end: [(&[Call], Call, Call); 6] = [
        (&[cre_mpf(0, 1, 1), get_mpf(1, 0)], get_mpf(1, -1), rel_mpf(1, 1)),
        (&[cre_mpf(0, 1, 1), get_mpf(1, 0)], get_mpf(1, -1), del_mpf(1)),
        (&[cre_mbf(0, 8, 4)], rcv_mbf(1, -1), snd_mbf(1, 1, 0)),
        (&[cre_mbf(0, 8, 4)], rcv_mbf(1, -1), del_mbf(1)),
        (&[cre_mbf(0, 8, 4), snd_mbf(1, 4, 0)], snd_mbf(1, 1, -1), rcv_mbf(1, 0)),
        (&[cre_mtx(0, 0), loc_mtx(1, 0)], loc_mtx(1, -1), unl_mtx(1)),
    ];
    for (before, wait, end) in wait_and_end {
        let mut test = TestKernel::new();
        for &call in before {
            assert!(test.code(call) >= E_OK);
        }
        test.start(3);
        test.waits(wait);
        assert_eq!((test.running(), bitmap(&test)), (1, 128), "{wait:?}");
        assert!(test.code(end) >= E_OK);
        assert_eq!((test.running(), bitmap(&test)), (2, 132), "{end:?}");
    }
}

/// A refused call leaves the bits alone, also one that would have waited.
#[test]
fn refused_calls() {
    let mut test = TestKernel::new();
    test.start(12);
    test.code(cre_mbf(0, 0, 1));
    for call in [rcv_mbf(1, 0), chg_pri(2, 17), ter_tsk(1), sta_tsk(2), cre_tsk(0), ter_tsk(3)] {
        assert!(test.code(call) < E_OK);
        assert_eq!(bitmap(&test), 2_176, "{call:?}");
    }
}

/// Priorities of tasks that are started beside task 1 (8), and the bitmap after each.
const STARTED: [(i32, u32); 15] = [
    (9, 384),
    (10, 896),
    (11, 1_920),
    (12, 3_968),
    (13, 8_064),
    (14, 16_256),
    (15, 32_640),
    (16, 65_408),
    (7, 65_472),
    (6, 65_504),
    (5, 65_520),
    (4, 65_528),
    (3, 65_532),
    (2, 65_534),
    (1, 65_535),
];

/// The bitmap after each exits in turn.
const EXITED: [u32; 16] = [
    65_534, 65_532, 65_528, 65_520, 65_504, 65_472, 65_408, 65_280, 65_024, 64_512, 63_488, 61_440,
    57_344, 49_152, 32_768, 0,
];

#[test]
fn every_bit() {
    let mut test = TestKernel::new();
    for (priority, expected) in STARTED {
        test.start(priority);
        assert_eq!(bitmap(&test), expected, "{priority}");
    }
    for expected in EXITED {
        assert_eq!(test.run(Call::ExtTsk), Answer::Exited);
        assert_eq!(bitmap(&test), expected);
    }
}

/// After each record: by the words, and its first bit is the running task's.
#[test]
fn along_generated_scripts() {
    let (mut seen, mut idle, mut several) = (0, 0, 0);
    for index in 0..1_000 {
        let script = generate(33, index, RECORDS, &mut Tally::default());
        let (mut kernel, mut out, mut at) = (Kernel::fresh(), Outcome::default(), 0);
        while let Some((call, length)) = record::read(&script[at..]) {
            kernel.run(&call, &mut out);
            at += length;
            let words = kernel.to_words();
            let bits = words[at::BITMAP];
            assert_eq!(bits, bitmap_by_words(&words), "script {index}, {call:?}");
            let first = kernel.running().map(|t| u32::from(kernel.task(t).current));
            let lowest = (bits != 0).then(|| bits.trailing_zeros() + 1);
            assert_eq!(lowest, first, "script {index}, {call:?}");
            seen |= bits;
            idle += usize::from(bits == 0);
            several += usize::from(bits.count_ones() > 1);
        }
    }
    assert_eq!(seen, 0xFFFF);
    assert!(idle > 1_000 && several > 10_000, "{idle} {several}");
}

/// Fresh, idle in two ways, without any task, every priority ready, and busy ones.
fn valid_states() -> Vec<State> {
    let mut exited = TestKernel::new();
    exited.run(Call::ExtTsk);
    let mut waits = TestKernel::new();
    waits.code(cre_mbf(0, 0, 1));
    waits.waits(rcv_mbf(1, 1));
    let mut every = TestKernel::new();
    for (priority, _) in STARTED {
        every.start(priority);
    }
    let none = State { words: vec![0; WORDS], store: vec![0; STORE], outbox: vec![0; OUTBOX] };
    let mut states =
        [TestKernel::new(), exited, waits, every].map(|t| State::of(&t.kernel)).to_vec();
    states.push(none);
    let mut random = Random::new(40);
    states.extend((0..10).map(|_| busy(&mut random)));
    states
}

/// A call of each kind, every field 1, and nothing behind a message.
fn call_of_each_kind() -> Vec<Call> {
    let records = KINDS.map(|(kind, _, body)| {
        let mut bytes = vec![kind];
        bytes.extend((0..body).map(|i| u8::from(i % 4 == 0 && i <= 12)));
        bytes
    });
    records.iter().filter_map(|bytes| record::read(bytes)).map(|(call, _)| call).collect()
}

/// What a log area holds before.
const UNTOUCHED: u8 = 0xA5;

/// 01's log where order 1 applies.
const NOT_SOUND: [u8; 7] = [0x80, 0xFB, 0xFF, 0xFF, 0xFF, 0x8F, 0x00];

/// The call is refused with -5, and every word and byte is as it came, but for the log of it.
#[track_caller]
fn refused(state: &State, call: &Call) {
    let State { mut words, mut store, mut outbox } = state.clone();
    let mut log = [UNTOUCHED; LOG];
    let (answer, written) = run_record(&mut words, &mut store, &mut outbox, call, &mut log);
    assert_eq!((answer, &log[..written]), (Answer::Code(-5), &NOT_SOUND[..]), "{call:?}");
    assert!(log[written..].iter().all(|&byte| byte == UNTOUCHED), "{call:?}");
    assert_eq!(State { words, store, outbox }, *state, "{call:?}");
}

#[test]
fn every_bit_that_is_flipped_is_refused() {
    let calls = call_of_each_kind();
    assert_eq!(calls.len(), 19);
    for (i, right) in valid_states().into_iter().enumerate() {
        assert_eq!((right.failing(), right.is_valid()), (vec![], true), "state {i}");
        for bit in 0..32 {
            let mut state = right.clone();
            state.words[at::BITMAP] ^= 1 << bit;
            assert_eq!(state.failing(), [Clause::Bitmap], "state {i}, bit {bit}");
            assert!(!state.is_valid(), "state {i}, bit {bit}");
            calls.iter().for_each(|call| refused(&state, call));
            let State { words, store, outbox } = &state;
            let shown = |buffer: i32| next_message(words, store, outbox, buffer);
            assert!((1..=BUFFERS as i32).all(|b| shown(b).is_empty()), "state {i}, bit {bit}");
        }
    }
}

/// Of many words up to 17 bits, and of any, one alone is right.
#[test]
fn every_other_word_is_refused() {
    let mut random = Random::new(41);
    for (i, mut state) in valid_states().into_iter().enumerate() {
        let right = state.words[at::BITMAP];
        let any: Vec<u32> = (0..1_000).map(|_| random.word() as u32).collect();
        for word in (0..1 << 17).step_by(7).chain(any).chain([right]) {
            state.words[at::BITMAP] = word;
            assert_eq!(state.is_valid(), word == right, "state {i}, {word}");
        }
    }
}

/// Place and current priority of task 1 and the bitmap, in the fresh state, and whether the clause
/// fails. Words out of their range fail clauses of their own.
const WORDS_OF_A_TASK: [(u32, u32, u32, bool); 30] = [
    (READY, 8, 128, false),
    (READY, 8, 0, true),
    (READY, 8, 64, true),
    (READY, 8, 256, true),
    (READY, 8, 1 << 31 | 128, true),
    (READY, 1, 1, false),
    (READY, 16, 1 << 15, false),
    (READY, 16, 1 << 16, true),
    // Out of range: no bit, however the number is cut.
    (READY, 0, 0, false),
    (READY, 0, 1, true),
    (READY, 0, 1 << 31, true),
    (READY, 17, 0, false),
    (READY, 17, 1 << 16, true),
    (READY, 17, 1, true),
    (READY, 32, 0, false),
    (READY, 32, 1 << 31, true),
    (READY, 33, 0, false),
    (READY, 33, 1, true),
    (READY, 256 + 8, 0, false),
    (READY, 256 + 8, 128, true),
    (READY, u32::MAX, 0, false),
    (READY, u32::MAX, 1 << 30, true),
    // Not ready.
    (ABSENT, 8, 0, false),
    (ABSENT, 8, 128, true),
    (DORMANT, 8, 0, false),
    (DORMANT, 8, 128, true),
    (GETTING, 8, 128, true),
    (GETTING + 1, 8, 128, true),
    (256 + READY, 8, 0, false),
    (256 + READY, 8, 128, true),
];

#[test]
fn in_states_that_no_kernel_made() {
    let fresh = State::of(&Kernel::fresh());
    for (place, current, bits, fails) in WORDS_OF_A_TASK {
        let mut lent = fresh.clone();
        lent.words[at::PLACE + 1] = place;
        lent.words[at::CURRENT + 1] = current;
        lent.words[at::BITMAP] = bits;
        let failing = lent.failing();
        assert_eq!(failing.contains(&Clause::Bitmap), fails, "{place} {current} {bits}");
        assert_eq!(lent.is_valid(), failing.is_empty(), "{place} {current} {bits}");
    }
}

/// Entry 0 is no task.
#[test]
fn the_entry_for_none_has_no_bit() {
    let mut lent = State::of(&Kernel::fresh());
    lent.words[at::PLACE] = READY;
    lent.words[at::CURRENT] = 3;
    assert_eq!(lent.failing(), [Clause::TaskEntryZero]);
    lent.words[at::BITMAP] = 132;
    assert_eq!(lent.failing(), [Clause::TaskEntryZero, Clause::Bitmap]);
}

/// How the bitmap of a state differs from the right one.
fn wrong(state: &State) -> u32 {
    state.words[at::BITMAP] ^ bitmap_by_words(&state.words)
}

#[test]
fn states_with_every_wrong_bit() {
    assert_eq!(wrong_bits().filter(|wrong| wrong.set).count(), 32);
    assert_eq!(wrong_bits().filter(|wrong| !wrong.set).count(), 16);
    for bit in wrong_bits() {
        for index in 0..3 {
            let state = state_with_wrong_bit(bit, 5, index);
            assert_eq!(state.failing(), [Clause::Bitmap], "{bit:?}");
            assert_eq!(wrong(&state), 1 << bit.bit, "{bit:?}");
            assert_eq!(state.words[at::BITMAP] >> bit.bit & 1 == 1, bit.set, "{bit:?}");
        }
    }
}

/// One wrong bit, several, bits that no priority has, ones that are set and ones that are missing.
#[test]
fn states_that_fail_the_clause() {
    let (mut one, mut several, mut beyond, mut set, mut missing) = (0, 0, 0, 0, 0);
    for index in 0..1_500 {
        let state = state_failing(Clause::Bitmap, 6, index);
        let (wrong, word) = (wrong(&state), state.words[at::BITMAP]);
        one |= if wrong.count_ones() == 1 { wrong } else { 0 };
        several += usize::from(wrong.count_ones() > 1);
        beyond += usize::from(word > 0xFFFF);
        set |= wrong & word;
        missing |= wrong & !word;
    }
    assert_eq!([one, set, missing], [u32::MAX, u32::MAX, 0xFFFF]);
    assert!(several > 100 && beyond > 100, "{several} {beyond}");
}

/// Where another clause is to fail, the bitmap follows: it shows a ready task's wrong priority.
#[test]
fn wrong_priorities_of_ready_tasks() {
    for clause in [Clause::TaskCurrent, Clause::PriorityAfresh] {
        let shows = |&index: &u64| {
            let mut words = state_failing(clause, 8, index).words;
            let shown = words[at::BITMAP];
            let afresh = afresh(&words);
            words[at::CURRENT..][..PER_TASK].copy_from_slice(&afresh);
            shown != bitmap_by_words(&words)
        };
        let count = (0..200).filter(shows).count();
        assert!(count > 20, "{clause:?}: {count}");
    }
}

#[test]
fn valid_at_the_boundaries() {
    for (boundary, expected) in [
        (Boundary::BitmapNone, 0),
        (Boundary::BitmapLowest, 1),
        (Boundary::BitmapHighest, 32_768),
        (Boundary::BitmapMost, 65_535),
    ] {
        for index in 0..24 {
            let state = state_at_boundary(boundary, 7, index);
            assert_eq!(state.failing(), [], "{boundary:?}");
            assert_eq!(state.words[at::BITMAP], expected, "{boundary:?}");
        }
    }
}
