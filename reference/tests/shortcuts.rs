//! Shortcuts a good student takes, 01's and those around request Five of 02, each as a case that
//! the shortcut fails.

mod common;

use common::*;
use reference::limits::*;
use reference::Call;

/// Testing only msgsz > maxmsz lets 0 and negative lengths through.
#[test]
fn only_the_upper_bound_of_msgsz() {
    let mut test = TestKernel::new();
    test.code(cre_mbf(0, 64, 8));
    for msgsz in [0, -1, -32, i32::MIN] {
        assert_eq!(test.code(snd_mbf(1, msgsz, 0)), E_PAR);
        // From the call alone, so it comes before the buffer's number.
        assert_eq!(test.code(snd_mbf(9, msgsz, 0)), E_PAR);
    }
    assert_eq!(test.code(snd_mbf(1, 9, 0)), E_PAR);
    assert_eq!(test.code(snd_mbf(9, 9, 0)), E_ID);
    test.ok(snd_mbf(1, 8, 0));
    // Also towards a waiting receiver.
    let receiver = test.start(1);
    assert_eq!(test.running(), receiver);
    assert_eq!(test.code(rcv_mbf(1, 0)), 8);
    test.waits(rcv_mbf(1, -1));
    assert_eq!(test.code(snd_mbf(1, 0, 0)), E_PAR);
}

/// A chain of five, task by task less urgent, with one urgent waiter at its end.
fn long_chain() -> (TestKernel, Vec<i32>, i32) {
    let mut test = TestKernel::new();
    let members: Vec<i32> = (0..5)
        .map(|i| {
            assert_eq!(test.code(cre_mtx(2, 0)), i + 1);
            test.start(LEAST_URGENT - i)
        })
        .collect();
    for (i, &task) in members.iter().enumerate() {
        let mutex = i as i32 + 1;
        let base = i32::from(test.task(task).base);
        test.ok(chg_pri(task, 2));
        test.rotate_to(task);
        test.ok(loc_mtx(mutex, -1));
        if i > 0 {
            test.waits(loc_mtx(mutex - 1, -1));
        }
        test.ok(chg_pri(task, base));
    }
    let urgent = test.start(1);
    test.waits(loc_mtx(5, 4));
    assert!(members.iter().all(|&task| test.current(task) == 1));
    (test, members, urgent)
}

/// Lowering only the first holder leaves the rest of the chain raised.
#[test]
fn lowering_only_the_first_holder() {
    // Without the urgent waiter the most urgent member of the chain counts for all.
    let bases = [PRIORITIES - 4; 5];
    // The end of the raise, in each of its ways.
    for way in 0..4 {
        let (mut test, members, urgent) = long_chain();
        match way {
            0 => {
                test.uneventful_ticks(3);
                test.ok(Call::Tick);
                assert_eq!(test.ended(), [(urgent, E_TMOUT)]);
            }
            1 => test.ok(ter_tsk(urgent)),
            2 => test.ok(chg_pri(urgent, LEAST_URGENT - 3)),
            _ => {
                test.ok(del_mtx(5));
                assert_eq!(test.ended(), [(urgent, E_DLT)]);
            }
        }
        let current: Vec<u8> = members.iter().map(|&task| test.current(task)).collect();
        assert_eq!(current, bases, "way {way}");
    }
}

/// Lowering to the most urgent waiter's kept priority leaves a circle raised for ever.
#[test]
fn lowering_by_kept_priorities() {
    for way in 0..3 {
        let mut test = TestKernel::new();
        let bases = [14, 10, 12];
        let members: Vec<i32> = (0..3)
            .map(|i| {
                assert_eq!(test.code(cre_mtx(2, 0)), i + 1);
                test.start(bases[i as usize])
            })
            .collect();
        for (i, &task) in members.iter().enumerate() {
            test.as_task(task, |test| test.ok(loc_mtx(i as i32 + 1, -1)));
        }
        for (i, &task) in members.iter().enumerate() {
            test.ok(chg_pri(task, 1));
            test.rotate_to(task);
            test.waits(loc_mtx((i as i32 + 1) % 3 + 1, -1));
        }
        assert!(members.iter().all(|&task| test.current(task) == 1));
        for (i, &task) in members.iter().enumerate() {
            test.ok(chg_pri(task, bases[i]));
        }
        // The most urgent base of the circle, not the 1 that each saw in the other.
        assert!(members.iter().all(|&task| test.current(task) == 10));
        let urgent = test.start(2);
        test.waits(loc_mtx(2, 1));
        assert!(members.iter().all(|&task| test.current(task) == 2));
        match way {
            0 => test.ok(Call::Tick),
            1 => test.ok(ter_tsk(urgent)),
            _ => test.ok(chg_pri(urgent, 11)),
        }
        assert!(members.iter().all(|&task| test.current(task) == 10), "way {way}");
        // One member leaves by its end: the third (12) still waits for the first (14).
        test.ok(ter_tsk(members[1]));
        assert_eq!((test.current(members[0]), test.current(members[2])), (12, 12), "way {way}");
    }
}

/// A sender that inheritance moves to the front may fit now.
#[test]
fn a_raised_sender_may_fit() {
    let mut test = TestKernel::new();
    test.code(cre_mtx(2, 0));
    test.code(cre_mbf(1, 20, 32));
    test.ok(snd_mbf(1, 5, -1)); // 12 of 20: 8 are free
    let low = test.start(12);
    let high = test.start(6);
    assert_eq!(test.running(), high);
    test.waits(snd_mbf(1, 32, -1));
    test.ok(chg_pri(low, 7));
    assert_eq!(test.running(), low);
    test.ok(loc_mtx(1, -1));
    test.waits(snd_mbf(1, 4, -1));
    test.ok(chg_pri(low, 12));
    assert_eq!(test.ended(), []);
    let urgent = test.start(3);
    // Locking raises the low sender to 3, ahead of the high one; its 8 bytes fit.
    test.waits(loc_mtx(1, -1));
    assert_eq!(test.ended(), [(low, E_OK)]);
    assert_eq!(test.current(low), 3);
    assert_eq!(test.used(1), 20);
    assert_eq!(test.running(), low);
    assert_eq!(test.current(urgent), 3);
}

/// The same when the first sender falls back, in a tick.
#[test]
fn a_lowered_sender_lets_the_next_one_fit() {
    let mut test = TestKernel::new();
    test.code(cre_mtx(2, 0));
    test.code(cre_mbf(1, 20, 32));
    test.ok(snd_mbf(1, 5, -1));
    let big = test.start(7);
    test.ok(loc_mtx(1, -1));
    test.waits(snd_mbf(1, 32, -1));
    let small = test.start(6);
    test.ok(chg_pri(big, 12));
    test.ok(chg_pri(small, 5));
    assert_eq!(test.running(), small);
    let urgent = test.start(2);
    test.waits(loc_mtx(1, 2));
    assert_eq!(test.current(big), 2);
    test.waits(snd_mbf(1, 4, -1));
    assert_eq!(test.used(1), 12);
    test.uneventful_ticks(1);
    test.ok(Call::Tick);
    // First the timeout, then the look at the buffers.
    assert_eq!(test.ended(), [(urgent, E_TMOUT), (small, E_OK)]);
    assert_eq!(test.used(1), 20);
}

/// Multiplying before testing overflows, or lets a wrapped product through.
#[test]
fn multiplying_before_testing() {
    let mut test = TestKernel::new();
    for (count, size) in [
        (65_536, 65_536),     // 0 in 32 bits
        (i32::MIN, 2),        // 0 in 32 bits
        (i32::MAX, i32::MAX), // 1 in 32 bits
        (-1, -1),             // 1
        (0x1000_0001, 16),    // 16 in 32 bits
        (257, 1),
        (0, 1),
        (1, 0),
        (4096, 1),
    ] {
        assert_eq!(test.code(cre_mpf(0, count, size)), E_PAR, "{count} {size}");
        assert_eq!(test.code(cre_mpf(0, size, count)), E_PAR, "{size} {count}");
    }
    assert_eq!(test.code(cre_mpf(0, MOST_BLOCKS + 1, 1)), E_PAR);
    assert_eq!(test.code(cre_mpf(0, MOST_BLOCKS, 255)), 1);
    let left = POOL_BYTES as i32 - MOST_BLOCKS * 255;
    assert_eq!(test.code(cre_mpf(0, 1, left + 1)), E_NOMEM);
    assert_eq!(test.code(cre_mpf(0, 1, left)), 2);
    assert_eq!(test.code(cre_mpf(0, 1, 1)), E_NOMEM);
    test.ok(del_mpf(1));
    assert_eq!(test.code(cre_mpf(0, MOST_BLOCKS, 256)), E_NOMEM);
    test.ok(del_mpf(2));
    assert_eq!(test.code(cre_mpf(0, MOST_BLOCKS, 256)), 1);
}

/// Task 1 is kept at 4 by a ceiling and has the base 4 too; of its equals, which arrived before and
/// behind it, the first runs.
fn between_equals() -> (TestKernel, [i32; 2]) {
    let mut test = TestKernel::new();
    test.code(cre_mtx(3, 4));
    test.ok(loc_mtx(1, -1));
    let first = test.start(4);
    test.ok(chg_pri(1, 4));
    let last = test.start(4);
    assert_eq!((test.running(), test.current(1)), (first, 4));
    (test, [first, last])
}

/// Who runs after the first of the equals.
fn next_to_run(mut test: TestKernel) -> i32 {
    test.run(Call::ExtTsk);
    test.running()
}

/// Arriving anew with every chg_pri lets a raised task fall behind.
#[test]
fn arriving_anew_always() {
    for priority in [9, 16] {
        let (mut test, _) = between_equals();
        test.ok(chg_pri(1, priority));
        assert_eq!(next_to_run(test), 1);
    }
}

/// Comparing current and base priority before the change is wrong in both directions.
#[test]
fn comparing_before_the_change() {
    // Equal before, raised afterwards.
    let (mut test, _) = between_equals();
    test.ok(chg_pri(1, 8));
    assert_eq!((test.task(1).base, test.current(1)), (8, 4));
    // Raised before, equal afterwards; the last arrives anew in between, so it is behind for sure.
    let (mut other, [_, last]) = between_equals();
    other.ok(chg_pri(1, 8));
    other.ok(chg_pri(last, 4));
    other.ok(chg_pri(1, 4));
    assert_eq!((other.task(1).base, other.current(1)), (4, 4));
    assert_eq!((next_to_run(test), next_to_run(other)), (1, last));
}

/// Comparing the new base with the current priority from before the change, which it may lower.
#[test]
fn comparing_with_the_current_priority_before() {
    let mut test = TestKernel::new();
    let moved = test.start(5);
    let other = test.start(8);
    // Nothing raises it: from 5 to 8 it goes behind the other.
    test.ok(chg_pri(moved, 8));
    assert_eq!(test.running(), 1);
    assert_eq!(next_to_run(test), other);
}

/// Asking whether a mutex keeps the task up, not whether it keeps it above its base.
#[test]
fn asking_for_a_mutex_alone() {
    let (mut test, [_, last]) = between_equals();
    test.ok(chg_pri(1, 4));
    assert_eq!(next_to_run(test), last);
}
