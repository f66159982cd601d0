//! Each refusal of the table, alone and where two orders apply at once.

mod common;

use common::*;
use reference::limits::*;
use reference::{run_record, Answer, Call, Got, Kernel};

/// Tasks: 1 (8) runs, 2 is dormant, 3 (4) waits to receive from buffer 2, 4 (10) is ready, 5 (12)
/// waits for mutex 5, 6 and above are absent. Mutexes: 1 free, 2 held by the caller, 3 by task 3,
/// 4 free with ceiling 9, 5 held by task 4 with ceiling 9, 6 held by 3 with ceiling 3, 7 and 8
/// absent. Buffers: 1 stores nothing, 2 is awaited, 3 and 4 absent. Pools: 1 has its one block
/// handed out, 2 has two free blocks, 3 and 4 are absent.
fn plain() -> TestKernel {
    let mut test = TestKernel::new();
    assert_eq!(test.code(cre_tsk(8)), 2);
    for (attribute, ceiling) in [(0, 0), (2, 0), (2, 0), (3, 9), (3, 9), (3, 3)] {
        test.code(cre_mtx(attribute, ceiling));
    }
    test.code(cre_mbf(0, 0, 16));
    test.code(cre_mbf(1, 64, 32));
    test.code(cre_mpf(0, 1, 64));
    test.code(cre_mpf(769, 2, 64));
    test.ok(get_mpf(1, 0));
    test.ok(loc_mtx(2, -1));
    assert_eq!(test.start(4), 3);
    test.ok(loc_mtx(3, -1));
    test.ok(loc_mtx(6, -1));
    test.waits(rcv_mbf(2, -1));
    assert_eq!(test.start(10), 4);
    assert_eq!(test.start(12), 5);
    test.ok(chg_pri(0, 13));
    assert_eq!(test.running(), 4);
    test.ok(loc_mtx(5, -1));
    test.ok(chg_pri(0, 14));
    assert_eq!(test.running(), 4, "raised to the ceiling");
    // Lock under the ceiling needs the holder out of the way.
    test.waits(rcv_mbf(2, 1));
    test.waits(loc_mtx(5, -1));
    test.ok(chg_pri(0, 8));
    test.ok(Call::Tick);
    assert_eq!(test.ended(), [(4, E_TMOUT)]);
    test.ok(chg_pri(4, 10));
    assert_eq!(test.running(), 1);
    test
}

/// Every number of every kind is in use; the pools take POOL_BYTES.
fn full() -> TestKernel {
    let mut test = TestKernel::new();
    while test.code(cre_tsk(9)) > 0 {}
    while test.code(cre_mtx(0, 0)) > 0 {}
    while test.code(cre_mbf(0, 0, 1)) > 0 {}
    while test.code(cre_mpf(0, 4, 256)) > 0 {}
    test
}

/// As [`plain`] or [`full`], but nobody runs.
fn nobody_runs(mut test: TestKernel) -> TestKernel {
    while test.running() != 0 {
        test.run(Call::ExtTsk);
    }
    test
}

/// A send of these bytes that does not wait.
fn send(buffer: i32, msgsz: i32, bytes: [u8; MESSAGE]) -> Call {
    Call::SndMbf { buffer, msgsz, timeout: 0, bytes }
}

/// As [`snd_mbf`], but with another byte at the place, counted from 0.
fn soiled(buffer: i32, msgsz: i32, timeout: i32, place: usize, byte: u8) -> Call {
    let mut bytes = message(msgsz as usize);
    bytes[place] = byte;
    Call::SndMbf { buffer, msgsz, timeout, bytes }
}

const OUT_OF_RANGE: [i32; 6] = [0, -1, 257, 65_537, i32::MIN, i32::MAX];

#[track_caller]
fn all(test: &mut TestKernel, code: i32, calls: &[Call]) {
    for &call in calls {
        assert_eq!(test.code(call), code, "{call:?}");
    }
}

#[test]
#[rustfmt::skip]
fn order_2_nobody_runs() {
    for mut test in [nobody_runs(TestKernel::new()), nobody_runs(plain()), nobody_runs(full())] {
        all(&mut test, E_CTX, &[
            Call::ExtTsk,
            // Alone, and with every later order.
            cre_tsk(8), cre_tsk(0), del_tsk(1), del_tsk(0), del_tsk(LAST_TASK), sta_tsk(1),
            sta_tsk(LAST_TASK + 1), sta_tsk(LAST_TASK), ter_tsk(1), ter_tsk(0), ter_tsk(LAST_TASK),
            chg_pri(0, 8), chg_pri(1, LEAST_URGENT + 1), chg_pri(LAST_TASK + 1, 8),
            chg_pri(LAST_TASK, 8), cre_mtx(0, 0), cre_mtx(4, 0), cre_mtx(3, 0), del_mtx(1),
            del_mtx(9), loc_mtx(1, 0), loc_mtx(1, -2), loc_mtx(9, 0), loc_mtx(8, 0), unl_mtx(1),
            unl_mtx(9), cre_mbf(0, 8, 8), cre_mbf(2, 0, 1), cre_mbf(0, -1, 1), cre_mbf(0, 257, 1),
            del_mbf(1), del_mbf(5), snd_mbf(1, 1, 0), snd_mbf(1, 0, 0), snd_mbf(5, 1, 0),
            snd_mbf(1, 1, -2), soiled(1, 1, 0, 1, 1), soiled(5, 1, 0, 31, 1), rcv_mbf(1, 0),
            rcv_mbf(1, -2), rcv_mbf(5, 0), cre_mpf(0, 1, 1), cre_mpf(2, 1, 1),
            cre_mpf(0, MOST_BLOCKS + 1, 1), cre_mpf(0, MOST_BLOCKS, 256), del_mpf(1), del_mpf(5),
            get_mpf(1, 0), get_mpf(1, -2), get_mpf(5, 0), rel_mpf(1, 1), rel_mpf(5, 1),
        ]);
        test.ok(Call::Tick);
    }
}

#[test]
#[rustfmt::skip]
fn order_3_attributes() {
    for mut test in [plain(), full()] {
        for attribute in [-1, 4, 256, i32::MIN, i32::MAX] {
            // Also with order 4 (ceiling, sizes), 9 (in the full one) and 10.
            all(&mut test, E_RSATR, &[cre_mtx(attribute, 1), cre_mtx(attribute, LEAST_URGENT + 1)]);
        }
        for attribute in [-1, 2, 3, 256, 257, i32::MIN, i32::MAX] {
            all(&mut test, E_RSATR, &[
                cre_mbf(attribute, 8, 8), cre_mbf(attribute, -1, 8), cre_mbf(attribute, 8, 33),
                cre_mbf(attribute, 257, 8),
            ]);
        }
        for attribute in [-1, 2, 3, 128, 258, 514, 1024, 1025, 65_536, i32::MIN, i32::MIN + 1] {
            all(&mut test, E_RSATR, &[
                cre_mpf(attribute, 1, 1), cre_mpf(attribute, 0, 1), cre_mpf(attribute, 1, 257),
                cre_mpf(attribute, MOST_BLOCKS, 256),
            ]);
        }
    }
    let mut test = TestKernel::new();
    for attribute in [0, 1, 256, 257, 512, 513, 768, 769] {
        assert_eq!(test.code(cre_mpf(attribute, 1, 1)), 1);
        test.ok(del_mpf(1));
    }
}

#[test]
#[rustfmt::skip]
fn order_4_from_the_call_alone() {
    for mut test in [plain(), full()] {
        for priority in [0, -1, LEAST_URGENT + 1, 257, i32::MIN, i32::MAX] {
            all(&mut test, E_PAR, &[cre_tsk(priority), cre_mtx(3, priority)]);
        }
        for priority in [-1, LEAST_URGENT + 1, 256, i32::MIN, i32::MAX] {
            // With order 5, 6 and 8 as well: task 3 holds a mutex of ceiling 3.
            all(&mut test, E_PAR, &[
                chg_pri(0, priority), chg_pri(3, priority), chg_pri(LAST_TASK + 1, priority),
                chg_pri(-1, priority), chg_pri(9, priority),
            ]);
        }
        for timeout in [-2, -3, i32::MIN] {
            // Mutex 2 is held by the caller, 4 has a ceiling below its base.
            all(&mut test, E_PAR, &[
                loc_mtx(1, timeout), loc_mtx(0, timeout), loc_mtx(8, timeout),
                loc_mtx(2, timeout), loc_mtx(4, timeout), snd_mbf(1, 1, timeout),
                snd_mbf(0, 1, timeout), snd_mbf(4, 1, timeout), snd_mbf(1, 32, timeout),
                rcv_mbf(1, timeout), rcv_mbf(0, timeout), rcv_mbf(4, timeout),
                get_mpf(1, timeout), get_mpf(0, timeout), get_mpf(4, timeout),
            ]);
        }
        for msgsz in [0, -1, i32::MIN] {
            all(&mut test, E_PAR, &[
                snd_mbf(1, msgsz, 0), snd_mbf(0, msgsz, 0), snd_mbf(4, msgsz, 0),
                snd_mbf(1, msgsz, -2),
            ]);
        }
        // With order 9 in the full one, and with order 10.
        all(&mut test, E_PAR, &[
            cre_mbf(0, -1, 8), cre_mbf(0, i32::MIN, 8), cre_mbf(0, 8, 0), cre_mbf(0, 8, 33),
            cre_mbf(0, 8, -1), cre_mbf(1, 257, 33), cre_mbf(1, 257, 0), cre_mpf(0, 0, 256),
            cre_mpf(0, MOST_BLOCKS + 1, 256), cre_mpf(0, MOST_BLOCKS, 0),
            cre_mpf(0, MOST_BLOCKS, 257), cre_mpf(0, -1, -1),
        ]);
    }
}

/// Request Two of 02: every place behind every message, with orders 5, 6, 7 and 11 as well.
#[test]
fn order_4_dirty_tails() {
    for mut test in [plain(), full()] {
        for msgsz in 1..MESSAGE {
            for place in msgsz..MESSAGE {
                for (buffer, byte) in [(1, 1), (2, 0x80), (3, 0xFF), (4, 1), (0, 1), (5, 1)] {
                    for timeout in [0, -1, -2] {
                        let call = soiled(buffer, msgsz as i32, timeout, place, byte);
                        all(&mut test, E_PAR, &[call]);
                    }
                }
            }
        }
        // No zero behind the message; inside it none either, or zeros only.
        for msgsz in 1..MESSAGE as i32 {
            let behind = std::array::from_fn(|i| u8::from(i >= msgsz as usize));
            for bytes in [message(MESSAGE), behind] {
                all(&mut test, E_PAR, &[send(1, msgsz, bytes), send(2, msgsz, bytes)]);
            }
        }
    }
    // The receiver at buffer 2 still waits, and gets the next clean message.
    let mut test = plain();
    all(&mut test, E_PAR, &[soiled(2, 1, 0, 1, 9), soiled(2, 1, 0, 31, 9)]);
    test.ok(snd_mbf(2, 1, 0));
    assert_eq!(test.ended(), [(3, 1)]);
    assert_eq!(test.out.ended[0].got, Got::Message(message(1)));
}

/// Every place inside every message, alone: that is no tail.
#[test]
fn order_4_clean_tails() {
    let mut test = TestKernel::new();
    test.code(cre_mbf(0, 36, 32));
    for msgsz in 1..=MESSAGE {
        let mut messages = vec![[0; MESSAGE], message(msgsz)];
        for place in 0..msgsz {
            messages.push(std::array::from_fn(|i| if i == place { 0xFF } else { 0 }));
        }
        for bytes in messages {
            test.ok(send(1, msgsz as i32, bytes));
            assert_eq!(test.kernel.next_message(1), &bytes[..msgsz]);
            assert_eq!(test.code(rcv_mbf(1, 0)), msgsz as i32);
            assert_eq!(test.out.got, Got::Message(bytes));
        }
    }
}

/// Nothing is behind a msgsz above all bytes: the later orders decide, whatever the bytes are.
#[test]
fn no_tail_behind_more_than_all_bytes() {
    let last = std::array::from_fn(|i| u8::from(i == MESSAGE - 1));
    for msgsz in [33, 34, 257, 65_537, i32::MAX] {
        for bytes in [[0; MESSAGE], [0xFF; MESSAGE], message(1), last] {
            let mut test = plain();
            all(&mut test, E_PAR, &[send(1, msgsz, bytes), send(2, msgsz, bytes)]);
            all(&mut test, E_NOEXS, &[send(3, msgsz, bytes), send(4, msgsz, bytes)]);
            all(&mut test, E_ID, &[send(0, msgsz, bytes), send(5, msgsz, bytes)]);
        }
    }
}

#[test]
#[rustfmt::skip]
fn order_5_numbers() {
    for mut test in [plain(), full()] {
        for n in OUT_OF_RANGE {
            all(&mut test, E_ID, &[
                del_tsk(n), sta_tsk(n), ter_tsk(n), del_mtx(n), loc_mtx(n, 0), unl_mtx(n),
                del_mbf(n), snd_mbf(n, 1, 0), rcv_mbf(n, 0), del_mpf(n), get_mpf(n, 0),
                // With order 7: no buffer takes 33 bytes, no pool has block 0.
                snd_mbf(n, 33, 0), rel_mpf(n, 1), rel_mpf(n, 0),
            ]);
            if n != 0 {
                all(&mut test, E_ID, &[chg_pri(n, 8), chg_pri(n, 0)]);
            }
        }
        let next = |limit: usize| limit as i32 + 1;
        all(&mut test, E_ID, &[
            del_tsk(next(TASKS)), sta_tsk(next(TASKS)), ter_tsk(next(TASKS)),
            chg_pri(next(TASKS), 8), del_mtx(next(MUTEXES)), loc_mtx(next(MUTEXES), 0),
            unl_mtx(next(MUTEXES)), del_mbf(next(BUFFERS)), snd_mbf(next(BUFFERS), 1, 0),
            rcv_mbf(next(BUFFERS), 0), del_mpf(next(POOLS)), get_mpf(next(POOLS), 0),
            rel_mpf(next(POOLS), 1),
        ]);
    }
}

#[test]
#[rustfmt::skip]
fn order_6_no_such_object() {
    let mut test = plain();
    all(&mut test, E_NOEXS, &[
        del_tsk(6), sta_tsk(6), ter_tsk(6), ter_tsk(LAST_TASK), chg_pri(6, 8), chg_pri(6, 0),
        del_mtx(7), loc_mtx(7, -1), loc_mtx(8, 0), unl_mtx(7), del_mbf(3), snd_mbf(3, 1, -1),
        rcv_mbf(4, 0), del_mpf(3), get_mpf(3, -1), rel_mpf(3, 1),
        // With order 7.
        snd_mbf(3, 33, 0), rel_mpf(4, 0),
    ]);
}

#[test]
fn order_7_from_the_object() {
    let mut test = plain();
    // Buffer 1 takes 16 bytes; with a timeout of 0 order 11 applies too.
    for msgsz in [17, 33, 257, i32::MAX] {
        all(&mut test, E_PAR, &[snd_mbf(1, msgsz, -1), snd_mbf(1, msgsz, 0)]);
    }
    // Towards a waiting receiver as well.
    all(&mut test, E_PAR, &[snd_mbf(2, 33, 0)]);
    for block in [0, -1, 2, 3, MOST_BLOCKS + 1, 32, 33, 257, i32::MIN, i32::MAX] {
        all(&mut test, E_PAR, &[rel_mpf(1, block)]);
    }
    // In range but not handed out.
    all(&mut test, E_PAR, &[rel_mpf(2, 1), rel_mpf(2, 2)]);
    test.ok(rel_mpf(1, 1));
    all(&mut test, E_PAR, &[rel_mpf(1, 1)]);
}

#[test]
#[rustfmt::skip]
fn order_8_objects() {
    let mut test = plain();
    all(&mut test, E_OBJ, &[
        del_tsk(1), del_tsk(3), del_tsk(4), del_tsk(5), sta_tsk(1), sta_tsk(3), sta_tsk(4),
        sta_tsk(5), ter_tsk(1), ter_tsk(2),
    ]);
    test.ok(sta_tsk(2));
    all(&mut test, E_OBJ, &[sta_tsk(2), del_tsk(2)]);
    test.ok(ter_tsk(2));
    test.ok(del_tsk(2));
}

#[test]
#[rustfmt::skip]
fn order_8_illegal_use() {
    let mut test = plain();
    all(&mut test, E_ILUSE, &[
        // Held by the caller; with a timeout of 0 it would wait for ever, order 11.
        loc_mtx(2, -1), loc_mtx(2, 0),
        // The base 8 is above the ceiling 9, of a free mutex and of a held one (order 11).
        loc_mtx(4, -1), loc_mtx(4, 0), loc_mtx(5, -1), loc_mtx(5, 0),
        // Free, held by another.
        unl_mtx(1), unl_mtx(3), unl_mtx(5),
        // Above the ceiling of a held mutex (3 holds 6, 4 holds 5) and of an awaited one (5).
        chg_pri(3, 2), chg_pri(3, 1), chg_pri(4, 8), chg_pri(4, 1), chg_pri(5, 8), chg_pri(5, 1),
    ]);
    // As urgent as the ceiling is allowed.
    test.ok(chg_pri(3, 3));
    test.ok(chg_pri(4, 9));
    test.ok(chg_pri(5, 9));
    // The same for the caller, alone.
    test.ok(ter_tsk(5));
    test.ok(ter_tsk(4));
    test.ok(chg_pri(0, 9));
    test.ok(loc_mtx(4, 0));
    all(&mut test, E_ILUSE, &[chg_pri(0, 8), chg_pri(1, 8), chg_pri(0, 0)]);
    test.ok(unl_mtx(4));
    test.ok(chg_pri(0, 0));
    assert_eq!(test.task(1).base, 8);
}

#[test]
#[rustfmt::skip]
fn order_9_every_number_in_use() {
    let mut test = full();
    all(&mut test, E_LIMIT, &[
        cre_tsk(8), cre_mtx(0, 0), cre_mtx(3, 8), cre_mbf(0, 0, 1), cre_mpf(0, 1, 1),
        // With order 10.
        cre_mbf(0, 257, 1), cre_mbf(1, i32::MAX, 32), cre_mpf(0, MOST_BLOCKS, 256),
    ]);
    // The smallest free number is used again.
    test.ok(del_tsk(9));
    test.ok(del_tsk(5));
    assert_eq!(test.code(cre_tsk(1)), 5);
    assert_eq!(test.code(cre_tsk(1)), 9);
    test.ok(del_mtx(8));
    test.ok(del_mtx(2));
    assert_eq!(test.code(cre_mtx(1, 0)), 2);
    test.ok(del_mbf(3));
    assert_eq!(test.code(cre_mbf(1, 256, 32)), 3);
    test.ok(del_mpf(1));
    assert_eq!(test.code(cre_mpf(1, 4, 256)), 1);
}

#[test]
fn order_10_no_memory() {
    let mut test = plain();
    for bufsz in [257, 65_536, i32::MAX] {
        all(&mut test, E_NOMEM, &[cre_mbf(0, bufsz, 32)]);
    }
    assert_eq!(test.code(cre_mbf(0, 256, 32)), 3);
    // The live pools take 192.
    let most = (POOL_BYTES as i32 - 192) / MOST_BLOCKS;
    all(&mut test, E_NOMEM, &[cre_mpf(0, MOST_BLOCKS, 256), cre_mpf(0, MOST_BLOCKS, most + 1)]);
    assert_eq!(test.code(cre_mpf(0, MOST_BLOCKS, most)), 3);
}

#[test]
fn order_11_would_wait() {
    let mut test = plain();
    all(
        &mut test,
        E_TMOUT,
        &[loc_mtx(3, 0), snd_mbf(1, 16, 0), rcv_mbf(1, 0), rcv_mbf(2, 0), get_mpf(1, 0)],
    );
    // With a timeout of 0 but without a wait nothing is refused.
    test.ok(loc_mtx(1, 0));
    test.ok(get_mpf(2, 0));
    test.ok(snd_mbf(2, 32, 0));
    assert_eq!(test.ended(), [(3, 32)]);
}

#[test]
fn order_1_comes_before_all() {
    let calls = [
        Call::Tick,
        Call::ExtTsk,
        cre_tsk(0),
        cre_mtx(4, 0),
        del_tsk(0),
        loc_mtx(1, -2),
        soiled(1, 1, 0, 1, 1),
    ];
    for test in [TestKernel::new(), plain(), nobody_runs(full())] {
        let valid = test.kernel.to_words();
        for call in calls {
            let mut words = valid;
            words[0] = 1;
            let broken = words;
            let mut store = test.kernel.store().to_vec();
            let mut outbox = test.kernel.outbox().to_vec();
            let mut log = [9; LOG];
            let result = run_record(&mut words, &mut store, &mut outbox, &call, &mut log);
            assert_eq!(result, (Answer::Code(E_SYS), 7), "{call:?}");
            assert_eq!(log[..8], [0x80, 0xFB, 0xFF, 0xFF, 0xFF, 0x8F, 0, 9]);
            assert_eq!(words, broken);
            assert_eq!((&store[..], &outbox[..]), (test.kernel.store(), test.kernel.outbox()));
        }
    }
}

#[test]
fn log_area_of_another_length() {
    for length in [0, 1, LOG - 1, LOG + 1, 2 * LOG] {
        let mut words = Kernel::fresh().to_words();
        let before = words;
        let mut log = vec![9; length];
        let result =
            run_record(&mut words, &mut [0; STORE], &mut [0; OUTBOX], &cre_tsk(5), &mut log);
        assert_eq!(result, (Answer::Code(E_SYS), 0));
        assert_eq!(words, before);
        assert!(log.iter().all(|&byte| byte == 9));
    }
}
