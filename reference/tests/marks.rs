//! Every line of "On both sides of the mark".

mod common;

use common::*;
use reference::limits::*;
use reference::number::MutexNo;
use reference::words::{ENDLESS, WORDS};
use reference::{run_record, Answer, Call, Got, Kernel};

#[test]
fn msgsz_below_one() {
    let mut test = TestKernel::new();
    test.code(cre_mbf(0, 256, 32));
    assert_eq!(test.code(snd_mbf(1, -1, -1)), E_PAR);
    assert_eq!(test.code(snd_mbf(1, 0, -1)), E_PAR);
    assert_eq!(test.used(1), 0);
}

#[test]
fn one_byte_costs_eight() {
    let mut test = TestKernel::new();
    test.code(cre_mbf(0, 256, 32));
    test.ok(snd_mbf(1, 1, -1));
    assert_eq!(test.used(1), 8);
    assert_eq!(test.kernel.store()[..8], [1, 0, 0, 0, 1, 0, 0, 0]);
    assert!(test.kernel.store()[8..].iter().all(|&byte| byte == 0));
    for (length, cost) in [(4, 8), (5, 12), (28, 32), (29, 36), (32, 36)] {
        let before = test.used(1);
        test.ok(snd_mbf(1, length, -1));
        assert_eq!(test.used(1) - before, cost, "{length}");
    }
}

#[test]
fn seven_of_thirty_two_bytes_fit_in_256() {
    let mut test = TestKernel::new();
    test.start(8);
    test.code(cre_mbf(0, 256, 32));
    for stored in 1..=7 {
        test.ok(snd_mbf(1, 32, -1));
        assert_eq!(test.used(1), stored * 36);
    }
    assert_eq!(test.code(snd_mbf(1, 32, 0)), E_TMOUT);
    test.waits(snd_mbf(1, 32, -1));
    assert_eq!(test.kernel.outbox()[..32], message(32));
    // A receive by task 2 makes room for it.
    assert_eq!(test.code(rcv_mbf(1, 0)), 32);
    assert_eq!(test.out.got, Got::Message(message(32)));
    assert_eq!(test.ended(), [(1, E_OK)]);
    assert_eq!(test.used(1), 252);
    assert!(test.kernel.outbox().iter().all(|&byte| byte == 0));
}

#[test]
fn bufsz_35_waits_for_a_receiver_and_36_stores() {
    let mut test = TestKernel::new();
    test.start(8);
    test.code(cre_mbf(0, 35, 32));
    test.code(cre_mbf(0, 36, 32));
    test.ok(snd_mbf(2, 32, -1));
    assert_eq!(test.used(2), 36);
    test.waits(snd_mbf(1, 32, -1));
    test.uneventful_ticks(3);
    assert_eq!(test.code(rcv_mbf(1, -1)), 32);
    assert_eq!(test.out.got, Got::Message(message(32)));
    assert_eq!(test.ended(), [(1, E_OK)]);
    // The shorter one fits.
    test.ok(snd_mbf(1, 28, -1));
}

#[test]
fn bufsz_zero_always_hands_over() {
    let mut test = TestKernel::new();
    test.start(8);
    test.code(cre_mbf(0, 0, 32));
    assert_eq!(test.code(snd_mbf(1, 1, 0)), E_TMOUT);
    test.waits(snd_mbf(1, 1, -1));
    assert_eq!(test.code(rcv_mbf(1, -1)), 1);
    assert_eq!(test.ended(), [(1, E_OK)]);
    // Now the receiver is first.
    test.waits(rcv_mbf(1, -1));
    test.ok(snd_mbf(1, 3, 0));
    assert_eq!(test.ended(), [(2, 3)]);
    assert_eq!(test.out.ended[0].got, Got::Message(message(3)));
    assert_eq!(test.used(1), 0);
}

#[test]
fn maxmsz_32_and_33() {
    let mut test = TestKernel::new();
    assert_eq!(test.code(cre_mbf(0, 256, 32)), 1);
    assert_eq!(test.code(cre_mbf(0, 256, 33)), E_PAR);
    assert_eq!(test.code(cre_mbf(0, 256, 1)), 2);
    assert_eq!(test.code(cre_mbf(0, 256, 0)), E_PAR);
    assert_eq!(test.code(cre_mbf(0, 256, -1)), E_PAR);
}

#[test]
fn timeout_minus_one_waits_and_minus_two_is_refused() {
    let mut test = TestKernel::new();
    test.code(cre_mbf(0, 0, 32));
    test.code(cre_mpf(0, 1, 1));
    test.ok(get_mpf(1, -1));
    test.code(cre_mtx(0, 0));
    test.ok(loc_mtx(1, -1));
    let other = test.start(8);
    for timeout in [-2, -3, i32::MIN] {
        assert_eq!(test.code(snd_mbf(1, 1, timeout)), E_PAR);
        assert_eq!(test.code(rcv_mbf(1, timeout)), E_PAR);
        assert_eq!(test.code(get_mpf(1, timeout)), E_PAR);
        assert_eq!(test.code(loc_mtx(1, timeout)), E_PAR);
    }
    test.rotate_to(other);
    for call in [loc_mtx(1, -1), rcv_mbf(1, -1), get_mpf(1, -1), snd_mbf(1, 1, -1)] {
        let mut test = TestKernel::new();
        test.code(cre_mbf(0, 0, 32));
        test.code(cre_mpf(0, 1, 1));
        test.ok(get_mpf(1, -1));
        test.code(cre_mtx(0, 0));
        test.ok(loc_mtx(1, -1));
        let other = test.start(8);
        test.rotate_to(other);
        test.waits(call);
        test.uneventful_ticks(100);
        assert_eq!(test.task(other).left, ENDLESS);
    }
}

#[test]
fn ceilings() {
    let mut test = TestKernel::new();
    assert_eq!(test.code(cre_mtx(3, LEAST_URGENT)), 1);
    assert_eq!(test.code(cre_mtx(3, 1)), 2);
    assert_eq!(test.code(cre_mtx(3, LEAST_URGENT + 1)), E_PAR);
    assert_eq!(test.code(cre_mtx(3, 0)), E_PAR);
    for attribute in 0..=2 {
        let ceiling = [LEAST_URGENT + 1, 0, i32::MIN][attribute as usize];
        let mutex = test.code(cre_mtx(attribute, ceiling));
        assert_eq!(mutex, attribute + 3);
        assert_eq!(test.kernel.mutex(MutexNo::new(mutex).unwrap()).unwrap().ceiling, 0);
    }
}

#[test]
fn a_short_message_waits_behind_a_long_one() {
    let mut test = TestKernel::new();
    let a = test.start(8);
    let b = test.start(8);
    test.code(cre_mbf(0, 40, 32));
    // Cost 20 of 40: 20 are free.
    test.ok(snd_mbf(1, 16, -1));
    assert_eq!(test.used(1), 20);
    test.rotate_to(a);
    test.waits(snd_mbf(1, 28, -1));
    test.rotate_to(b);
    test.waits(snd_mbf(1, 4, -1));
    assert_eq!(test.used(1), 20);
    // With the first message gone A's fits (32 of 40), then B's (8 of 40).
    assert_eq!(test.code(rcv_mbf(1, -1)), 16);
    assert_eq!(test.ended(), [(a, E_OK), (b, E_OK)]);
    assert_eq!(test.used(1), 40);
}

/// A (12) holds 1, B (8) holds 2 and waits for 1, C (3) waits for 2.
fn chain() -> (TestKernel, [i32; 3]) {
    let mut test = TestKernel::new();
    test.code(cre_mtx(2, 0));
    test.code(cre_mtx(2, 0));
    let a = test.start(12);
    let b = test.start(8);
    test.as_task(a, |test| test.ok(loc_mtx(1, -1)));
    test.rotate_to(b);
    test.ok(loc_mtx(2, -1));
    test.waits(loc_mtx(1, -1));
    assert_eq!((test.current(a), test.current(b)), (8, 8));
    let c = test.start(3);
    assert_eq!(test.running(), c);
    test.waits(loc_mtx(2, 3));
    (test, [a, b, c])
}

#[test]
fn chain_raises() {
    let (test, [a, b, c]) = chain();
    assert_eq!((test.current(a), test.current(b), test.current(c)), (3, 3, 3));
    assert_eq!(test.running(), a);
}

#[test]
fn chain_falls_with_the_timeout() {
    let (mut test, [a, b, c]) = chain();
    test.uneventful_ticks(2);
    assert_eq!(test.current(a), 3);
    test.ok(Call::Tick);
    assert_eq!(test.ended(), [(c, E_TMOUT)]);
    assert_eq!((test.current(a), test.current(b), test.current(c)), (8, 8, 3));
}

/// A (12) holds 1 and waits for 2, B (8) the reverse; C (2) waits for 1.
fn circle() -> (TestKernel, [i32; 3]) {
    let mut test = TestKernel::new();
    test.code(cre_mtx(2, 0));
    test.code(cre_mtx(2, 0));
    let a = test.start(12);
    let b = test.start(8);
    test.as_task(b, |test| test.ok(loc_mtx(2, -1)));
    test.ok(chg_pri(a, 1));
    test.ok(loc_mtx(1, -1));
    test.waits(loc_mtx(2, -1));
    test.ok(chg_pri(a, 12));
    test.rotate_to(b);
    test.waits(loc_mtx(1, -1));
    (test, [a, b, 0])
}

#[test]
fn circle_of_two() {
    let (test, [a, b, _]) = circle();
    assert_eq!((test.current(a), test.current(b)), (8, 8));
}

#[test]
fn circle_raised_from_outside_and_back() {
    let (mut test, [a, b, _]) = circle();
    let c = test.start(2);
    test.waits(loc_mtx(1, 2));
    assert_eq!((test.current(a), test.current(b)), (2, 2));
    test.uneventful_ticks(1);
    test.ok(Call::Tick);
    assert_eq!(test.ended(), [(c, E_TMOUT)]);
    assert_eq!((test.current(a), test.current(b), test.current(c)), (8, 8, 2));
}

#[test]
fn unlocking_anothers_mutex() {
    let mut test = TestKernel::new();
    test.code(cre_mtx(0, 0));
    test.ok(loc_mtx(1, -1));
    let other = test.start(1);
    assert_eq!(test.running(), other);
    assert_eq!(test.code(unl_mtx(1)), E_ILUSE);
}

#[test]
fn areas_of_other_lengths() {
    for (store, outbox, answer) in [
        (STORE, OUTBOX, E_OK),
        (STORE - 1, OUTBOX, E_SYS),
        (STORE + 1, OUTBOX, E_SYS),
        (STORE, OUTBOX - 1, E_SYS),
        (STORE, OUTBOX + 1, E_SYS),
        (0, 0, E_SYS),
    ] {
        let mut words = Kernel::fresh().to_words();
        let mut log = [7; LOG];
        let result = run_record(
            &mut words,
            &mut vec![0; store],
            &mut vec![0; outbox],
            &Call::Tick,
            &mut log,
        );
        assert_eq!(result, (Answer::Code(answer), 7));
        assert_eq!(log[7..], [7; LOG - 7]);
        if answer == E_SYS {
            assert_eq!(log[..7], [0x80, 0xFB, 0xFF, 0xFF, 0xFF, 0x8F, 0]);
        } else {
            assert_eq!(log[..7], [0x80, 0, 0, 0, 0, 0x8F, 1]);
        }
        assert_eq!(words, Kernel::fresh().to_words());
    }
    // A state of another length likewise.
    let mut log = [0; LOG];
    let mut words = [0; WORDS - 1];
    let result = run_record(&mut words, &mut [0; STORE], &mut [0; OUTBOX], &Call::Tick, &mut log);
    assert_eq!(result, (Answer::Code(E_SYS), 7));
}
