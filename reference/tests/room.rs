//! "How much is missing?": the number of bytes over or lacking itself, what the board shows of it, and
//! how sends and the look at the end of each call go by it. All numbers are worked out by hand: a
//! message of 1 to 4 bytes costs 8, of 5 to 8 bytes 12, and so on, of 25 to 28 bytes 32, of 29 to 32
//! bytes 36.

mod common;

use common::*;
use reference::board::{ref_mbf, BufferRow};
use reference::clauses::Clause;
use reference::lent_state::State;
use reference::limits::*;
use reference::words::at;
use reference::{Answer, Call};

#[test]
fn the_number() {
    for (bufsz, used, length, expected) in [
        (7, 0, 4, -1),
        (8, 0, 4, 0),
        (9, 0, 4, 1),
        (8, 0, 5, -4),
        (256, 0, 32, 220),
        (256, 220, 32, 0),
        (256, 256, 32, -36),
        // Words that no kernel has.
        (1 << 31, 0, 4, 2_147_483_640),
        (0, 1 << 31, 4, -2_147_483_656),
        (u32::MAX, 0, 1, 4_294_967_287),
        (0, u32::MAX, 32, -4_294_967_331),
        (u32::MAX, u32::MAX, 32, -36),
        (0, 0, u32::MAX as usize, -4_294_967_300),
    ] {
        assert_eq!(room(bufsz, used, length), expected, "{bufsz} {used} {length}");
    }
}

/// What the board shows of buffer 1: the room for a message of maxmsz bytes.
#[track_caller]
fn shown(test: &TestKernel) -> i32 {
    let State { words, store, outbox } = State::of(&test.kernel);
    let mut rows = [BufferRow::default(); BUFFERS];
    assert_eq!(ref_mbf(&words, &store, &outbox, &mut rows), E_OK);
    rows[0].room
}

/// maxmsz, and with each bufsz the room for so many bytes in the empty buffer: among them those where
/// a byte is lacking, where it fits exactly and where a byte is over.
const EMPTY: [(i32, [(i32, i32); 7]); 7] = [
    (1, [(0, -8), (7, -1), (8, 0), (9, 1), (35, 27), (36, 28), (256, 248)]),
    (4, [(0, -8), (7, -1), (8, 0), (9, 1), (35, 27), (36, 28), (256, 248)]),
    (5, [(0, -12), (11, -1), (12, 0), (13, 1), (35, 23), (36, 24), (256, 244)]),
    (28, [(0, -32), (31, -1), (32, 0), (33, 1), (35, 3), (36, 4), (256, 224)]),
    (29, [(0, -36), (32, -4), (35, -1), (36, 0), (37, 1), (40, 4), (256, 220)]),
    (31, [(0, -36), (32, -4), (35, -1), (36, 0), (37, 1), (40, 4), (256, 220)]),
    (32, [(0, -36), (32, -4), (35, -1), (36, 0), (37, 1), (40, 4), (256, 220)]),
];

#[test]
fn in_an_empty_buffer() {
    for (length, rooms) in EMPTY {
        for (bufsz, room) in rooms {
            let mut test = TestKernel::new();
            assert_eq!(test.code(cre_mbf(0, bufsz, length)), 1);
            assert_eq!(shown(&test), room, "{bufsz} {length}");
            send(&mut test, length, room);
        }
    }
}

/// Sends so many bytes to an empty buffer with this room for them: stored, or the sender waits.
#[track_caller]
fn send(test: &mut TestKernel, length: i32, room: i32) {
    if room >= 0 {
        test.ok(snd_mbf(1, length, 0));
        assert_eq!(i32::from(test.kernel.store()[0]), length);
        return;
    }
    assert_eq!(test.code(snd_mbf(1, length, 0)), E_TMOUT);
    test.waits(snd_mbf(1, length, -1));
    assert_eq!(test.kernel.store()[0], 0);
    // What waits takes nothing of the room.
    assert_eq!(shown(test), room);
}

/// bufsz, the lengths of what is stored, the room for 32 bytes, and the longest message for which
/// there is room; 0 if there is room for none.
const USED: [(i32, &[i32], i32, i32); 23] = [
    (0, &[], -36, 0),
    (7, &[], -29, 0),
    (8, &[], -28, 4),
    (31, &[], -5, 24),
    (32, &[], -4, 28),
    (35, &[], -1, 28),
    (36, &[], 0, 32),
    (37, &[], 1, 32),
    (256, &[], 220, 32),
    // Partly used.
    (35, &[1], -9, 20),
    (36, &[1], -8, 24),
    (36, &[4], -8, 24),
    (36, &[5], -12, 20),
    (256, &[32, 32, 32, 32, 32, 32], 4, 32),
    (253, &[32, 32, 32, 32, 32, 32], 1, 32),
    (256, &[32, 32, 32, 32, 32, 28, 4], 0, 32),
    (255, &[32, 32, 32, 32, 32, 28, 4], -1, 28),
    (256, &[28, 28, 28, 28, 28, 28, 28], -4, 28),
    (256, &[28, 28, 28, 28, 28, 28, 28, 20], -28, 4),
    (256, &[32, 32, 32, 32, 32, 32, 32], -32, 0),
    // Wholly used.
    (36, &[29], -36, 0),
    (256, &[28, 28, 28, 28, 28, 28, 28, 28], -36, 0),
    (256, &[32, 32, 32, 32, 32, 28, 4, 31], -36, 0),
];

/// A buffer of maxmsz 32 with these messages stored.
fn storing(bufsz: i32, stored: &[i32]) -> TestKernel {
    let mut test = TestKernel::new();
    assert_eq!(test.code(cre_mbf(0, bufsz, 32)), 1);
    for &length in stored {
        test.ok(snd_mbf(1, length, 0));
    }
    test
}

/// A send goes by the room for its own length, the board by that for maxmsz.
#[test]
fn every_length_beside_stored_messages() {
    for (bufsz, stored, room, longest) in USED {
        for length in 1..=32 {
            let mut test = storing(bufsz, stored);
            assert_eq!(shown(&test), room, "{bufsz} {stored:?}");
            let fits = length <= longest;
            let code = test.code(snd_mbf(1, length, 0));
            assert_eq!(code, if fits { E_OK } else { E_TMOUT }, "{bufsz} {stored:?} {length}");
            let answer = storing(bufsz, stored).run(snd_mbf(1, length, -1));
            let expected = if fits { Answer::Code(E_OK) } else { Answer::Waits };
            assert_eq!(answer, expected, "{bufsz} {stored:?} {length}");
        }
    }
}

/// Of a first sender that waits with maxmsz bytes, and a receive that frees 8: bufsz, the room before,
/// the room after the look at the end of the receive, and whether the message is stored there.
type Look = (i32, i32, i32, bool);

/// maxmsz, and looks. Where the room is -4 or -1 after the receive, the sender waits on; where it is 0
/// or 1, its message takes of it what it costs.
const LOOKS: [(i32, [Look; 4]); 5] = [
    (5, [(16, -12, -4, false), (19, -9, -1, false), (20, -8, -12, true), (21, -7, -11, true)]),
    (28, [(36, -12, -4, false), (39, -9, -1, false), (40, -8, -32, true), (41, -7, -31, true)]),
    (29, [(40, -12, -4, false), (43, -9, -1, false), (44, -8, -36, true), (45, -7, -35, true)]),
    (31, [(40, -12, -4, false), (43, -9, -1, false), (44, -8, -36, true), (45, -7, -35, true)]),
    (32, [(40, -12, -4, false), (43, -9, -1, false), (44, -8, -36, true), (45, -7, -35, true)]),
];

/// Two messages of 4 bytes are stored, task 1 waits with maxmsz bytes, and another task runs.
#[track_caller]
fn first_sender_waits(bufsz: i32, maxmsz: i32, room: i32) -> TestKernel {
    let mut test = TestKernel::new();
    test.start(8);
    test.code(cre_mbf(0, bufsz, maxmsz));
    test.ok(snd_mbf(1, 4, 0));
    test.ok(snd_mbf(1, 4, 0));
    assert_eq!(shown(&test), room, "{bufsz} {maxmsz}");
    test.waits(snd_mbf(1, maxmsz, -1));
    assert_eq!(shown(&test), room, "{bufsz} {maxmsz}");
    test
}

#[test]
fn the_look_after_a_receive() {
    let served: &[(i32, i32)] = &[(1, E_OK)];
    for (length, looks) in LOOKS {
        for (bufsz, before, after, stored) in looks {
            let mut test = first_sender_waits(bufsz, length, before);
            let (now, later) = if stored { (served, &[][..]) } else { (&[][..], served) };
            assert_eq!(test.code(rcv_mbf(1, 0)), 4);
            assert_eq!((test.ended(), shown(&test)), (now.to_vec(), after), "{bufsz} {length}");
            // The next one frees 8 more: enough, if the sender still waits.
            assert_eq!(test.code(rcv_mbf(1, 0)), 4);
            assert_eq!(test.ended(), later, "{bufsz} {length}");
            assert_eq!(test.code(rcv_mbf(1, 0)), length);
        }
    }
}

/// Room is not all: with a first sender a shorter message waits behind it, however much is over.
#[test]
fn room_behind_a_first_sender() {
    let mut test = TestKernel::new();
    let receiver = test.start(8);
    let b = test.start(8);
    test.code(cre_mbf(0, 40, 28));
    test.ok(snd_mbf(1, 4, 0));
    test.ok(snd_mbf(1, 4, 0));
    // 24 are free: 8 are lacking for 28 bytes; for 4 bytes 16 would be over.
    test.waits(snd_mbf(1, 28, -1));
    test.rotate_to(b);
    test.waits(snd_mbf(1, 4, -1));
    assert_eq!((test.running(), shown(&test)), (receiver, -8));
    // 32 are free: the first fits exactly, and 8 are lacking for the second.
    assert_eq!(test.code(rcv_mbf(1, 0)), 4);
    assert_eq!((test.ended(), shown(&test)), (vec![(1, E_OK)], -32));
    test.rotate_to(receiver);
    // 8 are free: the second fits exactly.
    assert_eq!(test.code(rcv_mbf(1, 0)), 4);
    assert_eq!((test.ended(), shown(&test)), (vec![(b, E_OK)], -32));
}

/// Senders by priority: 32 bytes are stored, which take 36 of bufsz, and a first sender waits with as
/// many. Then a more urgent one sends: bufsz, its length, and whether it is stored.
const URGENT: [(i32, i32, bool); 6] =
    [(43, 4, false), (44, 4, true), (45, 4, true), (44, 5, false), (47, 5, false), (48, 5, true)];

#[test]
fn room_before_a_first_sender() {
    for (bufsz, length, stored) in URGENT {
        let mut test = TestKernel::new();
        test.code(cre_mbf(1, bufsz, 32));
        test.ok(snd_mbf(1, 32, 0));
        test.start(7);
        test.waits(snd_mbf(1, 32, -1));
        test.start(6);
        let answer = test.run(snd_mbf(1, length, -1));
        let expected = if stored { Answer::Code(E_OK) } else { Answer::Waits };
        assert_eq!(answer, expected, "{bufsz} {length}");
    }
}

/// The look comes at the end of each call, not of receives alone: a first sender of 29 bytes times
/// out, and the next one has 28, which cost 32.
#[test]
fn the_look_after_a_tick() {
    for (bufsz, before, after, stored) in
        [(31, -5, -5, false), (32, -4, -36, true), (33, -3, -35, true)]
    {
        let mut test = TestKernel::new();
        let next = test.start(8);
        test.code(cre_mbf(0, bufsz, 29));
        test.waits(snd_mbf(1, 29, 1));
        test.waits(snd_mbf(1, 28, -1));
        assert_eq!(shown(&test), before, "{bufsz}");
        test.ok(Call::Tick);
        let ended = [(1, E_TMOUT), (next, E_OK)];
        assert_eq!(test.ended(), ended[..if stored { 2 } else { 1 }], "{bufsz}");
        assert_eq!(shown(&test), after, "{bufsz}");
    }
}

/// "no first sender that fits": bufsz, the bytes used and the sender's length, as words of a lent
/// state, and whether the clause fails. Words out of their range fail clauses of their own.
const WORDS_OF_A_SENDER: [(u32, u32, u32, bool); 13] = [
    (35, 0, 32, false),
    (36, 0, 32, true),
    (36, 0, 29, true),
    (35, 0, 28, true),
    (31, 0, 28, false),
    (1 << 31, 0, 32, true),
    (u32::MAX, 0, 32, true),
    (u32::MAX, u32::MAX - 36, 32, true),
    (u32::MAX, u32::MAX - 35, 32, false),
    (u32::MAX, u32::MAX, 32, false),
    (0, u32::MAX, 32, false),
    (u32::MAX, 0, 0, false),
    (u32::MAX, 0, u32::MAX, false),
];

#[test]
fn in_states_that_no_kernel_made() {
    let mut test = storing(35, &[]);
    test.waits(snd_mbf(1, 32, -1));
    let good = State::of(&test.kernel);
    for (bufsz, used, length, fails) in WORDS_OF_A_SENDER {
        let mut lent = good.clone();
        lent.words[at::BUFSZ + 1] = bufsz;
        lent.words[at::USED + 1] = used;
        lent.words[at::ARGUMENT + 1] = length;
        lent.outbox[length.min(32) as usize..].fill(0);
        let failing = lent.failing();
        assert_eq!(failing.contains(&Clause::SenderFits), fails, "{bufsz} {used} {length}");
        assert_eq!(lent.is_valid(), failing.is_empty(), "{bufsz} {used} {length}");
        let in_range = bufsz <= 256 && used <= bufsz && (1..=32).contains(&length);
        assert_eq!(lent.is_valid(), in_range && !fails, "{bufsz} {used} {length}");
    }
}
