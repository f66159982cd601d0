//! Scripts and logs as bytes.

mod common;

use common::*;
use reference::limits::*;
use reference::random::Random;
use reference::record::{body_length, KINDS};
use reference::selfcheck::self_check;
use reference::{run_script, Call};

const TICK_LOG: [u8; 7] = [0x80, 0, 0, 0, 0, 0x8F, 1];

#[test]
fn whole_example() {
    let script = [0x40, 0x32, 1, 0, 0, 0, 0, 0, 0, 0, 0x22];
    let log =
        [0x80, 0, 0, 0, 0, 0x8F, 1, 0x80, 0xD6, 0xFF, 0xFF, 0xFF, 0x8F, 1, 0x8E, 0x0A, 0, 0, 0];
    assert_eq!(run_script(&script), log);
}

#[test]
fn empty_script() {
    assert_eq!(run_script(&[]), []);
}

#[test]
fn longest_script_and_one_byte_more() {
    let log = run_script(&[0x40; SCRIPT]);
    assert_eq!(log.len(), SCRIPT * TICK_LOG.len());
    assert!(log.chunks(TICK_LOG.len()).all(|record| record == TICK_LOG));
    assert_eq!(run_script(&[0x40; SCRIPT + 1]), [0x8D]);
    assert_eq!(run_script(&[0xFF; SCRIPT + 1]), [0x8D]);
    // The last byte of the longest script is a cut record.
    let last = SCRIPT - 1;
    let mut script = [0x40; SCRIPT];
    script[last] = 0x01;
    let log = run_script(&script);
    assert_eq!(log[last * TICK_LOG.len()], 0x8E);
    assert_eq!(log[last * TICK_LOG.len() + 1..], (last as u32).to_le_bytes());
}

#[test]
fn unknown_kinds() {
    let mut unknown = 0;
    for kind in 0..=255 {
        if body_length(kind).is_some() {
            continue;
        }
        unknown += 1;
        // What follows is not read, however it looks.
        let mut expected = TICK_LOG.to_vec();
        expected.extend([0x8E, 1, 0, 0, 0]);
        assert_eq!(run_script(&[0x40, kind, 0x40, 0x40]), expected, "{kind:#x}");
        assert_eq!(run_script(&[kind]), [0x8E, 0, 0, 0, 0], "{kind:#x}");
    }
    assert_eq!(unknown, 256 - KINDS.len());
}

#[test]
fn kinds_and_lengths() {
    let table = [
        (0x01, 4),
        (0x02, 4),
        (0x03, 4),
        (0x04, 0),
        (0x05, 4),
        (0x06, 8),
        (0x10, 8),
        (0x11, 4),
        (0x12, 8),
        (0x13, 4),
        (0x20, 12),
        (0x21, 4),
        (0x22, 44),
        (0x23, 8),
        (0x30, 12),
        (0x31, 4),
        (0x32, 8),
        (0x33, 8),
        (0x40, 0),
    ];
    for (kind, length) in table {
        assert_eq!(body_length(kind), Some(length));
    }
    assert_eq!((0..=255).filter(|&kind| body_length(kind).is_some()).count(), table.len());
}

/// Fills every field of each kind with what makes a call that answers at once.
fn one_of_each() -> Vec<Call> {
    vec![
        cre_tsk(9),
        del_tsk(5),
        sta_tsk(5),
        Call::ExtTsk,
        ter_tsk(5),
        chg_pri(0, 8),
        cre_mtx(2, 0),
        del_mtx(1),
        loc_mtx(1, -1),
        unl_mtx(1),
        cre_mbf(0, 8, 4),
        del_mbf(1),
        snd_mbf(1, 4, -1),
        rcv_mbf(1, 0),
        cre_mpf(0, 1, 1),
        del_mpf(1),
        get_mpf(1, -1),
        rel_mpf(1, 1),
        Call::Tick,
    ]
}

#[test]
fn every_cut_of_each_kind() {
    for (call, (kind, name, length)) in one_of_each().into_iter().zip(KINDS) {
        let record = script(&[call]);
        assert_eq!((record[0], record.len()), (kind, 1 + length), "{name}");
        let mut whole = vec![0x40, 0x40];
        whole.extend(&record);
        let full = run_script(&whole);
        assert!(full.len() >= 2 * TICK_LOG.len() + 3, "{name}");
        assert_ne!(full[full.len() - 5], 0x8E, "{name}");
        for cut in 1..record.len() {
            let mut expected = [TICK_LOG, TICK_LOG].concat();
            expected.extend([0x8E, 2, 0, 0, 0]);
            assert_eq!(run_script(&whole[..2 + cut]), expected, "{name} cut to {cut}");
            assert_eq!(run_script(&record[..cut]), [0x8E, 0, 0, 0, 0], "{name} cut to {cut}");
        }
    }
}

#[test]
fn calls_are_read_as_written() {
    let mut random = Random::new(5);
    for _ in 0..2000 {
        let (kind, name, length) = KINDS[random.below(KINDS.len())];
        let mut record = vec![kind];
        record.extend((0..length).map(|_| random.word() as u8));
        let (call, read) = reference::record::read(&record).unwrap();
        assert_eq!((read, call.name(), call.kind()), (record.len(), name, kind));
        assert_eq!(script(&[call]), record);
    }
}

/// One script with every mark of the log.
#[test]
fn every_mark_of_the_log() {
    let log = run_script(&script(&[
        cre_tsk(5),         // 2
        cre_mbf(0, 0, 8),   // 1
        cre_mpf(256, 1, 4), // 1
        get_mpf(1, 0),      // block 1
        sta_tsk(2),         // 2 runs
        rcv_mbf(1, -1),     // 2 waits, 1 runs
        snd_mbf(1, 3, 0),   // to 2
        get_mpf(1, 7),      // 2 waits, 1 runs
        rel_mpf(1, 1),      // block 1 to 2
        snd_mbf(1, 8, 1),   // 2 waits, 1 runs
        rcv_mbf(1, 0),      // from 2
        Call::ExtTsk,       // 2 ends
        Call::ExtTsk,       // 1 ends
        Call::Tick,
        Call::ExtTsk,
    ]));
    let mut expected = Vec::new();
    expected.extend([0x80, 2, 0, 0, 0, 0x8F, 1]);
    expected.extend([0x80, 1, 0, 0, 0, 0x8F, 1]);
    expected.extend([0x80, 1, 0, 0, 0, 0x8F, 1]);
    expected.extend([0x80, 0, 0, 0, 0, 0x85, 1, 1, 0, 0, 0, 0x8F, 1]);
    expected.extend([0x80, 0, 0, 0, 0, 0x8F, 2]);
    expected.extend([0x81, 0x8F, 1]);
    expected.extend([0x80, 0, 0, 0, 0, 0x83, 2, 3, 0, 0, 0, 0x84, 2]);
    expected.extend(message(3));
    expected.extend([0x8F, 2]);
    expected.extend([0x81, 0x8F, 1]);
    expected.extend([0x80, 0, 0, 0, 0, 0x83, 2, 0, 0, 0, 0, 0x85, 2, 1, 0, 0, 0, 0x8F, 2]);
    expected.extend([0x81, 0x8F, 1]);
    expected.extend([0x80, 8, 0, 0, 0, 0x84, 1]);
    expected.extend(message(8));
    expected.extend([0x83, 2, 0, 0, 0, 0, 0x8F, 2]);
    expected.extend([0x82, 0x8F, 1]);
    expected.extend([0x82, 0x8F, 0]);
    expected.extend([0x80, 0, 0, 0, 0, 0x8F, 0]);
    expected.extend([0x80, 0xE7, 0xFF, 0xFF, 0xFF, 0x8F, 0]);
    assert_eq!(log, expected);
}

#[test]
fn garbage_of_any_bytes() {
    let mut random = Random::new(1);
    for round in 0..20_000 {
        let length = random.below(120);
        let mut bytes: Vec<u8> = (0..length).map(|_| random.word() as u8).collect();
        if let (true, Some(first)) = (round % 2 == 0, bytes.first_mut()) {
            *first = KINDS[random.below(KINDS.len())].0;
        }
        let log = run_script(&bytes);
        assert!(log.len() <= bytes.len() * LOG + 5);
        self_check(&bytes).unwrap();
    }
}

/// Known kinds with any bodies: fields of any size, but more often small ones.
#[test]
fn garbage_in_the_fields() {
    let mut random = Random::new(2);
    for _ in 0..2_000 {
        let mut bytes = Vec::new();
        for _ in 0..random.below(60) {
            let (kind, _, length) = KINDS[random.below(KINDS.len())];
            bytes.push(kind);
            let zeros = random.percent(50);
            for i in 0..length / 4 {
                let field = match random.below(4) {
                    0 => random.word() as i32,
                    1 => random.between(-3, 40),
                    _ => random.between(0, 4),
                };
                // Half of the sends have zeros for bytes, so that not all are refused for their tail.
                let field = if zeros && i > 2 { 0 } else { field };
                bytes.extend(field.to_le_bytes());
            }
        }
        self_check(&bytes).unwrap();
    }
}
