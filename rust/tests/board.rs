//! The status board held against document 02: what the rows hold, which are written, and what is refused.

use std::mem::{offset_of, size_of};

use shinepod::board::{BufferRow, MutexRow, PoolRow, TaskRow};
use shinepod::numbers::*;
use shinepod::{Kernel, Outcome};

/// The four tables.
#[derive(Clone, PartialEq, Debug)]
struct Tables {
    tasks: Vec<TaskRow>,
    mutexes: Vec<MutexRow>,
    buffers: Vec<BufferRow>,
    pools: Vec<PoolRow>,
}

/// A row for each number.
const ENOUGH: [usize; 4] = [TASKS as usize, MUTEXES as usize, BUFFERS as usize, POOLS as usize];

/// What rows hold before: no field of a row ever does.
const OLD: u32 = 0xA5A5_A5A5;
const OLD_TASK: TaskRow =
    TaskRow { state: OLD, base: OLD, current: OLD, kind: OLD, object: OLD, left: OLD as i32 };
const OLD_MUTEX: MutexRow = MutexRow { holder: OLD, waiter: OLD };
const OLD_BUFFER: BufferRow =
    BufferRow { free: OLD, room: OLD as i32, next: OLD, receiver: OLD, sender: OLD };
const OLD_POOL: PoolRow = PoolRow { free: OLD, waiter: OLD };

impl Tables {
    fn old([tasks, mutexes, buffers, pools]: [usize; 4]) -> Tables {
        Tables {
            tasks: vec![OLD_TASK; tasks],
            mutexes: vec![OLD_MUTEX; mutexes],
            buffers: vec![OLD_BUFFER; buffers],
            pools: vec![OLD_POOL; pools],
        }
    }

    /// The four functions over any slices.
    fn show(&mut self, state: &[u32], store: &[u8], outbox: &[u8]) -> [Result<(), i32>; 4] {
        [
            shinepod::ref_tsk(state, store, outbox, &mut self.tasks),
            shinepod::ref_mtx(state, store, outbox, &mut self.mutexes),
            shinepod::ref_mbf(state, store, outbox, &mut self.buffers),
            shinepod::ref_mpf(state, store, outbox, &mut self.pools),
        ]
    }

    /// The four of a kernel.
    fn show_kernel(&mut self, kernel: &Kernel) -> [Result<(), i32>; 4] {
        [
            kernel.ref_tsk(&mut self.tasks),
            kernel.ref_mtx(&mut self.mutexes),
            kernel.ref_mbf(&mut self.buffers),
            kernel.ref_mpf(&mut self.pools),
        ]
    }

    #[track_caller]
    fn of(kernel: &Kernel) -> Tables {
        let mut tables = Tables::old(ENOUGH);
        assert_eq!(tables.show_kernel(kernel), [Ok(()); 4]);
        tables
    }
}

#[test]
fn rows_have_the_sizes_that_c_has() {
    assert_eq!([size_of::<TaskRow>(), size_of::<MutexRow>()], [24, 8]);
    assert_eq!([size_of::<BufferRow>(), size_of::<PoolRow>()], [20, 8]);
    assert_eq!([offset_of!(BufferRow, room), offset_of!(BufferRow, next)], [4, 8]);
}

#[test]
fn of_the_fresh_kernel_one_row_is_written() {
    let mut expected = Tables::old(ENOUGH);
    expected.tasks[0] =
        TaskRow { state: TTS_RUN, base: 8, current: 8, kind: 0, object: 0, left: 0 };
    assert_eq!(Tables::of(&Kernel::new()), expected);
}

fn started(kernel: &mut Kernel, itskpri: i32) {
    let Outcome::Answered(tskid) = kernel.cre_tsk(itskpri) else { panic!("no task") };
    assert_eq!(kernel.sta_tsk(tskid), Outcome::Answered(E_OK));
}

/// Task 1 (8) holds mutex 1 and runs, raised by 2 (5), which waits for it; 3 (4) waits to send to buffer 1, which is full, 4 (3) for
/// the block of pool 1; 5 (12) is dormant, 6 (6) ready. A millisecond has passed.
fn busy() -> Kernel {
    let mut kernel = Kernel::new();
    assert_eq!(kernel.cre_mtx(TA_INHERIT, 0), Outcome::Answered(1));
    assert_eq!(kernel.cre_mbf(TA_TPRI, 8, 4), Outcome::Answered(1));
    assert_eq!(kernel.cre_mpf(TA_TFIFO, 1, 4), Outcome::Answered(1));
    assert_eq!(kernel.loc_mtx(1, TMO_POL), Outcome::Answered(E_OK));
    assert_eq!(kernel.snd_mbf(1, b"kept", TMO_POL), Outcome::Answered(E_OK));
    assert_eq!(kernel.get_mpf(1, TMO_POL), Outcome::Answered(E_OK));
    started(&mut kernel, 5);
    assert_eq!(kernel.loc_mtx(1, 9), Outcome::Waits);
    started(&mut kernel, 4);
    assert_eq!(kernel.snd_mbf(1, b"bay", TMO_FEVR), Outcome::Waits);
    started(&mut kernel, 3);
    assert_eq!(kernel.get_mpf(1, 2), Outcome::Waits);
    assert_eq!(kernel.cre_tsk(12), Outcome::Answered(5));
    started(&mut kernel, 6);
    assert_eq!(kernel.tick(), Outcome::Answered(E_OK));
    kernel
}

#[test]
fn every_field_of_a_busy_kernel() {
    let mut kernel = busy();
    let row = |state, base, current, kind: u8, object, left| TaskRow {
        state,
        base,
        current,
        kind: u32::from(kind),
        object,
        left,
    };
    let mut expected = Tables::old(ENOUGH);
    expected.tasks[..6].copy_from_slice(&[
        row(TTS_RUN, 8, 5, 0, 0, 0),
        row(TTS_WAI, 5, 5, TK_CRE_MTX, 1, 8),
        row(TTS_WAI, 4, 4, TK_CRE_MBF, 1, -1),
        row(TTS_WAI, 3, 3, TK_CRE_MPF, 1, 1),
        row(TTS_DMT, 12, 12, 0, 0, 0),
        row(TTS_RDY, 6, 6, 0, 0, 0),
    ]);
    expected.mutexes[0] = MutexRow { holder: 1, waiter: 2 };
    expected.buffers[0] = BufferRow { free: 0, room: -8, next: 4, receiver: 0, sender: 3 };
    expected.pools[0] = PoolRow { free: 0, waiter: 4 };
    assert_eq!(Tables::of(&kernel), expected);
    // Task 4's wait is over: it returns the block and receives, so that task 3's message is stored.
    assert_eq!(kernel.tick(), Outcome::Answered(E_OK));
    assert_eq!(kernel.rel_mpf(1, 1), Outcome::Answered(E_OK));
    assert_eq!(kernel.rcv_mbf(1, TMO_POL), Outcome::Answered(4));
    expected.tasks[0].state = TTS_RDY;
    expected.tasks[1].left = 7;
    expected.tasks[2] = row(TTS_RDY, 4, 4, 0, 0, 0);
    expected.tasks[3] = row(TTS_RUN, 3, 3, 0, 0, 0);
    expected.buffers[0] = BufferRow { free: 0, room: -8, next: 3, receiver: 0, sender: 0 };
    expected.pools[0] = PoolRow { free: 1, waiter: 0 };
    assert_eq!(Tables::of(&kernel), expected);
    // It receives that one too, then waits for more.
    assert_eq!(kernel.rcv_mbf(1, TMO_POL), Outcome::Answered(3));
    assert_eq!(kernel.rcv_mbf(1, TMO_FEVR), Outcome::Waits);
    let rows = Tables::of(&kernel);
    assert_eq!(rows.buffers[0], BufferRow { free: 8, room: 0, next: 0, receiver: 4, sender: 0 });
    assert_eq!(rows.tasks[3], row(TTS_WAI, 3, 3, TK_CRE_MBF, 1, -1));
    // A deleted mutex's row is not written.
    assert_eq!(kernel.del_mtx(1), Outcome::Answered(E_OK));
    assert_eq!(Tables::of(&kernel).mutexes[0], OLD_MUTEX);
}

/// A message of 28 bytes costs 32, one of 29 to 32 bytes 36.
#[test]
fn how_much_is_missing() {
    for (bufsz, maxmsz, room) in [
        (0, 1, -8),
        (0, 32, -36),
        (31, 28, -1),
        (32, 28, 0),
        (33, 28, 1),
        (35, 29, -1),
        (36, 29, 0),
        (37, 29, 1),
        (256, 32, 220),
        (256, 1, 248),
    ] {
        let mut kernel = Kernel::new();
        assert_eq!(kernel.cre_mbf(TA_TFIFO, bufsz, maxmsz), Outcome::Answered(1));
        assert_eq!(Tables::of(&kernel).buffers[0].room, room, "{bufsz} {maxmsz}");
        let sent = kernel.snd_mbf(1, &[7; 32][..maxmsz as usize], TMO_POL);
        assert_eq!(sent, Outcome::Answered(if room < 0 { E_TMOUT } else { E_OK }));
    }
}

#[test]
fn rows_behind_the_last_number_stay() {
    let kernel = busy();
    let enough = Tables::of(&kernel);
    for more in [1, 40] {
        let mut tables = Tables::old(ENOUGH.map(|rows| rows + more));
        assert_eq!(tables.show_kernel(&kernel), [Ok(()); 4]);
        let mut expected = enough.clone();
        expected.tasks.extend(vec![OLD_TASK; more]);
        expected.mutexes.extend(vec![OLD_MUTEX; more]);
        expected.buffers.extend(vec![OLD_BUFFER; more]);
        expected.pools.extend(vec![OLD_POOL; more]);
        assert_eq!(tables, expected);
    }
}

#[test]
fn with_fewer_rows_nothing_is_written() {
    let kernel = busy();
    for fewer in [ENOUGH.map(|rows| rows - 1), [1; 4], [0; 4]] {
        let mut tables = Tables::old(fewer);
        assert_eq!(tables.show_kernel(&kernel), [Err(E_PAR); 4]);
        assert_eq!(tables, Tables::old(fewer));
    }
}

/// Whatever the number of rows is, nothing is written, and the error is `E_SYS`.
#[track_caller]
fn refused(state: &[u32], store: &[u8], outbox: &[u8]) {
    for rows in [ENOUGH, ENOUGH.map(|rows| rows + 1), ENOUGH.map(|rows| rows - 1), [0; 4]] {
        let mut tables = Tables::old(rows);
        assert_eq!(tables.show(state, store, outbox), [Err(E_SYS); 4]);
        assert_eq!(tables, Tables::old(rows));
    }
}

#[test]
fn areas_that_are_not_valid_are_refused_first() {
    let good = busy();
    let mut kernel = good.clone();
    kernel.state[0] = 1;
    refused(&kernel.state, &kernel.store, &kernel.outbox);
    let mut kernel = good.clone();
    kernel.store[STORE_BYTES - 1] = 1;
    refused(&kernel.state, &kernel.store, &kernel.outbox);
    let mut kernel = good.clone();
    kernel.outbox[OUTBOX_BYTES - 1] = 1;
    refused(&kernel.state, &kernel.store, &kernel.outbox);
}

#[test]
fn areas_of_another_length_are_refused_first() {
    let good = busy();
    for change in [-1, 1] {
        let mut state = good.state.to_vec();
        state.resize(STATE_WORDS.wrapping_add_signed(change), 0);
        refused(&state, &good.store, &good.outbox);
        let mut store = good.store.to_vec();
        store.resize(STORE_BYTES.wrapping_add_signed(change), 0);
        refused(&good.state, &store, &good.outbox);
        let mut outbox = good.outbox.to_vec();
        outbox.resize(OUTBOX_BYTES.wrapping_add_signed(change), 0);
        refused(&good.state, &good.store, &outbox);
    }
    refused(&[], &[], &[]);
}
