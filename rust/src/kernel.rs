//! A kernel that owns its areas, with the manual's calls by their names.

use crate::board::{BufferRow, MutexRow, PoolRow, TaskRow};
use crate::log::{items, Items};
use crate::numbers::*;
use crate::Outcome;

/// A kernel: its four areas, with the right lengths. There may be any number of them, and they have nothing to do with each other.
///
/// The first three areas may be copied, stored and changed: what they hold is checked in each call.
#[derive(Clone, Debug)]
pub struct Kernel {
    /// Which tasks, mutexes, buffers and pools there are, and the queues.
    pub state: [u32; STATE_WORDS],
    /// The messages of the buffers.
    pub store: [u8; STORE_BYTES],
    /// The messages of the tasks that wait to send.
    pub outbox: [u8; OUTBOX_BYTES],
    log: [u8; LOG_BYTES],
    written: usize,
}

impl Default for Kernel {
    fn default() -> Kernel {
        Kernel::new()
    }
}

impl Kernel {
    /// The fresh kernel: task 1 runs, and nothing else is there.
    pub fn new() -> Kernel {
        let mut kernel = Kernel {
            state: [0; STATE_WORDS],
            store: [0; STORE_BYTES],
            outbox: [0; OUTBOX_BYTES],
            log: [0; LOG_BYTES],
            written: 0,
        };
        let fresh = crate::fresh(&mut kernel.state, &mut kernel.store, &mut kernel.outbox);
        assert_eq!(fresh, Ok(()), "the areas have their lengths");
        kernel
    }

    /// What the last call or record did, as bytes.
    pub fn log(&self) -> &[u8] {
        &self.log[..self.written]
    }

    /// The same, item by item.
    pub fn items(&self) -> Items<'_> {
        items(self.log())
    }

    /// Whether what the areas hold is valid, as [`is_valid`](crate::is_valid()).
    pub fn is_valid(&self) -> bool {
        crate::is_valid(&self.state, &self.store, &self.outbox)
    }

    /// The next message of a buffer, which `rcv_mbf` would take, where it lies. None if there is none or no such buffer, or if the
    /// areas are not valid.
    pub fn next_message(&self, mbfid: i32) -> Option<&[u8]> {
        crate::next_message(&self.state, &self.store, &self.outbox, mbfid)
    }

    /// One call by its kind and fields, as [`call`](crate::call()).
    pub fn call(&mut self, kind: u8, fields: [i32; 3], message: &[u8]) -> Outcome {
        let Kernel { state, store, outbox, log, written } = self;
        let (outcome, told) = crate::call(state, store, outbox, log, kind, fields, message);
        *written = told.len();
        outcome
    }

    /// The record at a place of a script, as [`run_record`](crate::run_record()).
    pub fn run_record(&mut self, script: &[u8], at: &mut usize) -> Outcome {
        let Kernel { state, store, outbox, log, written } = self;
        let (outcome, told) = crate::run_record(state, store, outbox, log, script, at);
        *written = told.len();
        outcome
    }
}

/// The status board, in rows that the caller lends, as [`ref_tsk`](crate::ref_tsk()) and the other three.
impl Kernel {
    pub fn ref_tsk(&self, rows: &mut [TaskRow]) -> Result<(), i32> {
        crate::ref_tsk(&self.state, &self.store, &self.outbox, rows)
    }

    pub fn ref_mtx(&self, rows: &mut [MutexRow]) -> Result<(), i32> {
        crate::ref_mtx(&self.state, &self.store, &self.outbox, rows)
    }

    pub fn ref_mbf(&self, rows: &mut [BufferRow]) -> Result<(), i32> {
        crate::ref_mbf(&self.state, &self.store, &self.outbox, rows)
    }

    pub fn ref_mpf(&self, rows: &mut [PoolRow]) -> Result<(), i32> {
        crate::ref_mpf(&self.state, &self.store, &self.outbox, rows)
    }
}

/// The nineteen calls of the task that runs, with the manual's names for their fields. Those that create answer the new number,
/// `rcv_mbf` the message's length, the others 0.
impl Kernel {
    pub fn cre_tsk(&mut self, itskpri: i32) -> Outcome {
        self.call(TK_CRE_TSK, [itskpri, 0, 0], &[])
    }

    pub fn del_tsk(&mut self, tskid: i32) -> Outcome {
        self.call(TK_DEL_TSK, [tskid, 0, 0], &[])
    }

    pub fn sta_tsk(&mut self, tskid: i32) -> Outcome {
        self.call(TK_STA_TSK, [tskid, 0, 0], &[])
    }

    pub fn ext_tsk(&mut self) -> Outcome {
        self.call(TK_EXT_TSK, [0; 3], &[])
    }

    pub fn ter_tsk(&mut self, tskid: i32) -> Outcome {
        self.call(TK_TER_TSK, [tskid, 0, 0], &[])
    }

    /// `TSK_SELF` is the caller, `TPRI_INI` the task's initial priority.
    pub fn chg_pri(&mut self, tskid: i32, tskpri: i32) -> Outcome {
        self.call(TK_CHG_PRI, [tskid, tskpri, 0], &[])
    }

    /// The ceiling counts with `TA_CEILING` only.
    pub fn cre_mtx(&mut self, mtxatr: i32, ceilpri: i32) -> Outcome {
        self.call(TK_CRE_MTX, [mtxatr, ceilpri, 0], &[])
    }

    pub fn del_mtx(&mut self, mtxid: i32) -> Outcome {
        self.call(TK_DEL_MTX, [mtxid, 0, 0], &[])
    }

    pub fn loc_mtx(&mut self, mtxid: i32, tmout: i32) -> Outcome {
        self.call(TK_LOC_MTX, [mtxid, tmout, 0], &[])
    }

    pub fn unl_mtx(&mut self, mtxid: i32) -> Outcome {
        self.call(TK_UNL_MTX, [mtxid, 0, 0], &[])
    }

    pub fn cre_mbf(&mut self, mbfatr: i32, bufsz: i32, maxmsz: i32) -> Outcome {
        self.call(TK_CRE_MBF, [mbfatr, bufsz, maxmsz], &[])
    }

    pub fn del_mbf(&mut self, mbfid: i32) -> Outcome {
        self.call(TK_DEL_MBF, [mbfid, 0, 0], &[])
    }

    /// The message's length is `msgsz`; one that is above the largest `i32` is refused as that number is.
    pub fn snd_mbf(&mut self, mbfid: i32, msg: &[u8], tmout: i32) -> Outcome {
        let msgsz = i32::try_from(msg.len()).unwrap_or(i32::MAX);
        self.call(TK_SND_MBF, [mbfid, msgsz, tmout], msg)
    }

    /// The message stands in the log, behind the code.
    pub fn rcv_mbf(&mut self, mbfid: i32, tmout: i32) -> Outcome {
        self.call(TK_RCV_MBF, [mbfid, tmout, 0], &[])
    }

    pub fn cre_mpf(&mut self, mpfatr: i32, mpfcnt: i32, blfsz: i32) -> Outcome {
        self.call(TK_CRE_MPF, [mpfatr, mpfcnt, blfsz], &[])
    }

    pub fn del_mpf(&mut self, mpfid: i32) -> Outcome {
        self.call(TK_DEL_MPF, [mpfid, 0, 0], &[])
    }

    /// The block stands in the log, behind the code: its number, counted from 1, which is what `rel_mpf` takes.
    pub fn get_mpf(&mut self, mpfid: i32, tmout: i32) -> Outcome {
        self.call(TK_GET_MPF, [mpfid, tmout, 0], &[])
    }

    pub fn rel_mpf(&mut self, mpfid: i32, blf: i32) -> Outcome {
        self.call(TK_REL_MPF, [mpfid, blf, 0], &[])
    }

    /// One millisecond passes.
    pub fn tick(&mut self) -> Outcome {
        self.call(TK_TICK, [0; 3], &[])
    }
}
