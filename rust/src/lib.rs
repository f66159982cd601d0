//! The kernel as a library for Rust. `tools/build_library` has to run first; docs/LIBRARY.md says more.
//!
//! [`Kernel`] owns its areas and has the manual's calls by their names. The nine functions here are the same over areas that a caller
//! lends, of any length and content: the library checks both in each call. Nothing is allocated.
//!
//! ```
//! use shinepod::{numbers::*, Kernel, Outcome};
//!
//! let mut kernel = Kernel::new();
//! assert_eq!(kernel.cre_mbf(TA_TFIFO, 32, 16), Outcome::Answered(1));
//! assert_eq!(kernel.snd_mbf(1, b"line 7 asks", TMO_POL), Outcome::Answered(E_OK));
//! assert_eq!(kernel.next_message(1), Some(&b"line 7 asks"[..]));
//! ```
//!
//! A message that is shown lies in the kernel's areas, so that no call is made while somebody looks at it:
//!
//! ```compile_fail,E0502
//! # let mut kernel = shinepod::Kernel::new();
//! let shown = kernel.next_message(1);
//! let outcome = kernel.tick();
//! assert_eq!(shown, None);
//! ```

#![no_std]
#![deny(unsafe_code)]

pub mod board;
mod kernel;
pub mod log;
pub mod numbers;
mod outcome;
#[allow(unsafe_code)]
pub mod raw;

pub use kernel::Kernel;
pub use outcome::Outcome;

use board::{BufferRow, MutexRow, PoolRow, TaskRow};
use numbers::{E_OK, IN_OUTBOX, IN_STORE, NOWHERE};

/// The areas become the fresh kernel: task 1 runs, and nothing else is there. With another length nothing is changed, and the error is
/// `E_SYS`. What the areas hold before does not matter.
pub fn fresh(state: &mut [u32], store: &mut [u8], outbox: &mut [u8]) -> Result<(), i32> {
    done(raw::fresh(state, store, outbox))
}

/// One call of the task that runs, by its kind (`TK_..`) and fields in the manual's order; fields that the call has not are not looked
/// at. The message is that of `TK_SND_MBF`: as many bytes of it are sent as its second field says, with zeros where there are fewer. With a
/// byte behind them that is not zero the call is refused (`E_PAR`); no byte behind the first `MESSAGE_BYTES` is looked at.
///
/// Gives what comes of it, and the front part of the log area, which tells what happened ([`log::items`]); the rest of that area stays.
/// A negative code leaves the other areas as they came. `E_SYS` also says that an area has another length, or that the
/// areas are not valid ([`is_valid`]).
pub fn call<'a>(
    state: &mut [u32],
    store: &mut [u8],
    outbox: &mut [u8],
    log: &'a mut [u8],
    kind: u8,
    fields: [i32; 3],
    message: &[u8],
) -> (Outcome, &'a [u8]) {
    let came = raw::call(state, store, outbox, log, kind, fields, message);
    (Outcome::of(came), &log[..came.written])
}

/// The record at a place of a script: as [`call`], and the place goes on to the next record. Where the script is over, the place stays.
pub fn run_record<'a>(
    state: &mut [u32],
    store: &mut [u8],
    outbox: &mut [u8],
    log: &'a mut [u8],
    script: &[u8],
    at: &mut usize,
) -> (Outcome, &'a [u8]) {
    let came = raw::run_record(state, store, outbox, log, script, at);
    (Outcome::of(came), &log[..came.written])
}

/// The next message of a buffer, which a receive would take, where it lies in the store or in the outbox. None if there is no message
/// or no such buffer, or if the areas are not valid.
pub fn next_message<'a>(
    state: &[u32],
    store: &'a [u8],
    outbox: &'a [u8],
    mbfid: i32,
) -> Option<&'a [u8]> {
    let shown = raw::next_message(state, store, outbox, mbfid);
    let area = match shown.area {
        NOWHERE => return None,
        IN_STORE => store,
        IN_OUTBOX => outbox,
        other => unreachable!("the library has no area {other}"),
    };
    Some(&area[shown.at..][..shown.size])
}

/// Whether the areas have their lengths and what they hold is valid: what document 01 calls sound, with what document 02 adds to it. The fresh
/// kernel is, and every call keeps it so. That calls lead there from the fresh kernel is not asked.
pub fn is_valid(state: &[u32], store: &[u8], outbox: &[u8]) -> bool {
    raw::is_valid(state, store, outbox)
}

/// The status board: what the manual's `tk_ref_tsk` tells, of all tasks at once. Row n, counted from 1, is that of the task with number
/// n. The rows of the tasks that exist are written, and every other row stays as it came.
///
/// The error is `E_SYS` if an area has another length or the areas are not valid ([`is_valid`]), else `E_PAR` if there are fewer than
/// `TASKS` rows. Then no row is written.
pub fn ref_tsk(
    state: &[u32],
    store: &[u8],
    outbox: &[u8],
    rows: &mut [TaskRow],
) -> Result<(), i32> {
    done(raw::ref_tsk(state, store, outbox, rows))
}

/// As [`ref_tsk`], of all mutexes, into `MUTEXES` rows or more.
pub fn ref_mtx(
    state: &[u32],
    store: &[u8],
    outbox: &[u8],
    rows: &mut [MutexRow],
) -> Result<(), i32> {
    done(raw::ref_mtx(state, store, outbox, rows))
}

/// As [`ref_tsk`], of all buffers, into `BUFFERS` rows or more.
pub fn ref_mbf(
    state: &[u32],
    store: &[u8],
    outbox: &[u8],
    rows: &mut [BufferRow],
) -> Result<(), i32> {
    done(raw::ref_mbf(state, store, outbox, rows))
}

/// As [`ref_tsk`], of all pools, into `POOLS` rows or more.
pub fn ref_mpf(
    state: &[u32],
    store: &[u8],
    outbox: &[u8],
    rows: &mut [PoolRow],
) -> Result<(), i32> {
    done(raw::ref_mpf(state, store, outbox, rows))
}

/// `E_OK` or an error.
fn done(code: i32) -> Result<(), i32> {
    match code {
        E_OK => Ok(()),
        code => Err(code),
    }
}
