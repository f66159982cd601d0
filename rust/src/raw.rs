//! The nine functions as `shinepod.h` declares them, with slices for pointers and lengths: outcomes and places are the numbers that
//! C has. Slices may have any length, since the library checks it.
//!
//! The library asks of its caller what C cannot say. Here it is said by types: a slice's pointer is valid for its length, aligned and
//! not null, also where it is empty; what is lent by `&mut` overlaps nothing else, and no other thread touches it. The library keeps
//! no pointer, and touches nothing but what is lent.

use crate::board::{BufferRow, MutexRow, PoolRow, TaskRow};

mod c {
    use crate::board::{BufferRow, MutexRow, PoolRow, TaskRow};

    extern "C" {
        pub fn shinepod_fresh(
            state: *mut u32,
            state_words: usize,
            store: *mut u8,
            store_bytes: usize,
            outbox: *mut u8,
            outbox_bytes: usize,
        ) -> i32;

        pub fn shinepod_call(
            state: *mut u32,
            state_words: usize,
            store: *mut u8,
            store_bytes: usize,
            outbox: *mut u8,
            outbox_bytes: usize,
            log: *mut u8,
            log_bytes: usize,
            kind: u8,
            first: i32,
            second: i32,
            third: i32,
            message: *const u8,
            message_bytes: usize,
            code: *mut i32,
            written: *mut usize,
        ) -> u32;

        pub fn shinepod_run_record(
            state: *mut u32,
            state_words: usize,
            store: *mut u8,
            store_bytes: usize,
            outbox: *mut u8,
            outbox_bytes: usize,
            log: *mut u8,
            log_bytes: usize,
            script: *const u8,
            script_bytes: usize,
            at: *mut usize,
            code: *mut i32,
            written: *mut usize,
        ) -> u32;

        pub fn shinepod_next_message(
            state: *const u32,
            state_words: usize,
            store: *const u8,
            store_bytes: usize,
            outbox: *const u8,
            outbox_bytes: usize,
            buffer: i32,
            at: *mut usize,
            size: *mut usize,
        ) -> u32;

        pub fn shinepod_is_valid(
            state: *const u32,
            state_words: usize,
            store: *const u8,
            store_bytes: usize,
            outbox: *const u8,
            outbox_bytes: usize,
        ) -> bool;

        pub fn shinepod_ref_tsk(
            state: *const u32,
            state_words: usize,
            store: *const u8,
            store_bytes: usize,
            outbox: *const u8,
            outbox_bytes: usize,
            rows: *mut TaskRow,
            row_count: usize,
        ) -> i32;

        pub fn shinepod_ref_mtx(
            state: *const u32,
            state_words: usize,
            store: *const u8,
            store_bytes: usize,
            outbox: *const u8,
            outbox_bytes: usize,
            rows: *mut MutexRow,
            row_count: usize,
        ) -> i32;

        pub fn shinepod_ref_mbf(
            state: *const u32,
            state_words: usize,
            store: *const u8,
            store_bytes: usize,
            outbox: *const u8,
            outbox_bytes: usize,
            rows: *mut BufferRow,
            row_count: usize,
        ) -> i32;

        pub fn shinepod_ref_mpf(
            state: *const u32,
            state_words: usize,
            store: *const u8,
            store_bytes: usize,
            outbox: *const u8,
            outbox_bytes: usize,
            rows: *mut PoolRow,
            row_count: usize,
        ) -> i32;
    }
}

/// What a call or a record comes to, beside the areas.
#[derive(Clone, Copy, PartialEq, Eq, Debug)]
pub struct Came {
    /// `ANSWERED`, `WAITS`, `EXITED`, `UNKNOWN_KIND` or `OVER`.
    pub outcome: u32,
    /// The answer; 0 where there is none.
    pub code: i32,
    /// How many bytes at the front of the log area were written.
    pub written: usize,
}

/// Where a next message lies.
#[derive(Clone, Copy, PartialEq, Eq, Debug)]
pub struct Shown {
    /// `NOWHERE`, `IN_STORE` or `IN_OUTBOX`.
    pub area: u32,
    /// From where on in that area, and how many bytes; both 0 where there is no message.
    pub at: usize,
    pub size: usize,
}

/// Before the library writes a result it is one that the library never gives, so that one left unwritten would show.
const NO_OUTCOME: u32 = u32::MAX;
const NO_CODE: i32 = i32::MIN;
const NO_SIZE: usize = usize::MAX;

/// The areas become the fresh kernel: `E_OK`, or `E_SYS` and nothing is changed if a length is another.
pub fn fresh(state: &mut [u32], store: &mut [u8], outbox: &mut [u8]) -> i32 {
    // SAFETY: each pointer is that of a slice lent by `&mut`, and goes with the slice's length.
    unsafe {
        c::shinepod_fresh(
            state.as_mut_ptr(),
            state.len(),
            store.as_mut_ptr(),
            store.len(),
            outbox.as_mut_ptr(),
            outbox.len(),
        )
    }
}

/// One call of the task that runs, by its kind and fields, with the message of `TK_SND_MBF`, of which no byte behind the first
/// `MESSAGE_BYTES` counts.
pub fn call(
    state: &mut [u32],
    store: &mut [u8],
    outbox: &mut [u8],
    log: &mut [u8],
    kind: u8,
    fields: [i32; 3],
    message: &[u8],
) -> Came {
    let mut came = Came { outcome: NO_OUTCOME, code: NO_CODE, written: NO_SIZE };
    // SAFETY: each pointer is that of a slice, and goes with its length, or of a result of this function's own; what is written is
    // lent by `&mut`, so that nothing overlaps it.
    came.outcome = unsafe {
        c::shinepod_call(
            state.as_mut_ptr(),
            state.len(),
            store.as_mut_ptr(),
            store.len(),
            outbox.as_mut_ptr(),
            outbox.len(),
            log.as_mut_ptr(),
            log.len(),
            kind,
            fields[0],
            fields[1],
            fields[2],
            message.as_ptr(),
            message.len(),
            &mut came.code,
            &mut came.written,
        )
    };
    came
}

/// The record at a place of a script, which goes on to the next record. The place may be any number.
pub fn run_record(
    state: &mut [u32],
    store: &mut [u8],
    outbox: &mut [u8],
    log: &mut [u8],
    script: &[u8],
    at: &mut usize,
) -> Came {
    let mut came = Came { outcome: NO_OUTCOME, code: NO_CODE, written: NO_SIZE };
    // SAFETY: each pointer is that of a slice, and goes with its length, or of `at` or a result of this function's own; what is
    // written is lent by `&mut`, so that nothing overlaps it.
    came.outcome = unsafe {
        c::shinepod_run_record(
            state.as_mut_ptr(),
            state.len(),
            store.as_mut_ptr(),
            store.len(),
            outbox.as_mut_ptr(),
            outbox.len(),
            log.as_mut_ptr(),
            log.len(),
            script.as_ptr(),
            script.len(),
            at,
            &mut came.code,
            &mut came.written,
        )
    };
    came
}

/// Where the next message of a buffer lies, which is the one that a receive would take.
pub fn next_message(state: &[u32], store: &[u8], outbox: &[u8], mbfid: i32) -> Shown {
    let mut shown = Shown { area: NO_OUTCOME, at: NO_SIZE, size: NO_SIZE };
    // SAFETY: each pointer is that of a slice, and goes with its length, or of a result of this function's own; the library only
    // reads the slices.
    shown.area = unsafe {
        c::shinepod_next_message(
            state.as_ptr(),
            state.len(),
            store.as_ptr(),
            store.len(),
            outbox.as_ptr(),
            outbox.len(),
            mbfid,
            &mut shown.at,
            &mut shown.size,
        )
    };
    shown
}

/// Whether the areas have their lengths and what they hold is valid.
pub fn is_valid(state: &[u32], store: &[u8], outbox: &[u8]) -> bool {
    // SAFETY: each pointer is that of a slice, and goes with its length; the library only reads them.
    unsafe {
        c::shinepod_is_valid(
            state.as_ptr(),
            state.len(),
            store.as_ptr(),
            store.len(),
            outbox.as_ptr(),
            outbox.len(),
        )
    }
}

/// How the four functions of the status board are declared.
type Board<Row> = unsafe extern "C" fn(
    *const u32,
    usize,
    *const u8,
    usize,
    *const u8,
    usize,
    *mut Row,
    usize,
) -> i32;

/// One of them, with slices.
///
/// # Safety
///
/// The function only reads state, store and outbox, writes nothing but rows, and keeps no pointer.
unsafe fn board<Row>(
    function: Board<Row>,
    state: &[u32],
    store: &[u8],
    outbox: &[u8],
    rows: &mut [Row],
) -> i32 {
    // SAFETY: each pointer is that of a slice, and goes with its length; the rows are lent by `&mut`, so that nothing overlaps them.
    unsafe {
        function(
            state.as_ptr(),
            state.len(),
            store.as_ptr(),
            store.len(),
            outbox.as_ptr(),
            outbox.len(),
            rows.as_mut_ptr(),
            rows.len(),
        )
    }
}

/// The status of all tasks: `E_OK` and the rows of those that exist, or `E_SYS` or `E_PAR` and no row.
pub fn ref_tsk(state: &[u32], store: &[u8], outbox: &[u8], rows: &mut [TaskRow]) -> i32 {
    // SAFETY: `shinepod.h` says so of this function.
    unsafe { board(c::shinepod_ref_tsk, state, store, outbox, rows) }
}

/// The same of all mutexes.
pub fn ref_mtx(state: &[u32], store: &[u8], outbox: &[u8], rows: &mut [MutexRow]) -> i32 {
    // SAFETY: `shinepod.h` says so of this function.
    unsafe { board(c::shinepod_ref_mtx, state, store, outbox, rows) }
}

/// The same of all buffers.
pub fn ref_mbf(state: &[u32], store: &[u8], outbox: &[u8], rows: &mut [BufferRow]) -> i32 {
    // SAFETY: `shinepod.h` says so of this function.
    unsafe { board(c::shinepod_ref_mbf, state, store, outbox, rows) }
}

/// The same of all pools.
pub fn ref_mpf(state: &[u32], store: &[u8], outbox: &[u8], rows: &mut [PoolRow]) -> i32 {
    // SAFETY: `shinepod.h` says so of this function.
    unsafe { board(c::shinepod_ref_mpf, state, store, outbox, rows) }
}
