//! Every size and code of the kernel, each written once.

/// Tasks are numbered 1 to this.
pub const TASKS: usize = 16;
/// Mutexes are numbered 1 to this.
pub const MUTEXES: usize = 8;
/// Message buffers are numbered 1 to this.
pub const BUFFERS: usize = 4;
/// Fixed pools are numbered 1 to this.
pub const POOLS: usize = 4;
/// Most blocks of one pool; blocks are numbered from 1.
pub const BLOCKS: usize = 16;

/// Priorities are 1 (most urgent) to this.
pub const PRIORITIES: u8 = 16;
/// Base and initial priority of task 1 in the fresh kernel.
pub const FRESH_PRIORITY: u8 = 8;

/// Longest message, and the bytes of the outbox that belong to each task.
pub const MESSAGE: usize = 32;
/// Bytes of the store that belong to each buffer, and the largest bufsz.
pub const STRETCH: usize = 256;
/// Bytes of the length in front of a stored message; messages are packed to a multiple of it.
pub const LENGTH: usize = 4;
/// Largest block size.
pub const BLOCK_SIZE: usize = 256;
/// Most bytes of all live pools together.
pub const POOL_BYTES: usize = 4096;

/// Bytes of the lent store.
pub const STORE: usize = BUFFERS * STRETCH;
/// Bytes of the lent outbox.
pub const OUTBOX: usize = TASKS * MESSAGE;
/// Bytes of the longest script.
pub const SCRIPT: usize = 16384;
/// Bytes of the lent log area of one record.
pub const LOG: usize = 512;

/// Mutex attributes.
pub const MUTEX_FIFO: u8 = 0;
pub const MUTEX_INHERIT: u8 = 2;
pub const MUTEX_CEILING: u8 = 3;

/// The standard's task states: running, ready, waiting, dormant.
pub const TTS_RUN: u32 = 1;
pub const TTS_RDY: u32 = 2;
pub const TTS_WAI: u32 = 4;
pub const TTS_DMT: u32 = 16;

/// Success, and the standard's main error codes.
pub const E_OK: i32 = 0;
pub const E_SYS: i32 = -5;
pub const E_RSATR: i32 = -11;
pub const E_PAR: i32 = -17;
pub const E_ID: i32 = -18;
pub const E_CTX: i32 = -25;
pub const E_ILUSE: i32 = -28;
pub const E_NOMEM: i32 = -33;
pub const E_LIMIT: i32 = -34;
pub const E_OBJ: i32 = -41;
pub const E_NOEXS: i32 = -42;
pub const E_TMOUT: i32 = -50;
pub const E_DLT: i32 = -51;

/// The limits of the ranges with the numbers beside them, and others, upwards and each once.
pub fn near_limits(others: &[u32]) -> Vec<u32> {
    let numbers = [TASKS, MUTEXES, BUFFERS, POOLS, BLOCKS];
    let sizes = [usize::from(PRIORITIES), MESSAGE, STRETCH, BLOCK_SIZE];
    let limits = numbers.into_iter().chain(sizes).map(|limit| limit as u32);
    let mut near: Vec<u32> = limits.flat_map(|limit| limit - 1..=limit + 1).collect();
    near.extend(others);
    near.sort_unstable();
    near.dedup();
    near
}

/// What a message of this length takes in the store.
pub const fn cost(length: usize) -> usize {
    LENGTH + length.next_multiple_of(LENGTH)
}

/// "How many bytes are over, or lacking (below zero), as one signed number, zero for an exact fit": by
/// the cost of a message of this length, where `used` of bufsz are in use. Takes any words where a
/// `usize` has 64 bits.
pub const fn room(bufsz: u32, used: u32, length: usize) -> i64 {
    bufsz as i64 - used as i64 - cost(length) as i64
}

/// Whether the number is a pool's attribute: the order (0 or 1) plus a protection level.
pub const fn is_pool_attribute(attribute: u32) -> bool {
    attribute & !0x301 == 0
}
