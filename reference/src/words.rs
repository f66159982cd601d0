//! The product's word layout of a lent state: where each list lies and what its numbers mean. 01
//! leaves it open, so it is taken from the product; nothing else is.

use crate::limits::*;

/// Entries of a list with one entry for each number and entry 0 for none.
pub const PER_TASK: usize = TASKS + 1;
pub const PER_MUTEX: usize = MUTEXES + 1;
pub const PER_BUFFER: usize = BUFFERS + 1;
pub const PER_POOL: usize = POOLS + 1;
pub const PER_BLOCK: usize = BLOCKS + 1;

/// Where each list begins.
pub mod at {
    use super::*;

    pub const PLACE: usize = 0;
    pub const OBJECT: usize = PLACE + PER_TASK;
    pub const ARGUMENT: usize = OBJECT + PER_TASK;
    pub const INITIAL: usize = ARGUMENT + PER_TASK;
    pub const BASE: usize = INITIAL + PER_TASK;
    pub const CURRENT: usize = BASE + PER_TASK;
    pub const LEFT: usize = CURRENT + PER_TASK;

    pub const ARRIVALS: usize = LEFT + PER_TASK;

    /// One word: bit p - 1 is set exactly if a ready task has the current priority p.
    pub const BITMAP: usize = ARRIVALS + TASKS;

    pub const MUTEX_EXISTS: usize = BITMAP + 1;
    pub const MUTEX_ATTRIBUTE: usize = MUTEX_EXISTS + PER_MUTEX;
    pub const CEILING: usize = MUTEX_ATTRIBUTE + PER_MUTEX;
    pub const HOLDER: usize = CEILING + PER_MUTEX;

    pub const BUFFER_EXISTS: usize = HOLDER + PER_MUTEX;
    pub const BUFFER_ATTRIBUTE: usize = BUFFER_EXISTS + PER_BUFFER;
    pub const BUFSZ: usize = BUFFER_ATTRIBUTE + PER_BUFFER;
    pub const MAXMSZ: usize = BUFSZ + PER_BUFFER;
    pub const USED: usize = MAXMSZ + PER_BUFFER;

    pub const POOL_EXISTS: usize = USED + PER_BUFFER;
    pub const POOL_ATTRIBUTE: usize = POOL_EXISTS + PER_POOL;
    pub const COUNT: usize = POOL_ATTRIBUTE + PER_POOL;
    pub const SIZE: usize = COUNT + PER_POOL;
    pub const FLAGS: usize = SIZE + PER_POOL;

    pub const END: usize = FLAGS + PER_POOL * PER_BLOCK;
}

/// Words of a lent state.
pub const WORDS: usize = at::END;

const _: () = assert!(PRIORITIES as u32 <= u32::BITS);

/// The lists of each kind of object; arrivals, the bitmap and flags are apart.
pub const TASK_LISTS: [usize; 7] =
    [at::PLACE, at::OBJECT, at::ARGUMENT, at::INITIAL, at::BASE, at::CURRENT, at::LEFT];
pub const MUTEX_LISTS: [usize; 4] =
    [at::MUTEX_EXISTS, at::MUTEX_ATTRIBUTE, at::CEILING, at::HOLDER];
pub const BUFFER_LISTS: [usize; 5] =
    [at::BUFFER_EXISTS, at::BUFFER_ATTRIBUTE, at::BUFSZ, at::MAXMSZ, at::USED];
pub const POOL_LISTS: [usize; 4] = [at::POOL_EXISTS, at::POOL_ATTRIBUTE, at::COUNT, at::SIZE];

/// What the place words mean.
pub const ABSENT: u32 = 0;
pub const DORMANT: u32 = 1;
pub const READY: u32 = 2;
pub const LOCKING: u32 = 3;
pub const SENDING: u32 = 4;
pub const RECEIVING: u32 = 5;
pub const GETTING: u32 = 6;

/// Milliseconds left of a wait without end.
pub const ENDLESS: u32 = u32::MAX;
