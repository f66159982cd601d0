//! The rows of the status board, as C has them. A task in a row is its number, 0 for none; the first that waits is the one that would
//! be served first.

/// A task.
#[repr(C)]
#[derive(Clone, Copy, PartialEq, Eq, Debug, Default)]
pub struct TaskRow {
    /// `TTS_RUN`, `TTS_RDY`, `TTS_WAI` or `TTS_DMT`.
    pub state: u32,
    pub base: u32,
    pub current: u32,
    /// What it waits for: `TK_CRE_MTX`, `TK_CRE_MBF` or `TK_CRE_MPF`, which creates such a one, and the number; 0 and 0 for none.
    pub kind: u32,
    pub object: u32,
    /// Milliseconds left of the wait: -1 without end, 0 for no wait.
    pub left: i32,
}

/// A mutex.
#[repr(C)]
#[derive(Clone, Copy, PartialEq, Eq, Debug, Default)]
pub struct MutexRow {
    pub holder: u32,
    /// The first that waits for it.
    pub waiter: u32,
}

/// A buffer.
#[repr(C)]
#[derive(Clone, Copy, PartialEq, Eq, Debug, Default)]
pub struct BufferRow {
    /// How many bytes of its `bufsz` no stored message takes.
    pub free: u32,
    /// How many bytes are over for a message of `maxmsz` bytes, by what it costs, or lacking, below 0; 0 for an exact fit.
    pub room: i32,
    /// The length of the next message ([`next_message`](crate::next_message())), 0 if there is none.
    pub next: u32,
    /// The first that waits to receive.
    pub receiver: u32,
    /// The first that waits to send.
    pub sender: u32,
}

/// A pool.
#[repr(C)]
#[derive(Clone, Copy, PartialEq, Eq, Debug, Default)]
pub struct PoolRow {
    /// How many blocks are free.
    pub free: u32,
    /// The first that waits for one.
    pub waiter: u32,
}
