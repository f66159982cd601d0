//! The status board: the standard's tk_ref calls for all objects of a kind at once, written into
//! rows that the caller lends. The lent state is only read.

use crate::kernel::{Kernel, Order, Place};
use crate::limits::*;
use crate::number::{BufferNo, MutexNo, PoolNo, TaskNo, TaskSet};
use crate::words::ENDLESS;

/// The kinds of the calls that create what a task can wait for.
pub const CRE_MTX: u32 = 0x10;
pub const CRE_MBF: u32 = 0x20;
pub const CRE_MPF: u32 = 0x30;

#[derive(Clone, Copy, Debug, PartialEq, Eq, Default)]
pub struct TaskRow {
    /// [`TTS_RUN`], [`TTS_RDY`], [`TTS_WAI`] or [`TTS_DMT`].
    pub state: u32,
    pub base: u32,
    pub current: u32,
    /// What the task waits for: the kind of the call that creates it, and its number. Both are 0
    /// without a wait.
    pub kind: u32,
    pub object: u32,
    /// Milliseconds left of the wait: -1 without a timeout, 0 without a wait.
    pub left: i32,
}

/// In this row and the next ones a task is its number, or 0 if there is none.
#[derive(Clone, Copy, Debug, PartialEq, Eq, Default)]
pub struct MutexRow {
    pub holder: u32,
    /// The first of the queue.
    pub waiter: u32,
}

#[derive(Clone, Copy, Debug, PartialEq, Eq, Default)]
pub struct BufferRow {
    /// Bytes of bufsz that no stored message takes.
    pub free: u32,
    /// Bytes over, or lacking (below zero), for a message of maxmsz bytes; 0 for an exact fit.
    pub room: i32,
    /// Length of the message that a receive would take, stored or a sender's; 0 if there is none.
    pub next: u32,
    /// The first of each queue.
    pub receiver: u32,
    pub sender: u32,
}

#[derive(Clone, Copy, Debug, PartialEq, Eq, Default)]
pub struct PoolRow {
    /// Blocks that are not handed out.
    pub free: u32,
    /// The first of the queue.
    pub waiter: u32,
}

/// The status of all tasks of a lent state: E_OK; or E_SYS if the state or an area is not valid,
/// else E_PAR if there are fewer rows than numbers of tasks, with no row written.
pub fn ref_tsk(words: &[u32], store: &[u8], outbox: &[u8], rows: &mut [TaskRow]) -> i32 {
    write_rows(Kernel::from_words(words, store, outbox), rows, TaskNo::all(), task_row)
}

/// The same of all mutexes.
pub fn ref_mtx(words: &[u32], store: &[u8], outbox: &[u8], rows: &mut [MutexRow]) -> i32 {
    write_rows(Kernel::from_words(words, store, outbox), rows, MutexNo::all(), mutex_row)
}

/// The same of all buffers.
pub fn ref_mbf(words: &[u32], store: &[u8], outbox: &[u8], rows: &mut [BufferRow]) -> i32 {
    write_rows(Kernel::from_words(words, store, outbox), rows, BufferNo::all(), buffer_row)
}

/// The same of all pools.
pub fn ref_mpf(words: &[u32], store: &[u8], outbox: &[u8], rows: &mut [PoolRow]) -> i32 {
    write_rows(Kernel::from_words(words, store, outbox), rows, PoolNo::all(), pool_row)
}

/// Which rows change, for every kind of object: row n, counted from 1, if number n exists; and
/// none if the call is refused.
fn write_rows<Number, Row>(
    kernel: Option<Kernel>,
    rows: &mut [Row],
    numbers: impl ExactSizeIterator<Item = Number>,
    status: impl Fn(&Kernel, Number) -> Option<Row>,
) -> i32 {
    let Some(kernel) = kernel else { return E_SYS };
    if rows.len() < numbers.len() {
        return E_PAR;
    }
    for (row, number) in rows.iter_mut().zip(numbers) {
        if let Some(status) = status(&kernel, number) {
            *row = status;
        }
    }
    E_OK
}

// The status of one object; none if there is no such object.

pub(crate) fn task_row(kernel: &Kernel, number: TaskNo) -> Option<TaskRow> {
    let task = kernel.task(number);
    let (state, kind, object) = match task.place {
        Place::Absent => return None,
        Place::Dormant => (TTS_DMT, 0, 0),
        Place::Ready if kernel.running() == Some(number) => (TTS_RUN, 0, 0),
        Place::Ready => (TTS_RDY, 0, 0),
        Place::Locking(m) => (TTS_WAI, CRE_MTX, m.get()),
        Place::Sending(b) | Place::Receiving(b) => (TTS_WAI, CRE_MBF, b.get()),
        Place::Getting(p) => (TTS_WAI, CRE_MPF, p.get()),
    };
    Some(TaskRow {
        state,
        base: u32::from(task.base),
        current: u32::from(task.current),
        kind,
        object: u32::from(object),
        left: if task.left == ENDLESS { -1 } else { task.left as i32 },
    })
}

pub(crate) fn mutex_row(kernel: &Kernel, number: MutexNo) -> Option<MutexRow> {
    let mutex = kernel.mutex(number)?;
    Some(MutexRow {
        holder: or_zero(mutex.holder),
        waiter: first(kernel, mutex.waiters, mutex.order()),
    })
}

pub(crate) fn buffer_row(kernel: &Kernel, number: BufferNo) -> Option<BufferRow> {
    let buffer = kernel.buffer(number)?;
    Some(BufferRow {
        free: u32::from(buffer.bufsz - buffer.used),
        room: buffer.room(usize::from(buffer.maxmsz)),
        next: kernel.next_message(i32::from(number.get())).len() as u32,
        receiver: first(kernel, buffer.receivers, Order::Arrival),
        sender: first(kernel, buffer.senders, buffer.sender_order()),
    })
}

pub(crate) fn pool_row(kernel: &Kernel, number: PoolNo) -> Option<PoolRow> {
    let pool = kernel.pool(number)?;
    Some(PoolRow {
        free: u32::from(pool.count) - pool.out.count_ones(),
        waiter: first(kernel, pool.waiters, pool.order()),
    })
}

fn first(kernel: &Kernel, queue: TaskSet, order: Order) -> u32 {
    or_zero(kernel.first(queue, order))
}

fn or_zero(task: Option<TaskNo>) -> u32 {
    task.map_or(0, |task| u32::from(task.get()))
}
