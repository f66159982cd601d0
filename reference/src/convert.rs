//! A kernel as the words of a lent state, and back.

use crate::kernel::{Buffer, Kernel, Mutex, Place, Pool, Task};
use crate::limits::*;
use crate::number::{BufferNo, MutexNo, PoolNo, TaskNo, TaskSet};
use crate::valid::check;
use crate::words::*;

impl Kernel {
    /// The state as words.
    pub fn to_words(&self) -> [u32; WORDS] {
        let mut words = [0; WORDS];
        for t in TaskNo::all() {
            let n = usize::from(t.get());
            let task = self.task(t);
            let (place, object) = match task.place {
                Place::Absent => (ABSENT, 0),
                Place::Dormant => (DORMANT, 0),
                Place::Ready => (READY, 0),
                Place::Locking(m) => (LOCKING, m.get()),
                Place::Sending(b) => (SENDING, b.get()),
                Place::Receiving(b) => (RECEIVING, b.get()),
                Place::Getting(p) => (GETTING, p.get()),
            };
            words[at::PLACE + n] = place;
            words[at::OBJECT + n] = u32::from(object);
            words[at::ARGUMENT + n] = u32::from(task.length);
            words[at::INITIAL + n] = u32::from(task.initial);
            words[at::BASE + n] = u32::from(task.base);
            words[at::CURRENT + n] = u32::from(task.current);
            words[at::LEFT + n] = task.left;
        }
        for (i, t) in self.arrivals().into_iter().enumerate() {
            words[at::ARRIVALS + i] = u32::from(t.get());
        }
        words[at::BITMAP] = self.bitmap();
        for m in MutexNo::all() {
            let n = usize::from(m.get());
            if let Some(mutex) = self.mutex(m) {
                words[at::MUTEX_EXISTS + n] = 1;
                words[at::MUTEX_ATTRIBUTE + n] = u32::from(mutex.attribute);
                words[at::CEILING + n] = u32::from(mutex.ceiling);
                words[at::HOLDER + n] = mutex.holder.map_or(0, |t| u32::from(t.get()));
            }
        }
        for b in BufferNo::all() {
            let n = usize::from(b.get());
            if let Some(buffer) = self.buffer(b) {
                words[at::BUFFER_EXISTS + n] = 1;
                words[at::BUFFER_ATTRIBUTE + n] = u32::from(buffer.attribute);
                words[at::BUFSZ + n] = u32::from(buffer.bufsz);
                words[at::MAXMSZ + n] = u32::from(buffer.maxmsz);
                words[at::USED + n] = u32::from(buffer.used);
            }
        }
        for p in PoolNo::all() {
            let n = usize::from(p.get());
            if let Some(pool) = self.pool(p) {
                words[at::POOL_EXISTS + n] = 1;
                words[at::POOL_ATTRIBUTE + n] = u32::from(pool.attribute);
                words[at::COUNT + n] = u32::from(pool.count);
                words[at::SIZE + n] = u32::from(pool.size);
                for block in 1..=BLOCKS {
                    words[at::FLAGS + n * PER_BLOCK + block] = pool.out >> (block - 1) & 1;
                }
            }
        }
        words
    }

    /// The kernel of a lent state, if state and areas are valid.
    pub fn from_words(words: &[u32], store: &[u8], outbox: &[u8]) -> Option<Kernel> {
        if !check(words, store, outbox) {
            return None;
        }
        // All numbers are in range from here on.
        let number = |at: usize| words[at] as i32;
        let mut kernel = Kernel::empty();
        for m in MutexNo::all() {
            let n = usize::from(m.get());
            if words[at::MUTEX_EXISTS + n] == 1 {
                kernel.mutexes[m.index()] = Some(Mutex {
                    attribute: words[at::MUTEX_ATTRIBUTE + n] as u8,
                    ceiling: words[at::CEILING + n] as u8,
                    holder: TaskNo::new(number(at::HOLDER + n)),
                    waiters: TaskSet::EMPTY,
                });
            }
        }
        for b in BufferNo::all() {
            let n = usize::from(b.get());
            if words[at::BUFFER_EXISTS + n] == 1 {
                kernel.buffers[b.index()] = Some(Buffer {
                    attribute: words[at::BUFFER_ATTRIBUTE + n] as u8,
                    bufsz: words[at::BUFSZ + n] as u16,
                    maxmsz: words[at::MAXMSZ + n] as u8,
                    used: words[at::USED + n] as u16,
                    senders: TaskSet::EMPTY,
                    receivers: TaskSet::EMPTY,
                });
            }
        }
        for p in PoolNo::all() {
            let n = usize::from(p.get());
            if words[at::POOL_EXISTS + n] == 1 {
                let flags = &words[at::FLAGS + n * PER_BLOCK + 1..][..BLOCKS];
                kernel.pools[p.index()] = Some(Pool {
                    attribute: words[at::POOL_ATTRIBUTE + n] as u16,
                    count: words[at::COUNT + n] as u8,
                    size: words[at::SIZE + n] as u16,
                    out: flags.iter().rev().fold(0, |out, flag| out << 1 | flag),
                    waiters: TaskSet::EMPTY,
                });
            }
        }
        for t in TaskNo::all() {
            let n = usize::from(t.get());
            let object = number(at::OBJECT + n);
            let place = match words[at::PLACE + n] {
                DORMANT => Place::Dormant,
                READY => Place::Ready,
                LOCKING => Place::Locking(MutexNo::new(object)?),
                SENDING => Place::Sending(BufferNo::new(object)?),
                RECEIVING => Place::Receiving(BufferNo::new(object)?),
                GETTING => Place::Getting(PoolNo::new(object)?),
                _ => Place::Absent,
            };
            kernel.tasks[t.index()] = Task {
                place,
                length: words[at::ARGUMENT + n] as u8,
                initial: words[at::INITIAL + n] as u8,
                base: words[at::BASE + n] as u8,
                current: words[at::CURRENT + n] as u8,
                left: words[at::LEFT + n],
                arrival: 0,
            };
            if let Some(queue) = kernel.queue_mut(place) {
                queue.insert(t);
            }
            let left = words[at::LEFT + n];
            if left != 0 && left != ENDLESS {
                kernel.timed.insert(t);
            }
        }
        for i in 0..TASKS {
            if let Some(t) = TaskNo::new(number(at::ARRIVALS + i)) {
                kernel.arrive(t);
            }
        }
        kernel.store.as_flattened_mut().copy_from_slice(store);
        kernel.outbox.as_flattened_mut().copy_from_slice(outbox);
        kernel.choose_running();
        Some(kernel)
    }

    /// The started tasks, longest-standing first.
    pub(crate) fn arrivals(&self) -> Vec<TaskNo> {
        let started = |t: &TaskNo| !matches!(self.task(*t).place, Place::Absent | Place::Dormant);
        let mut arrivals: Vec<TaskNo> = TaskNo::all().filter(started).collect();
        arrivals.sort_by_key(|&t| self.task(t).arrival);
        arrivals
    }

    /// The bit of each ready task's current priority. The kernel itself does without it.
    fn bitmap(&self) -> u32 {
        let mut bits = 0;
        for t in TaskNo::all() {
            let task = self.task(t);
            if task.place == Place::Ready {
                bits |= 1 << (task.current - 1);
            }
        }
        bits
    }
}
