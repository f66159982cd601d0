//! Whether a lent state and its areas are valid, read from the words alone: nothing here is shared
//! with the kernel's own bookkeeping, so that the one can be held against the other.

use crate::limits::*;
use crate::words::*;

/// Whether the state is valid and the areas have their lengths and layout.
pub fn check(words: &[u32], store: &[u8], outbox: &[u8]) -> bool {
    if words.len() != WORDS || store.len() != STORE || outbox.len() != OUTBOX {
        return false;
    }
    let lent = Lent::new(words, store, outbox);
    // The ranges come first: everything after them uses the numbers to find its way.
    lent.ranges()
        && lent.arrivals_in_order()
        && lent.priorities_afresh()
        && lent.bitmap_afresh()
        && lent.mutexes_agree()
        && lent.buffers_agree()
        && lent.pools_agree()
        && lent.outbox_laid_out()
}

/// A lent state taken apart into its lists.
pub(crate) struct Lent<'a> {
    pub(crate) place: &'a [u32],
    pub(crate) object: &'a [u32],
    pub(crate) argument: &'a [u32],
    pub(crate) initial: &'a [u32],
    pub(crate) base: &'a [u32],
    pub(crate) current: &'a [u32],
    pub(crate) left: &'a [u32],
    pub(crate) arrivals: &'a [u32],
    pub(crate) bitmap: u32,
    pub(crate) mutex_exists: &'a [u32],
    pub(crate) mutex_attribute: &'a [u32],
    pub(crate) ceiling: &'a [u32],
    pub(crate) holder: &'a [u32],
    pub(crate) buffer_exists: &'a [u32],
    pub(crate) buffer_attribute: &'a [u32],
    pub(crate) bufsz: &'a [u32],
    pub(crate) maxmsz: &'a [u32],
    pub(crate) used: &'a [u32],
    pub(crate) pool_exists: &'a [u32],
    pub(crate) pool_attribute: &'a [u32],
    pub(crate) count: &'a [u32],
    pub(crate) size: &'a [u32],
    pub(crate) flags: &'a [u32],
    pub(crate) store: &'a [u8],
    pub(crate) outbox: &'a [u8],
}

impl<'a> Lent<'a> {
    /// `words` has its full length.
    pub(crate) fn new(words: &'a [u32], store: &'a [u8], outbox: &'a [u8]) -> Lent<'a> {
        let list = |at: usize, entries: usize| &words[at..at + entries];
        Lent {
            place: list(at::PLACE, PER_TASK),
            object: list(at::OBJECT, PER_TASK),
            argument: list(at::ARGUMENT, PER_TASK),
            initial: list(at::INITIAL, PER_TASK),
            base: list(at::BASE, PER_TASK),
            current: list(at::CURRENT, PER_TASK),
            left: list(at::LEFT, PER_TASK),
            arrivals: list(at::ARRIVALS, TASKS),
            bitmap: words[at::BITMAP],
            mutex_exists: list(at::MUTEX_EXISTS, PER_MUTEX),
            mutex_attribute: list(at::MUTEX_ATTRIBUTE, PER_MUTEX),
            ceiling: list(at::CEILING, PER_MUTEX),
            holder: list(at::HOLDER, PER_MUTEX),
            buffer_exists: list(at::BUFFER_EXISTS, PER_BUFFER),
            buffer_attribute: list(at::BUFFER_ATTRIBUTE, PER_BUFFER),
            bufsz: list(at::BUFSZ, PER_BUFFER),
            maxmsz: list(at::MAXMSZ, PER_BUFFER),
            used: list(at::USED, PER_BUFFER),
            pool_exists: list(at::POOL_EXISTS, PER_POOL),
            pool_attribute: list(at::POOL_ATTRIBUTE, PER_POOL),
            count: list(at::COUNT, PER_POOL),
            size: list(at::SIZE, PER_POOL),
            flags: list(at::FLAGS, PER_POOL * PER_BLOCK),
            store,
            outbox,
        }
    }

    // Ranges, and unused entries as in the fresh kernel.

    fn ranges(&self) -> bool {
        // Objects before tasks: a waiting task's entry is held against its object's.
        (0..PER_MUTEX).all(|m| self.mutex_in_range(m))
            && (0..PER_BUFFER).all(|b| self.buffer_in_range(b))
            && (0..PER_POOL).all(|p| self.pool_in_range(p))
            && (0..PER_TASK).all(|t| self.task_in_range(t))
            && self.pool_bytes() <= POOL_BYTES as u32
    }

    fn mutex_in_range(&self, m: usize) -> bool {
        let entries = [self.mutex_attribute[m], self.ceiling[m], self.holder[m]];
        match self.mutex_exists[m] {
            0 => entries == [0; 3],
            1 => {
                let [attribute, ceiling, holder] = entries;
                m != 0
                    && attribute <= u32::from(MUTEX_CEILING)
                    && if attribute == u32::from(MUTEX_CEILING) {
                        is_priority(ceiling)
                    } else {
                        ceiling == 0
                    }
                    && holder <= TASKS as u32
                    // A dormant or absent task holds nothing.
                    && (holder == 0 || self.is_started(holder as usize))
            }
            _ => false,
        }
    }

    fn buffer_in_range(&self, b: usize) -> bool {
        let entries = [self.buffer_attribute[b], self.bufsz[b], self.maxmsz[b], self.used[b]];
        match self.buffer_exists[b] {
            0 => entries == [0; 4],
            1 => {
                let [attribute, bufsz, maxmsz, used] = entries;
                b != 0
                    && attribute <= 1
                    && bufsz <= STRETCH as u32
                    && (1..=MESSAGE as u32).contains(&maxmsz)
                    && used <= bufsz
            }
            _ => false,
        }
    }

    fn pool_in_range(&self, p: usize) -> bool {
        let entries = [self.pool_attribute[p], self.count[p], self.size[p]];
        let flags = self.pool_flags(p);
        match self.pool_exists[p] {
            0 => entries == [0; 3] && flags.iter().all(|&flag| flag == 0),
            1 => {
                let [attribute, count, size] = entries;
                p != 0
                    && is_pool_attribute(attribute)
                    && (1..=BLOCKS as u32).contains(&count)
                    && (1..=BLOCK_SIZE as u32).contains(&size)
                    && flags.iter().enumerate().all(|(block, &flag)| {
                        flag == 0 || flag == 1 && block >= 1 && block <= count as usize
                    })
            }
            _ => false,
        }
    }

    pub(crate) fn pool_flags(&self, p: usize) -> &[u32] {
        &self.flags[p * PER_BLOCK..(p + 1) * PER_BLOCK]
    }

    /// Counts and sizes are in range, so no product or sum overflows.
    fn pool_bytes(&self) -> u32 {
        (1..PER_POOL).map(|p| self.count[p] * self.size[p]).sum()
    }

    fn task_in_range(&self, t: usize) -> bool {
        let (object, argument, left) = (self.object[t], self.argument[t], self.left[t]);
        let priorities = [self.initial[t], self.base[t], self.current[t]];
        if self.place[t] == ABSENT {
            return [object, argument, left] == [0; 3] && priorities == [0; 3];
        }
        if t == 0 || !priorities.into_iter().all(is_priority) {
            return false;
        }
        let exists = match self.place[t] {
            DORMANT | READY => return [object, argument, left] == [0; 3],
            LOCKING => self.mutex_exists,
            SENDING | RECEIVING => self.buffer_exists,
            GETTING => self.pool_exists,
            _ => return false,
        };
        // Entry 0 never exists, so a wait for nothing fails here too.
        let Some(1) = exists.get(object as usize) else { return false };
        let argument_in_range = if self.place[t] == SENDING {
            (1..=self.maxmsz[object as usize]).contains(&argument)
        } else {
            argument == 0
        };
        argument_in_range && (left == ENDLESS || (1..=i32::MAX as u32).contains(&left))
    }

    pub(crate) fn is_started(&self, t: usize) -> bool {
        self.place[t] >= READY
    }

    // Queues.

    /// The started tasks, each once, then zeros.
    fn arrivals_in_order(&self) -> bool {
        let started = (1..PER_TASK).filter(|&t| self.is_started(t)).count();
        let (tasks, rest) = self.arrivals.split_at(started);
        rest.iter().all(|&word| word == 0)
            && tasks.iter().enumerate().all(|(i, &t)| {
                (1..=TASKS as u32).contains(&t)
                    && self.is_started(t as usize)
                    && !tasks[..i].contains(&t)
            })
    }

    /// The tasks that wait at an object, as they arrived.
    fn queue(&self, place: u32, object: usize) -> impl Iterator<Item = usize> + '_ {
        self.arrivals
            .iter()
            .map(|&t| t as usize)
            .filter(move |&t| self.place[t] == place && self.object[t] as usize == object)
    }

    fn first_sender(&self, b: usize) -> Option<usize> {
        let mut senders = self.queue(SENDING, b);
        if self.buffer_attribute[b] == 1 {
            // The earliest of the most urgent: `min_by_key` keeps the first of equals.
            senders.min_by_key(|&t| self.current[t])
        } else {
            senders.next()
        }
    }

    // Priorities.

    /// The holder of the inheritance mutex that a task waits for.
    fn step(&self, t: usize) -> Option<usize> {
        if self.place[t] != LOCKING {
            return None;
        }
        let m = self.object[t] as usize;
        if self.mutex_attribute[m] != u32::from(MUTEX_INHERIT) || self.holder[m] == 0 {
            return None;
        }
        Some(self.holder[m] as usize)
    }

    /// The most urgent of a task's base and held ceilings.
    fn own_priority(&self, t: usize) -> u32 {
        let held = (1..PER_MUTEX).filter(|&m| self.holder[m] as usize == t && self.ceiling[m] != 0);
        held.map(|m| self.ceiling[m]).fold(self.base[t], u32::min)
    }

    fn priorities_afresh(&self) -> bool {
        let mut afresh = [0; PER_TASK];
        for t in (1..PER_TASK).filter(|&t| self.place[t] != ABSENT) {
            afresh[t] = self.own_priority(t);
        }
        for t in (1..PER_TASK).filter(|&t| self.is_started(t)) {
            // A chain reaches every task that it ever reaches in fewer steps than there are tasks.
            let mut linked = t;
            for _ in 0..TASKS {
                let Some(next) = self.step(linked) else { break };
                linked = next;
                afresh[linked] = afresh[linked].min(self.own_priority(t));
            }
        }
        self.current == afresh
    }

    /// Task by task: a bit for the priority of each that is ready, and no other bit.
    fn bitmap_afresh(&self) -> bool {
        let ready = (1..PER_TASK).filter(|&t| self.place[t] == READY);
        self.bitmap == ready.fold(0, |bits, t| bits | 1 << (self.current[t] - 1))
    }

    // Objects and those who wait for them.

    fn mutexes_agree(&self) -> bool {
        (1..PER_MUTEX).filter(|&m| self.mutex_exists[m] == 1).all(|m| {
            let holder = self.holder[m] as usize;
            (holder == 0 || self.base[holder] >= self.ceiling[m])
                && self
                    .queue(LOCKING, m)
                    .all(|t| holder != 0 && holder != t && self.base[t] >= self.ceiling[m])
        })
    }

    fn buffers_agree(&self) -> bool {
        (1..PER_BUFFER).all(|b| {
            let stretch = &self.store[(b - 1) * STRETCH..b * STRETCH];
            let (bufsz, used) = (self.bufsz[b], self.used[b]);
            let sender = self.first_sender(b);
            let receiver = self.queue(RECEIVING, b).next();
            packed(stretch, used as usize, self.maxmsz[b])
                && (receiver.is_none() || used == 0 && sender.is_none())
                && sender.is_none_or(|t| room(bufsz, used, self.argument[t] as usize) < 0)
        })
    }

    fn pools_agree(&self) -> bool {
        (1..PER_POOL).filter(|&p| self.pool_exists[p] == 1).all(|p| {
            let out: u32 = self.pool_flags(p).iter().sum();
            out == self.count[p] || self.queue(GETTING, p).next().is_none()
        })
    }

    fn outbox_laid_out(&self) -> bool {
        (1..PER_TASK).all(|t| {
            let part = &self.outbox[(t - 1) * MESSAGE..t * MESSAGE];
            part[self.argument[t] as usize..].iter().all(|&byte| byte == 0)
        })
    }
}

pub(crate) fn is_priority(number: u32) -> bool {
    (1..=u32::from(PRIORITIES)).contains(&number)
}

/// Whether `used` bytes of whole messages lie at the front of the stretch and zeros behind them.
fn packed(stretch: &[u8], used: usize, maxmsz: u32) -> bool {
    let (mut messages, rest) = stretch.split_at(used);
    while !messages.is_empty() {
        let Some((length, tail)) = messages.split_first_chunk::<LENGTH>() else { return false };
        let length = u32::from_le_bytes(*length);
        if !(1..=maxmsz).contains(&length) {
            return false;
        }
        let length = length as usize;
        let padded = cost(length) - LENGTH;
        if padded > tail.len() || tail[length..padded].iter().any(|&byte| byte != 0) {
            return false;
        }
        messages = &tail[padded..];
    }
    rest.iter().all(|&byte| byte == 0)
}
