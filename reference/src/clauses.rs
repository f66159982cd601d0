//! The clauses of validity one by one. Each is told from any words at all and takes no other for
//! granted: a number out of its range is its own clause's failure, and the others pass over it.
//! [`check`](crate::valid::check) asks the same in another way, so that the one can be held
//! against the other.

use std::borrow::Cow;

use crate::limits::*;
use crate::valid::{is_priority, Lent};
use crate::words::*;

/// A clause of 01's paragraph "Sound", or what 02 adds to it.
#[derive(Clone, Copy, PartialEq, Eq, PartialOrd, Ord, Hash, Debug)]
pub enum Clause {
    // An area not exactly STORE or OUTBOX bytes, and a state of another length.
    StateLength,
    StoreLength,
    OutboxLength,
    // Entry 0 of every list stands for none and is zero: "unused entries as in the fresh bench".
    TaskEntryZero,
    MutexEntryZero,
    BufferEntryZero,
    PoolEntryZero,
    BlockEntryZero,
    // "numbers in range"
    TaskPlace,
    TaskInitial,
    TaskBase,
    TaskCurrent,
    MutexExists,
    MutexAttribute,
    MutexCeiling,
    /// Attributes 0 to 2 keep the ceiling as 0.
    MutexNoCeiling,
    MutexHolder,
    BufferExists,
    BufferAttribute,
    BufferBufsz,
    BufferMaxmsz,
    BufferUsed,
    PoolExists,
    PoolAttribute,
    PoolCount,
    PoolSize,
    /// A block's flag is 0 or 1.
    PoolFlag,
    /// No flag beyond the pool's count.
    PoolFlagBeyond,
    /// Counts times sizes sum to at most POOL_BYTES.
    PoolSum,
    // "unused entries as in the fresh bench"
    TaskUnused,
    MutexUnused,
    BufferUnused,
    PoolUnused,
    // "each task in one line or dormant", "waits with 1 or more ms left or endless", "no two in a
    // line having joined at once"
    // A wait is at an object that exists.
    WaitMutex,
    WaitBuffer,
    WaitPool,
    /// A waiting sender's length is 1 to maxmsz.
    WaitLength,
    /// Object, length and milliseconds are 0 where there is none.
    NoWait,
    /// Not 0 milliseconds left.
    LeftSome,
    /// At most 2,147,483,647 milliseconds left, or endless.
    LeftMost,
    ArrivalNumber,
    ArrivalStarted,
    ArrivalOnce,
    ArrivalEach,
    /// Zeros after the arrivals.
    ArrivalZeros,
    /// "dormant ones hold no mutex"
    DormantHolder,
    /// "priorities [..] as worked out afresh"
    PriorityAfresh,
    /// "the bits as worked out afresh": of the places and current priorities that stand there.
    Bitmap,
    // "no base above a held or awaited ceiling"
    BaseAboveHeld,
    BaseAboveAwaited,
    /// "no task waiting for a mutex it holds"
    OwnMutex,
    // "no waiters at a free mutex or a pool with free blocks"
    FreeMutex,
    FreeBlock,
    // "no receivers beside messages or senders"
    ReceiverBesideMessage,
    ReceiverBesideSender,
    /// "no first sender that fits"
    SenderFits,
    // "areas laid out as above": packed messages, zeros behind each, and all other bytes zero.
    StoreMessages,
    StorePadding,
    StoreRest,
    OutboxRest,
}

use Clause::*;

type Holds = fn(&Lent) -> bool;

/// Every clause that is about contents, and how it is told.
const CONTENTS: [(Clause, Holds); 57] = [
    (TaskEntryZero, |s| s.task_lists().iter().all(|list| list[0] == 0)),
    (MutexEntryZero, |s| s.mutex_lists().iter().all(|list| list[0] == 0)),
    (BufferEntryZero, |s| s.buffer_lists().iter().all(|list| list[0] == 0)),
    (PoolEntryZero, |s| s.pool_lists().iter().all(|list| list[0] == 0) && zero(s.pool_flags(0))),
    (BlockEntryZero, |s| (1..PER_POOL).all(|p| s.pool_flags(p)[0] == 0)),
    (TaskPlace, |s| s.place[1..].iter().all(|&place| place <= GETTING)),
    (TaskInitial, |s| s.live().all(|t| is_priority(s.initial[t]))),
    (TaskBase, |s| s.live().all(|t| is_priority(s.base[t]))),
    (TaskCurrent, |s| s.live().all(|t| is_priority(s.current[t]))),
    (MutexExists, |s| s.mutex_exists[1..].iter().all(|&exists| exists <= 1)),
    (MutexAttribute, |s| s.mutexes().all(|m| s.mutex_attribute[m] <= u32::from(MUTEX_CEILING))),
    (MutexCeiling, |s| s.mutexes().all(|m| !s.has_ceiling(m) || is_priority(s.ceiling[m]))),
    (MutexNoCeiling, |s| s.mutexes().all(|m| s.has_ceiling(m) || s.ceiling[m] == 0)),
    (MutexHolder, |s| s.mutexes().all(|m| s.holder[m] <= TASKS as u32)),
    (BufferExists, |s| s.buffer_exists[1..].iter().all(|&exists| exists <= 1)),
    (BufferAttribute, |s| s.buffers().all(|b| s.buffer_attribute[b] <= 1)),
    (BufferBufsz, |s| s.buffers().all(|b| s.bufsz[b] <= STRETCH as u32)),
    (BufferMaxmsz, |s| s.buffers().all(|b| is_length(s.maxmsz[b]))),
    (BufferUsed, |s| s.buffers().all(|b| s.used[b] <= s.bufsz[b])),
    (PoolExists, |s| s.pool_exists[1..].iter().all(|&exists| exists <= 1)),
    (PoolAttribute, |s| s.pools().all(|p| is_pool_attribute(s.pool_attribute[p]))),
    (PoolCount, |s| s.pools().all(|p| is_count(s.count[p]))),
    (PoolSize, |s| s.pools().all(|p| is_size(s.size[p]))),
    (PoolFlag, |s| s.pools().all(|p| s.blocks(p).all(|b| s.pool_flags(p)[b] <= 1))),
    (PoolFlagBeyond, |s| s.pools().all(|p| zero(&s.pool_flags(p)[s.blocks(p).end..]))),
    (PoolSum, |s| s.pool_sum() <= POOL_BYTES as u32),
    (TaskUnused, |s| (1..PER_TASK).all(|t| s.is_live(t) || all_zero(s.task_lists(), t))),
    (MutexUnused, |s| {
        (1..PER_MUTEX).all(|m| s.mutex_exists[m] != 0 || all_zero(s.mutex_lists(), m))
    }),
    (BufferUnused, |s| {
        (1..PER_BUFFER).all(|b| s.buffer_exists[b] != 0 || all_zero(s.buffer_lists(), b))
    }),
    (PoolUnused, |s| {
        let unused = |p: usize| all_zero(s.pool_lists(), p) && zero(&s.pool_flags(p)[1..]);
        (1..PER_POOL).all(|p| s.pool_exists[p] != 0 || unused(p))
    }),
    (WaitMutex, |s| s.objects_exist(&[LOCKING], s.mutex_exists)),
    (WaitBuffer, |s| s.objects_exist(&[SENDING, RECEIVING], s.buffer_exists)),
    (WaitPool, |s| s.objects_exist(&[GETTING], s.pool_exists)),
    (WaitLength, |s| s.waiting().all(|t| s.place[t] != SENDING || s.length_in_range(t))),
    (NoWait, |s| s.live().all(|t| s.fields_without_wait(t))),
    (LeftSome, |s| s.waiting().all(|t| s.left[t] != 0)),
    (LeftMost, |s| s.waiting().all(|t| s.left[t] <= i32::MAX as u32 || s.left[t] == ENDLESS)),
    (ArrivalNumber, |s| s.arrivals.iter().all(|&word| word <= TASKS as u32)),
    (ArrivalStarted, |s| s.arrived().all(|t| s.is_started(t))),
    (ArrivalOnce, |s| (1..PER_TASK).all(|t| s.arrived().filter(|&a| a == t).count() <= 1)),
    (ArrivalEach, |s| s.started().all(|t| s.arrived().any(|a| a == t))),
    (ArrivalZeros, |s| s.arrivals.windows(2).all(|pair| pair[0] != 0 || pair[1] == 0)),
    (DormantHolder, |s| s.mutexes().filter_map(|m| s.held_by(m)).all(|t| s.is_started(t))),
    (PriorityAfresh, |s| {
        let afresh = s.priorities_from_bases();
        s.live().all(|t| s.current[t] == afresh[t])
    }),
    (Bitmap, |s| s.bitmap == s.bits_of_ready_tasks()),
    (BaseAboveHeld, |s| s.mutexes().all(|m| s.held_by(m).is_none_or(|t| !s.is_above(t, m)))),
    (BaseAboveAwaited, |s| s.waiting().all(|t| s.mutex_of(t).is_none_or(|m| !s.is_above(t, m)))),
    (OwnMutex, |s| s.waiting().all(|t| s.mutex_of(t).is_none_or(|m| s.holder[m] != t as u32))),
    (FreeMutex, |s| s.waiting().all(|t| s.mutex_of(t).is_none_or(|m| s.holder[m] != 0))),
    (ReceiverBesideMessage, |s| s.buffers().all(|b| s.used[b] == 0 || !s.any(RECEIVING, b))),
    (ReceiverBesideSender, |s| s.buffers().all(|b| !s.any(SENDING, b) || !s.any(RECEIVING, b))),
    (SenderFits, |s| s.buffers().all(|b| !s.head_fits(b))),
    (FreeBlock, |s| {
        let full = |p: usize| s.blocks(p).all(|b| s.pool_flags(p)[b] != 0);
        s.pools().all(|p| full(p) || !s.any(GETTING, p))
    }),
    (StoreMessages, |s| (1..PER_BUFFER).all(|b| s.stored(b).whole)),
    (StorePadding, |s| (1..PER_BUFFER).all(|b| s.stored(b).padding)),
    (StoreRest, |s| (1..PER_BUFFER).all(|b| zero(&s.stretch(b)[s.used_bytes(b)..]))),
    (OutboxRest, |s| (1..PER_TASK).all(|t| zero(&s.outbox_part(t)[s.sent_bytes(t)..]))),
];

/// Every clause, the lengths first.
pub const CLAUSES: [Clause; 3 + CONTENTS.len()] = {
    let mut all = [StateLength; 3 + CONTENTS.len()];
    all[1] = StoreLength;
    all[2] = OutboxLength;
    let mut i = 0;
    while i < CONTENTS.len() {
        all[3 + i] = CONTENTS[i].0;
        i += 1;
    }
    all
};

impl Clause {
    /// Whether the clauses that fail are as few as can be with this one: itself, and for the
    /// current priorities' range one more. With bases and ceilings in range what is worked out
    /// afresh is in range too, so a current priority out of range either is not the one afresh or
    /// has a base out of range.
    pub fn fails_alone(self, failing: &[Clause]) -> bool {
        match self {
            TaskCurrent => [[TaskBase, TaskCurrent], [TaskCurrent, PriorityAfresh]]
                .iter()
                .any(|f| f == failing),
            alone => failing == [alone],
        }
    }
}

/// All clauses that fail. What a short state or area lacks is read as zeros, and what a long one
/// has too much is not read.
pub fn failing(words: &[u32], store: &[u8], outbox: &[u8]) -> Vec<Clause> {
    let mut failing = Vec::new();
    for (clause, length, right) in [
        (StateLength, words.len(), WORDS),
        (StoreLength, store.len(), STORE),
        (OutboxLength, outbox.len(), OUTBOX),
    ] {
        if length != right {
            failing.push(clause);
        }
    }
    let (words, store) = (of_length(words, WORDS), of_length(store, STORE));
    let outbox = of_length(outbox, OUTBOX);
    let lent = Lent::new(&words, &store, &outbox);
    failing.extend(CONTENTS.iter().filter(|(_, holds)| !holds(&lent)).map(|&(clause, _)| clause));
    failing
}

/// The current priorities worked out afresh, by task; of absent tasks too. `words` has its length.
pub fn afresh(words: &[u32]) -> [u32; PER_TASK] {
    Lent::new(words, &[], &[]).priorities_from_bases()
}

/// The bitmap worked out afresh, from any places and current priorities. `words` has its length.
pub fn bitmap_afresh(words: &[u32]) -> u32 {
    Lent::new(words, &[], &[]).bits_of_ready_tasks()
}

fn of_length<T: Copy + Default>(list: &[T], length: usize) -> Cow<'_, [T]> {
    if list.len() >= length {
        return Cow::Borrowed(&list[..length]);
    }
    let mut filled = list.to_vec();
    filled.resize(length, T::default());
    Cow::Owned(filled)
}

fn zero<T: Copy + Default + PartialEq>(list: &[T]) -> bool {
    list.iter().all(|&entry| entry == T::default())
}

fn all_zero<const N: usize>(lists: [&[u32]; N], number: usize) -> bool {
    lists.iter().all(|list| list[number] == 0)
}

fn is_length(number: u32) -> bool {
    (1..=MESSAGE as u32).contains(&number)
}

fn is_count(number: u32) -> bool {
    (1..=BLOCKS as u32).contains(&number)
}

fn is_size(number: u32) -> bool {
    (1..=BLOCK_SIZE as u32).contains(&number)
}

/// What a walk over a buffer's messages finds.
struct Stored {
    /// Whole messages with lengths in range make up the bytes in use.
    whole: bool,
    /// Zeros between each message and the next one.
    padding: bool,
}

impl Lent<'_> {
    fn task_lists(&self) -> [&[u32]; 7] {
        let Lent { place, object, argument, initial, base, current, left, .. } = *self;
        [place, object, argument, initial, base, current, left]
    }

    fn mutex_lists(&self) -> [&[u32]; 4] {
        [self.mutex_exists, self.mutex_attribute, self.ceiling, self.holder]
    }

    fn buffer_lists(&self) -> [&[u32]; 5] {
        [self.buffer_exists, self.buffer_attribute, self.bufsz, self.maxmsz, self.used]
    }

    fn pool_lists(&self) -> [&[u32]; 4] {
        [self.pool_exists, self.pool_attribute, self.count, self.size]
    }

    // Tasks. A place out of range counts as a wait at no object that is known.

    fn is_live(&self, t: usize) -> bool {
        self.place[t] != ABSENT
    }

    fn live(&self) -> impl Iterator<Item = usize> + '_ {
        (1..PER_TASK).filter(|&t| self.is_live(t))
    }

    fn started(&self) -> impl Iterator<Item = usize> + '_ {
        (1..PER_TASK).filter(|&t| self.is_started(t))
    }

    fn waiting(&self) -> impl Iterator<Item = usize> + '_ {
        (1..PER_TASK).filter(|&t| self.place[t] >= LOCKING)
    }

    /// The tasks among the arrivals, as they stand there.
    fn arrived(&self) -> impl Iterator<Item = usize> + '_ {
        self.arrivals.iter().map(|&word| word as usize).filter(|word| (1..PER_TASK).contains(word))
    }

    /// Whether every wait at one of these places is at an object that exists.
    fn objects_exist(&self, places: &[u32], exists: &[u32]) -> bool {
        let awaited = |t: usize| exists.get(self.object[t] as usize).is_some_and(|&word| word != 0);
        let mut waiting = self.waiting().filter(|&t| places.contains(&self.place[t]));
        waiting.all(|t| self.object[t] != 0 && awaited(t))
    }

    fn length_in_range(&self, t: usize) -> bool {
        let b = self.object[t] as usize;
        let maxmsz = self.maxmsz.get(b).copied().filter(|&maxmsz| is_length(maxmsz));
        (1..=maxmsz.unwrap_or(MESSAGE as u32)).contains(&self.argument[t])
    }

    fn fields_without_wait(&self, t: usize) -> bool {
        match self.place[t] {
            DORMANT | READY => [self.object[t], self.argument[t], self.left[t]] == [0; 3],
            LOCKING | RECEIVING | GETTING => self.argument[t] == 0,
            _ => true,
        }
    }

    /// Whether any task waits so at an object.
    fn any(&self, place: u32, object: usize) -> bool {
        self.at(place, object).next().is_some()
    }

    fn at(&self, place: u32, object: usize) -> impl Iterator<Item = usize> + '_ {
        self.waiting().filter(move |&t| self.place[t] == place && self.object[t] == object as u32)
    }

    // Mutexes.

    fn mutexes(&self) -> impl Iterator<Item = usize> + '_ {
        (1..PER_MUTEX).filter(|&m| self.mutex_exists[m] != 0)
    }

    fn has_ceiling(&self, m: usize) -> bool {
        self.mutex_attribute[m] == u32::from(MUTEX_CEILING)
    }

    fn held_by(&self, m: usize) -> Option<usize> {
        Some(self.holder[m] as usize).filter(|t| (1..PER_TASK).contains(t))
    }

    /// The mutex that a task waits for.
    fn mutex_of(&self, t: usize) -> Option<usize> {
        let m = self.object[t] as usize;
        let exists = (1..PER_MUTEX).contains(&m) && self.mutex_exists[m] != 0;
        (self.place[t] == LOCKING && exists).then_some(m)
    }

    /// Whether a task's base is above a mutex's ceiling.
    fn is_above(&self, t: usize, m: usize) -> bool {
        self.has_ceiling(m) && is_priority(self.ceiling[m]) && self.base[t] < self.ceiling[m]
    }

    /// From bases and held ceilings, passed on from waiters to holders until nothing can change.
    fn priorities_from_bases(&self) -> [u32; PER_TASK] {
        let mut priorities: [u32; PER_TASK] = std::array::from_fn(|t| self.base[t]);
        for m in self.mutexes().filter(|&m| self.has_ceiling(m) && is_priority(self.ceiling[m])) {
            if let Some(t) = self.held_by(m) {
                priorities[t] = priorities[t].min(self.ceiling[m]);
            }
        }
        for _ in 0..TASKS {
            for t in self.waiting() {
                let inherits = |&m: &usize| self.mutex_attribute[m] == u32::from(MUTEX_INHERIT);
                let holder = self.mutex_of(t).filter(inherits).and_then(|m| self.held_by(m));
                if let Some(holder) = holder {
                    priorities[holder] = priorities[holder].min(priorities[t]);
                }
            }
        }
        priorities
    }

    /// Priority by priority: its bit if a ready task has it. One that is out of range has no bit.
    fn bits_of_ready_tasks(&self) -> u32 {
        let is_ready =
            |t: usize, priority: u32| self.place[t] == READY && self.current[t] == priority;
        let has_ready = |&priority: &u32| (1..PER_TASK).any(|t| is_ready(t, priority));
        let priorities = (1..=u32::from(PRIORITIES)).filter(has_ready);
        priorities.map(|priority| 1u32 << (priority - 1)).sum()
    }

    // Buffers.

    fn buffers(&self) -> impl Iterator<Item = usize> + '_ {
        (1..PER_BUFFER).filter(|&b| self.buffer_exists[b] != 0)
    }

    /// Whether there is a first sender and its message fits.
    fn head_fits(&self, b: usize) -> bool {
        let by_priority = self.buffer_attribute[b] == 1;
        let head = self.at(SENDING, b).min_by_key(|&t| {
            let arrival = self.arrived().position(|a| a == t).unwrap_or(TASKS);
            (if by_priority { self.current[t] } else { 0 }, arrival)
        });
        let length = head.map(|t| self.argument[t]).filter(|&length| is_length(length));
        length.is_some_and(|length| room(self.bufsz[b], self.used[b], length as usize) >= 0)
    }

    fn stretch(&self, b: usize) -> &[u8] {
        &self.store[(b - 1) * STRETCH..b * STRETCH]
    }

    /// Bytes of a stretch in use; none of an absent buffer's.
    fn used_bytes(&self, b: usize) -> usize {
        if self.buffer_exists[b] == 0 {
            return 0;
        }
        (self.used[b] as usize).min(STRETCH)
    }

    fn stored(&self, b: usize) -> Stored {
        let used = self.used_bytes(b);
        let most = if is_length(self.maxmsz[b]) { self.maxmsz[b] } else { MESSAGE as u32 };
        let mut found = Stored { whole: true, padding: true };
        let mut at = 0;
        while found.whole && at < used {
            let stretch = self.stretch(b);
            let length = (0..LENGTH).rev().fold(0u32, |length, i| {
                length << 8 | stretch.get(at + i).map_or(0, |&byte| u32::from(byte))
            });
            let next = at + cost(length.min(most) as usize);
            found.whole = (1..=most).contains(&length) && next <= used;
            if found.whole {
                found.padding &= zero(&stretch[at + LENGTH + length as usize..next]);
            }
            at = next;
        }
        found
    }

    fn outbox_part(&self, t: usize) -> &[u8] {
        &self.outbox[(t - 1) * MESSAGE..t * MESSAGE]
    }

    /// Bytes that a waiting sender has in its part of the outbox.
    fn sent_bytes(&self, t: usize) -> usize {
        if self.place[t] != SENDING {
            return 0;
        }
        (self.argument[t] as usize).min(MESSAGE)
    }

    // Pools.

    fn pools(&self) -> impl Iterator<Item = usize> + '_ {
        (1..PER_POOL).filter(|&p| self.pool_exists[p] != 0)
    }

    /// The numbers of a pool's blocks; all that there can be if the count is out of range.
    fn blocks(&self, p: usize) -> std::ops::Range<usize> {
        let count = if is_count(self.count[p]) { self.count[p] as usize } else { BLOCKS };
        1..count + 1
    }

    /// Bytes of the pools whose count and size are in range.
    fn pool_sum(&self) -> u32 {
        let in_range = |p: &usize| is_count(self.count[*p]) && is_size(self.size[*p]);
        self.pools().filter(in_range).map(|p| self.count[p] * self.size[p]).sum()
    }
}
