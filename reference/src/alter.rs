//! What makes a valid state fail a single clause.

use crate::clauses::Clause;
use crate::lent_state::{flags_at, make_wait, messages, resize, shuffle_arrivals, State};
use crate::limits::*;
use crate::random::Random;
use crate::words::*;

/// A number that is not zero, often a small one.
fn nonzero(random: &mut Random) -> u32 {
    match random.below(4) {
        0 => 1,
        1 => 1 + random.below(PER_TASK) as u32,
        2 => random.pick(&[2, 255, 256, 257, 1 << 16, 1 << 31, i32::MAX as u32, u32::MAX]),
        _ => (random.word() as u32).max(1),
    }
}

/// A number beyond a limit.
fn beyond(random: &mut Random, limit: u32) -> u32 {
    match random.below(4) {
        0 | 1 => limit + 1,
        // A number in range to whoever drops the upper bytes.
        2 => (random.pick(&[1 << 8, 1 << 16, 1 << 24, 1 << 31]) | limit.min(1)).max(limit + 1),
        _ => random.pick(&[u32::MAX, u32::MAX - 1, 1 << 31, i32::MAX as u32, limit + 2]),
    }
}

/// A number outside 1 to a limit.
fn outside(random: &mut Random, limit: u32) -> u32 {
    if random.percent(40) {
        0
    } else {
        beyond(random, limit)
    }
}

/// Makes a change after which the clause is likely to fail alone; none if the state has nothing
/// to make it on.
pub(crate) fn alter(clause: Clause, state: &mut State, random: &mut Random) -> Option<()> {
    use Clause::*;
    match clause {
        StateLength => resize(&mut state.words, random),
        StoreLength => resize(&mut state.store, random),
        OutboxLength => resize(&mut state.outbox, random),
        TaskEntryZero | MutexEntryZero | BufferEntryZero | PoolEntryZero | BlockEntryZero => {
            alter_entry_zero(clause, state, random)
        }
        TaskUnused | MutexUnused | BufferUnused | PoolUnused => {
            return alter_unused(clause, state, random)
        }
        TaskPlace | TaskInitial | TaskBase | TaskCurrent | PriorityAfresh => {
            return alter_task(clause, state, random)
        }
        WaitMutex | WaitBuffer | WaitPool | WaitLength | NoWait | LeftSome | LeftMost => {
            return alter_wait(clause, state, random)
        }
        ArrivalNumber | ArrivalStarted | ArrivalOnce | ArrivalEach | ArrivalZeros => {
            return alter_arrivals(clause, state, random)
        }
        Bitmap => alter_bitmap(state, random),
        MutexExists | MutexAttribute | MutexCeiling | MutexNoCeiling | MutexHolder
        | DormantHolder => return alter_mutex(clause, state, random),
        BaseAboveHeld | BaseAboveAwaited | OwnMutex | FreeMutex => {
            return alter_lock(clause, state, random)
        }
        BufferExists | BufferAttribute | BufferBufsz | BufferMaxmsz | BufferUsed => {
            return alter_buffer(clause, state, random)
        }
        ReceiverBesideMessage | ReceiverBesideSender | SenderFits => {
            return alter_message(clause, state, random)
        }
        StoreMessages | StorePadding | StoreRest | OutboxRest => {
            return alter_area(clause, state, random)
        }
        PoolExists | PoolAttribute | PoolCount | PoolSize | PoolFlag | PoolFlagBeyond | PoolSum
        | FreeBlock => return alter_pool(clause, state, random),
    }
    Some(())
}

fn alter_entry_zero(clause: Clause, state: &mut State, random: &mut Random) {
    let at = match clause {
        Clause::TaskEntryZero => random.pick(&TASK_LISTS),
        Clause::MutexEntryZero => random.pick(&MUTEX_LISTS),
        Clause::BufferEntryZero => random.pick(&BUFFER_LISTS),
        Clause::PoolEntryZero if random.percent(50) => random.pick(&POOL_LISTS),
        Clause::PoolEntryZero => flags_at(0) + random.below(PER_BLOCK),
        _ => flags_at(1 + random.below(POOLS)),
    };
    state.words[at] = nonzero(random);
}

fn alter_unused(clause: Clause, state: &mut State, random: &mut Random) -> Option<()> {
    let (lists, numbers): (&[usize], _) = match clause {
        Clause::TaskUnused => (&TASK_LISTS, PER_TASK),
        Clause::MutexUnused => (&MUTEX_LISTS, PER_MUTEX),
        Clause::BufferUnused => (&BUFFER_LISTS, PER_BUFFER),
        _ => (&POOL_LISTS, PER_POOL),
    };
    let unused = random.any_of(1..numbers, |n| state.word(lists[0], n) == 0)?;
    let flag = flags_at(unused.min(POOLS)) + 1 + random.below(BLOCKS);
    let at = if clause == Clause::PoolUnused && random.percent(50) {
        flag
    } else {
        random.pick(&lists[1..]) + unused
    };
    state.words[at] = nonzero(random);
    Some(())
}

fn alter_task(clause: Clause, state: &mut State, random: &mut Random) -> Option<()> {
    let live = |t: usize| state.word(at::PLACE, t) != ABSENT;
    let limit = u32::from(PRIORITIES);
    match clause {
        Clause::TaskPlace => {
            let t = random.any_of(1..PER_TASK, |t| state.is_waiting(t))?;
            state.set(at::PLACE, t, beyond(random, GETTING));
            state.settle();
        }
        Clause::TaskInitial => {
            let t = random.any_of(1..PER_TASK, live)?;
            state.set(at::INITIAL, t, outside(random, limit));
        }
        Clause::TaskBase => {
            // Raised by others, so that its own base makes no difference.
            let raised = |t: usize| state.word(at::CURRENT, t) < state.word(at::BASE, t);
            let t = random.any_of(1..PER_TASK, raised)?;
            state.set(at::BASE, t, beyond(random, limit));
        }
        Clause::TaskCurrent => {
            let t = random.any_of(1..PER_TASK, live)?;
            let priority = outside(random, limit);
            state.set(at::CURRENT, t, priority);
            if random.percent(50) {
                state.set(at::BASE, t, priority);
            }
        }
        _ => {
            let t = random.any_of(1..PER_TASK, live)?;
            let old = state.word(at::CURRENT, t);
            let near = random.pick(&[old.wrapping_sub(1), old + 1, state.word(at::BASE, t)]);
            let other = 1 + random.below(limit as usize) as u32;
            state.set(at::CURRENT, t, if random.percent(60) { near } else { other });
        }
    }
    state.settle_bitmap();
    Some(())
}

fn alter_wait(clause: Clause, state: &mut State, random: &mut Random) -> Option<()> {
    let waiting = random.any_of(1..PER_TASK, |t| state.is_waiting(t));
    match clause {
        Clause::WaitMutex | Clause::WaitBuffer | Clause::WaitPool => {
            let (places, numbers): (&[u32], _) = match clause {
                Clause::WaitMutex => (&[LOCKING], MUTEXES),
                Clause::WaitBuffer => (&[SENDING, RECEIVING], BUFFERS),
                _ => (&[GETTING], POOLS),
            };
            let waits = |t: usize| places.contains(&state.word(at::PLACE, t));
            let t = random.any_of(1..PER_TASK, waits)?;
            let object = match random.below(3) {
                0 => 0,
                1 => 1 + random.below(numbers) as u32,
                _ => beyond(random, numbers as u32),
            };
            state.set(at::OBJECT, t, object);
            state.settle();
        }
        Clause::WaitLength => {
            let t = random.any_of(1..PER_TASK, |t| state.word(at::PLACE, t) == SENDING)?;
            let maxmsz = state.word(at::MAXMSZ, state.word(at::OBJECT, t) as usize);
            let length = outside(random, maxmsz);
            state.set(at::ARGUMENT, t, length);
            if length == 0 {
                state.outbox[(t - 1) * MESSAGE..t * MESSAGE].fill(0);
            }
        }
        Clause::NoWait if random.percent(25) => state.set(at::ARGUMENT, waiting?, nonzero(random)),
        Clause::NoWait => {
            let idle = |t: usize| [DORMANT, READY].contains(&state.word(at::PLACE, t));
            let t = random.any_of(1..PER_TASK, idle)?;
            let list = random.pick(&[at::OBJECT, at::ARGUMENT, at::LEFT]);
            let word = if random.percent(20) { ENDLESS } else { nonzero(random) };
            state.set(list, t, word);
        }
        Clause::LeftSome => state.set(at::LEFT, waiting?, 0),
        _ => {
            let any = random.word() as u32 | 1 << 31;
            let left = random.pick(&[1 << 31, (1 << 31) + 1, ENDLESS - 1, ENDLESS - 2, any]);
            state.set(at::LEFT, waiting?, left);
        }
    }
    Some(())
}

fn alter_arrivals(clause: Clause, state: &mut State, random: &mut Random) -> Option<()> {
    let mut arrivals = state.words[at::ARRIVALS..][..TASKS].to_vec();
    let end = arrivals.iter().position(|&word| word == 0).unwrap_or(TASKS);
    let more = match clause {
        Clause::ArrivalNumber => beyond(random, TASKS as u32),
        Clause::ArrivalStarted => random.any_of(1..PER_TASK, |t| !state.is_started(t))? as u32,
        Clause::ArrivalOnce => random.pick_if_any(&arrivals[..end])?,
        _ => 0,
    };
    if more != 0 || clause == Clause::ArrivalZeros {
        // One more, at any place.
        arrivals.insert(random.below(end + 1), more);
    } else {
        arrivals.remove(random.any_of(0..end, |_| true)?);
        arrivals.push(0);
    }
    state.words[at::ARRIVALS..][..TASKS].copy_from_slice(&arrivals[..TASKS]);
    Some(())
}

/// One bit, several, any word, or the bits that a mistake gives.
fn alter_bitmap(state: &mut State, random: &mut Random) {
    let right = state.words[at::BITMAP];
    let every = (1 << PRIORITIES) - 1;
    let moved = [right << 1, right >> 1, right << 16, right.reverse_bits()];
    let set = random.any_of(0..32, |bit| right >> bit & 1 == 1);
    state.words[at::BITMAP] = match random.below(8) {
        0 | 1 => right ^ 1 << random.below(32),
        2 => right & !(1 << set.unwrap_or(0)),
        3 => right ^ (random.word() & random.word() & random.word()) as u32,
        4 => random.word() as u32,
        5 => random.pick(&[0, every, !every, u32::MAX, right ^ every, !right]),
        6 => random.pick(&moved),
        _ => mistaken_bitmap(state, random),
    };
}

/// The bits if bases counted for current priorities, or waiting or dormant tasks for ready ones.
fn mistaken_bitmap(state: &State, random: &mut Random) -> u32 {
    let mistake = random.below(3);
    let mut mistaken = state.clone();
    for t in 1..PER_TASK {
        match mistake {
            0 => mistaken.set(at::CURRENT, t, state.word(at::BASE, t)),
            1 if state.is_waiting(t) => mistaken.set(at::PLACE, t, READY),
            2 if state.word(at::PLACE, t) == DORMANT => mistaken.set(at::PLACE, t, READY),
            _ => {}
        }
    }
    mistaken.settle_bitmap();
    mistaken.words[at::BITMAP]
}

fn alter_mutex(clause: Clause, state: &mut State, random: &mut Random) -> Option<()> {
    let m = random.any_of(1..PER_MUTEX, |m| state.word(at::MUTEX_EXISTS, m) == 1)?;
    let (list, word) = match clause {
        Clause::MutexExists => (at::MUTEX_EXISTS, beyond(random, 1)),
        Clause::MutexAttribute => (at::MUTEX_ATTRIBUTE, beyond(random, u32::from(MUTEX_CEILING))),
        Clause::MutexCeiling => {
            state.set(at::MUTEX_ATTRIBUTE, m, u32::from(MUTEX_CEILING));
            (at::CEILING, outside(random, u32::from(PRIORITIES)))
        }
        Clause::MutexNoCeiling => (at::CEILING, nonzero(random)),
        Clause::MutexHolder => (at::HOLDER, beyond(random, TASKS as u32)),
        _ => {
            let t = random.any_of(1..PER_TASK, |t| !state.is_started(t))?;
            (at::HOLDER, t as u32)
        }
    };
    state.set(list, m, word);
    state.settle();
    Some(())
}

/// What holds between mutexes and tasks.
fn alter_lock(clause: Clause, state: &mut State, random: &mut Random) -> Option<()> {
    let ceiling = u32::from(MUTEX_CEILING);
    match clause {
        Clause::BaseAboveHeld | Clause::BaseAboveAwaited => {
            let held = |m: usize| state.word(at::HOLDER, m) != 0;
            let m = random.any_of(1..PER_MUTEX, held)?;
            let waiters: Vec<usize> = state.waiters(LOCKING, m).collect();
            let t = match clause {
                Clause::BaseAboveHeld => state.word(at::HOLDER, m) as usize,
                _ => random.pick_if_any(&waiters)?,
            };
            // Where the mutex has no ceiling yet, one as high as the others allow.
            if state.word(at::MUTEX_ATTRIBUTE, m) != ceiling {
                state.set(at::MUTEX_ATTRIBUTE, m, ceiling);
                state.set(at::CEILING, m, 2 + random.below(usize::from(PRIORITIES) - 1) as u32);
            }
            let most = state.word(at::CEILING, m) as usize;
            if most > 1 && random.percent(70) {
                let base = if random.percent(50) { most - 1 } else { 1 + random.below(most - 1) };
                state.set(at::BASE, t, base as u32);
            }
        }
        Clause::OwnMutex => {
            let waits = |t: usize| state.word(at::PLACE, t) == LOCKING;
            let t = random.any_of(1..PER_TASK, waits)?;
            state.set(at::HOLDER, state.word(at::OBJECT, t) as usize, t as u32);
        }
        _ => {
            let m = random.any_of(1..PER_MUTEX, |m| state.any(LOCKING, m))?;
            state.set(at::HOLDER, m, 0);
        }
    }
    state.settle();
    Some(())
}

fn alter_buffer(clause: Clause, state: &mut State, random: &mut Random) -> Option<()> {
    let b = random.any_of(1..PER_BUFFER, |b| state.word(at::BUFFER_EXISTS, b) == 1)?;
    let (list, word) = match clause {
        Clause::BufferExists => (at::BUFFER_EXISTS, beyond(random, 1)),
        Clause::BufferAttribute => (at::BUFFER_ATTRIBUTE, beyond(random, 1)),
        Clause::BufferBufsz => (at::BUFSZ, beyond(random, STRETCH as u32)),
        Clause::BufferMaxmsz => (at::MAXMSZ, outside(random, MESSAGE as u32)),
        _ => {
            let used = state.word(at::USED, b) as usize;
            let bufsz =
                if random.percent(50) { used.checked_sub(1)? } else { random.below(used.max(1)) };
            (at::BUFSZ, bufsz as u32)
        }
    };
    state.set(list, b, word);
    Some(())
}

fn alter_message(clause: Clause, state: &mut State, random: &mut Random) -> Option<()> {
    let exists = |b: usize| state.word(at::BUFFER_EXISTS, b) == 1;
    match clause {
        Clause::ReceiverBesideMessage => {
            let b = random.any_of(1..PER_BUFFER, |b| state.word(at::USED, b) != 0)?;
            make_wait(state, random, RECEIVING, b)?;
        }
        Clause::ReceiverBesideSender => {
            let empty = |b: usize| exists(b) && state.word(at::USED, b) == 0;
            let b = random.any_of(1..PER_BUFFER, empty)?;
            if !state.any(SENDING, b) {
                state.set(at::BUFSZ, b, random.below(8) as u32);
                make_wait(state, random, SENDING, b)?;
            }
            if !state.any(RECEIVING, b) {
                make_wait(state, random, RECEIVING, b)?;
            }
        }
        _ => {
            let b = random.any_of(1..PER_BUFFER, |b| exists(b) && !state.any(RECEIVING, b))?;
            if !state.any(SENDING, b) || random.percent(20) {
                make_wait(state, random, SENDING, b)?;
            }
            let senders: Vec<usize> = state.waiters(SENDING, b).collect();
            let t = random.pick(&senders);
            match random.below(4) {
                // Just enough room, or any.
                0 => {
                    let length = state.word(at::ARGUMENT, t) as usize;
                    state.set(at::BUFSZ, b, state.word(at::USED, b) + cost(length) as u32);
                }
                1 => state.set(at::BUFSZ, b, random.below(STRETCH + 1) as u32),
                // Another order of the senders.
                2 => {
                    state.set(at::BUFFER_ATTRIBUTE, b, 1);
                    state.set(at::BASE, t, 1 + random.below(4) as u32);
                }
                _ => shuffle_arrivals(state, random),
            }
            state.settle();
        }
    }
    Some(())
}

fn alter_area(clause: Clause, state: &mut State, random: &mut Random) -> Option<()> {
    let byte = (random.word() as u8).max(1);
    match clause {
        Clause::StoreRest => state.store[random.below(STORE)] = byte,
        Clause::OutboxRest => {
            // Often just behind a message.
            let sends = |t: usize| state.word(at::PLACE, t) == SENDING;
            let behind = random
                .any_of(1..PER_TASK, sends)
                .map(|t| (t - 1) * MESSAGE + state.word(at::ARGUMENT, t) as usize);
            let any = random.below(OUTBOX);
            let at = behind.filter(|&at| at < OUTBOX && random.percent(50)).unwrap_or(any);
            state.outbox[at] = byte;
        }
        _ => {
            let b = random.any_of(1..PER_BUFFER, |b| state.word(at::USED, b) != 0)?;
            let message = random.pick_if_any(&messages(state, b))?;
            let length = usize::from(state.store[message]);
            if clause == Clause::StorePadding {
                let end = message + cost(length);
                state.store[random.any_of(message + LENGTH + length..end, |_| true)?] = byte;
                return Some(());
            }
            match random.below(5) {
                0 => state.store[message + random.below(LENGTH)] = byte,
                1 => state.store[message] = random.below(MESSAGE + 2) as u8,
                2 => state.set(at::MAXMSZ, b, (length as u32).saturating_sub(1).max(1)),
                3 => state.set(at::USED, b, state.word(at::USED, b) + 1 + random.below(8) as u32),
                _ => {
                    let used = state.word(at::USED, b) as usize - 1 - random.below(4);
                    state.set(at::USED, b, used as u32);
                }
            }
        }
    }
    Some(())
}

fn alter_pool(clause: Clause, state: &mut State, random: &mut Random) -> Option<()> {
    let p = random.any_of(1..PER_POOL, |p| state.word(at::POOL_EXISTS, p) == 1)?;
    let count = state.word(at::COUNT, p) as usize;
    let (list, word) = match clause {
        Clause::PoolExists => (at::POOL_EXISTS, beyond(random, 1)),
        Clause::PoolAttribute => {
            let near = random.pick(&[2, 3, 255, 258, 514, 1024, 1025, 1 << 31]);
            (at::POOL_ATTRIBUTE, if random.percent(70) { near } else { beyond(random, 769) })
        }
        Clause::PoolCount => (at::COUNT, outside(random, BLOCKS as u32)),
        Clause::PoolSize => (at::SIZE, outside(random, BLOCK_SIZE as u32)),
        Clause::PoolFlag => {
            let block = 1 + random.below(count);
            state.words[flags_at(p) + block] = beyond(random, 1);
            return Some(());
        }
        Clause::PoolFlagBeyond => {
            let block = random.any_of(count + 1..PER_BLOCK, |_| true)?;
            state.words[flags_at(p) + block] = if random.percent(70) { 1 } else { nonzero(random) };
            return Some(());
        }
        Clause::PoolSum => return enlarge_pools(state, random),
        _ => {
            let p = random.any_of(1..PER_POOL, |p| state.any(GETTING, p))?;
            let count = state.word(at::COUNT, p) as usize;
            state.words[flags_at(p) + 1 + random.below(count)] = 0;
            return Some(());
        }
    };
    state.set(list, p, word);
    Some(())
}

/// Pools of more than POOL_BYTES, sometimes of one byte more; new blocks are handed out.
fn enlarge_pools(state: &mut State, random: &mut Random) -> Option<()> {
    let mut bytes = 0;
    for p in 1..PER_POOL {
        let old = state.word(at::COUNT, p) as usize;
        if state.word(at::POOL_EXISTS, p) == 0 && random.percent(50) {
            continue;
        }
        let count = old + random.below(BLOCKS - old + 1);
        let count = if random.percent(30) { BLOCKS } else { count.max(1) };
        let missing = (POOL_BYTES + 1usize).saturating_sub(bytes);
        let size = match missing.is_multiple_of(count) {
            true if (1..=BLOCK_SIZE).contains(&(missing / count)) => missing / count,
            _ if random.percent(50) => BLOCK_SIZE,
            _ => 1 + random.below(BLOCK_SIZE),
        };
        bytes += count * size;
        state.set(at::POOL_EXISTS, p, 1);
        state.set(at::COUNT, p, count as u32);
        state.set(at::SIZE, p, size as u32);
        state.words[flags_at(p)..][old + 1..=count].fill(1);
    }
    (bytes > POOL_BYTES).then_some(())
}
