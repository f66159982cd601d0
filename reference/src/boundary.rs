//! The ends of the ranges that validity allows: what makes a valid state reach one.

use crate::lent_state::{flags_at, make_wait, messages, shuffle_arrivals, State};
use crate::limits::*;
use crate::random::Random;
use crate::words::*;

/// A number that is the first or the last of its range, or just enough.
#[derive(Clone, Copy, PartialEq, Eq, PartialOrd, Ord, Hash, Debug)]
pub enum Boundary {
    InitialFirst,
    InitialLast,
    BaseFirst,
    BaseLast,
    LeftOne,
    LeftMost,
    LeftEndless,
    SenderShortest,
    SenderLongest,
    /// One byte more of room and the first sender's message would fit.
    SenderJustTooLong,
    EveryTask,
    /// No task is ready.
    BitmapNone,
    /// The bit of the most urgent priority alone.
    BitmapLowest,
    /// The bit of the least urgent priority alone.
    BitmapHighest,
    /// Ready tasks of as many priorities as there can be.
    BitmapMost,
    LastTaskHolds,
    MutexAttribute,
    CeilingFirst,
    CeilingLast,
    BaseAtHeld,
    BaseAtAwaited,
    BufszNone,
    BufszMost,
    BufferFull,
    MaxmszOne,
    MaxmszMost,
    /// No longer message may be sent than the longest that is stored.
    MaxmszStored,
    PoolAttribute,
    CountOne,
    CountMost,
    SizeOne,
    SizeMost,
    PoolSum,
    LastBlock,
}

use Boundary::*;

pub const BOUNDARIES: [Boundary; 34] = [
    InitialFirst, InitialLast, BaseFirst, BaseLast, LeftOne, LeftMost, LeftEndless, SenderShortest,
    SenderLongest, SenderJustTooLong, EveryTask, BitmapNone, BitmapLowest, BitmapHighest,
    BitmapMost, LastTaskHolds, MutexAttribute, CeilingFirst, CeilingLast, BaseAtHeld,
    BaseAtAwaited, BufszNone, BufszMost, BufferFull, MaxmszOne, MaxmszMost, MaxmszStored,
    PoolAttribute, CountOne, CountMost, SizeOne, SizeMost, PoolSum, LastBlock,
];

/// Makes the change; none if the state has nothing to make it on. It may leave the state not valid.
pub(crate) fn reach(boundary: Boundary, state: &mut State, random: &mut Random) -> Option<()> {
    match boundary {
        InitialFirst | InitialLast | BaseFirst | BaseLast | EveryTask => {
            reach_task(boundary, state, random)
        }
        LeftOne | LeftMost | LeftEndless => {
            let t = random.any_of(1..PER_TASK, |t| state.is_waiting(t))?;
            let left = match boundary {
                LeftOne => 1,
                LeftMost => i32::MAX as u32,
                _ => ENDLESS,
            };
            state.set(at::LEFT, t, left);
            Some(())
        }
        SenderShortest | SenderLongest | SenderJustTooLong => reach_sender(boundary, state, random),
        BitmapNone | BitmapLowest | BitmapHighest | BitmapMost => {
            reach_bitmap(boundary, state, random)
        }
        LastTaskHolds | MutexAttribute | CeilingFirst | CeilingLast | BaseAtHeld
        | BaseAtAwaited => reach_mutex(boundary, state, random),
        BufszNone | BufszMost | BufferFull | MaxmszOne | MaxmszMost | MaxmszStored => {
            reach_buffer(boundary, state, random)
        }
        PoolAttribute | CountOne | CountMost | SizeOne | SizeMost | PoolSum | LastBlock => {
            reach_pool(boundary, state, random)
        }
    }
}

/// Makes a task that is not started ready, the last of all.
fn start(state: &mut State, random: &mut Random, t: usize) -> Option<()> {
    let end = random.any_of(0..TASKS, |i| {
        state.word(at::ARRIVALS, i) == 0 && (i == 0 || state.word(at::ARRIVALS, i - 1) != 0)
    })?;
    if state.word(at::PLACE, t) == ABSENT {
        let priority = 1 + random.below(usize::from(PRIORITIES)) as u32;
        for list in [at::INITIAL, at::BASE, at::CURRENT] {
            state.set(list, t, priority);
        }
    }
    state.set(at::PLACE, t, READY);
    state.set(at::ARRIVALS, end, t as u32);
    state.settle_bitmap();
    Some(())
}

fn reach_task(boundary: Boundary, state: &mut State, random: &mut Random) -> Option<()> {
    let last = u32::from(PRIORITIES);
    if boundary == EveryTask {
        for t in 1..PER_TASK {
            if !state.is_started(t) {
                start(state, random, t)?;
            }
        }
        return Some(());
    }
    let t = random.any_of(1..PER_TASK, |t| state.word(at::PLACE, t) != ABSENT)?;
    match boundary {
        InitialFirst => state.set(at::INITIAL, t, 1),
        InitialLast => state.set(at::INITIAL, t, last),
        BaseFirst => state.set(at::BASE, t, 1),
        _ => state.set(at::BASE, t, last),
    }
    state.settle();
    Some(())
}

fn reach_sender(boundary: Boundary, state: &mut State, random: &mut Random) -> Option<()> {
    let sends = |t: usize| state.word(at::PLACE, t) == SENDING;
    let t = random.any_of(1..PER_TASK, sends)?;
    let b = state.word(at::OBJECT, t) as usize;
    match boundary {
        SenderShortest => {
            state.set(at::ARGUMENT, t, 1);
            state.outbox[(t - 1) * MESSAGE + 1..t * MESSAGE].fill(0);
        }
        SenderLongest => state.set(at::ARGUMENT, t, state.word(at::MAXMSZ, b)),
        _ => {
            let cost = cost(state.word(at::ARGUMENT, t) as usize) as u32;
            let bufsz = state.word(at::USED, b) + cost - 1;
            // With one byte more the first sender's message must fit, so that the state is not
            // valid; without it the state has to be.
            state.set(at::BUFSZ, b, bufsz + 1);
            if state.is_valid() {
                return None;
            }
            state.set(at::BUFSZ, b, bufsz);
        }
    }
    Some(())
}

fn reach_bitmap(boundary: Boundary, state: &mut State, random: &mut Random) -> Option<()> {
    let last = u32::from(PRIORITIES);
    let few = 1 + random.below(3);
    match boundary {
        BitmapNone => leave_ready(state, random, 0, last)?,
        BitmapLowest => leave_ready(state, random, few, 1)?,
        BitmapHighest => leave_ready(state, random, few, last)?,
        _ => make_all_ready(state, random)?,
    }
    let bits = state.words[at::BITMAP];
    let reached = match boundary {
        BitmapNone => bits == 0,
        BitmapLowest => bits == 1,
        BitmapHighest => bits == 1 << (last - 1),
        _ => bits.count_ones() == last.min(TASKS as u32),
    };
    reached.then_some(())
}

fn ready(state: &State) -> Vec<usize> {
    (1..PER_TASK).filter(|&t| state.word(at::PLACE, t) == READY).collect()
}

/// Makes ready tasks wait to receive until no more than these few are left, which get the base.
fn leave_ready(state: &mut State, random: &mut Random, few: usize, base: u32) -> Option<()> {
    while ready(state).len() > few {
        let b = random.any_of(1..PER_BUFFER, |b| {
            let (exists, used) = (state.word(at::BUFFER_EXISTS, b), state.word(at::USED, b));
            (exists, used) == (1, 0) && !state.any(SENDING, b)
        })?;
        make_wait(state, random, RECEIVING, b)?;
    }
    for t in ready(state) {
        state.set(at::BASE, t, base);
    }
    state.settle();
    Some(())
}

/// Starts every task, ends every wait, and gives neighbours different bases.
fn make_all_ready(state: &mut State, random: &mut Random) -> Option<()> {
    let (first, priorities) = (random.below(TASKS), usize::from(PRIORITIES));
    for t in 1..PER_TASK {
        if !state.is_started(t) {
            start(state, random, t)?;
        }
        state.set(at::PLACE, t, READY);
        for list in [at::OBJECT, at::ARGUMENT, at::LEFT] {
            state.set(list, t, 0);
        }
        state.set(at::BASE, t, 1 + ((first + t) % priorities) as u32);
    }
    // A ceiling that is held raises its holder.
    for m in 1..PER_MUTEX {
        if state.word(at::CEILING, m) != 0 {
            state.set(at::HOLDER, m, 0);
        }
    }
    state.outbox.fill(0);
    shuffle_arrivals(state, random);
    state.settle();
    Some(())
}

fn reach_mutex(boundary: Boundary, state: &mut State, random: &mut Random) -> Option<()> {
    let ceiling = u32::from(MUTEX_CEILING);
    let exists = |m: usize| state.word(at::MUTEX_EXISTS, m) == 1;
    let m = random.any_of(1..PER_MUTEX, exists)?;
    match boundary {
        LastTaskHolds => {
            if !state.is_started(TASKS) {
                start(state, random, TASKS)?;
            }
            state.set(at::HOLDER, m, TASKS as u32);
        }
        MutexAttribute => {
            state.set(at::MUTEX_ATTRIBUTE, m, random.below(3) as u32);
            state.set(at::CEILING, m, 0);
        }
        CeilingFirst | CeilingLast => {
            state.set(at::MUTEX_ATTRIBUTE, m, ceiling);
            let last = u32::from(PRIORITIES);
            state.set(at::CEILING, m, if boundary == CeilingFirst { 1 } else { last });
        }
        _ => {
            let waiters: Vec<usize> = state.waiters(LOCKING, m).collect();
            let t = match boundary {
                BaseAtHeld => state.word(at::HOLDER, m) as usize,
                _ => random.pick_if_any(&waiters)?,
            };
            if t == 0 {
                return None;
            }
            if state.word(at::MUTEX_ATTRIBUTE, m) != ceiling {
                state.set(at::MUTEX_ATTRIBUTE, m, ceiling);
                state.set(at::CEILING, m, 1 + random.below(usize::from(PRIORITIES)) as u32);
            }
            state.set(at::BASE, t, state.word(at::CEILING, m));
        }
    }
    state.settle();
    Some(())
}

fn reach_buffer(boundary: Boundary, state: &mut State, random: &mut Random) -> Option<()> {
    let b = random.any_of(1..PER_BUFFER, |b| state.word(at::BUFFER_EXISTS, b) == 1)?;
    let used = state.word(at::USED, b);
    let lengths = messages(state, b).into_iter().map(|at| u32::from(state.store[at]));
    let longest = lengths.max();
    match boundary {
        BufszNone => {
            state.set(at::BUFSZ, b, 0);
            if !state.any(RECEIVING, b) && random.percent(50) {
                make_wait(state, random, SENDING, b)?;
            }
        }
        BufszMost => state.set(at::BUFSZ, b, STRETCH as u32),
        BufferFull if used > 0 => state.set(at::BUFSZ, b, used),
        BufferFull => return None,
        MaxmszOne => state.set(at::MAXMSZ, b, 1),
        MaxmszMost => state.set(at::MAXMSZ, b, MESSAGE as u32),
        _ => state.set(at::MAXMSZ, b, longest?),
    }
    Some(())
}

fn reach_pool(boundary: Boundary, state: &mut State, random: &mut Random) -> Option<()> {
    let p = random.any_of(1..PER_POOL, |p| state.word(at::POOL_EXISTS, p) == 1)?;
    let count = state.word(at::COUNT, p) as usize;
    match boundary {
        PoolAttribute => {
            let attribute = random.pick(&[0, 1, 256, 257, 512, 513, 768, 769]);
            state.set(at::POOL_ATTRIBUTE, p, attribute);
        }
        CountOne => {
            state.set(at::COUNT, p, 1);
            state.words[flags_at(p) + 2..][..BLOCKS - 1].fill(0);
        }
        CountMost => {
            state.set(at::COUNT, p, BLOCKS as u32);
            state.words[flags_at(p)..][count + 1..]
                .iter_mut()
                .take(BLOCKS - count)
                .for_each(|f| *f = 1);
        }
        SizeOne => state.set(at::SIZE, p, 1),
        SizeMost => state.set(at::SIZE, p, BLOCK_SIZE as u32),
        LastBlock => state.words[flags_at(p) + count] = 1,
        _ => {
            let bytes = |p: usize| (state.word(at::COUNT, p) * state.word(at::SIZE, p)) as usize;
            let others: usize = (1..PER_POOL).filter(|&other| other != p).map(bytes).sum();
            let left = POOL_BYTES.checked_sub(others)?;
            // A count that the bytes left divide by, with its new blocks handed out.
            let fits = |n: usize| left.is_multiple_of(n) && (1..=BLOCK_SIZE).contains(&(left / n));
            let new = random.any_of(count..BLOCKS + 1, fits)?;
            state.set(at::COUNT, p, new as u32);
            state.set(at::SIZE, p, (left / new) as u32);
            state.words[flags_at(p) + count + 1..flags_at(p) + new + 1].fill(1);
        }
    }
    Some(())
}
