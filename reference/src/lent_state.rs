//! One lent state with its areas, and how it can be altered.

use crate::clauses::{afresh, bitmap_afresh, failing, Clause};
use crate::kernel::Kernel;
use crate::limits::*;
use crate::random::Random;
use crate::valid::check;
use crate::words::*;

/// A lent state and its areas, of any length and content.
#[derive(Clone, PartialEq, Eq, Debug)]
pub struct State {
    pub words: Vec<u32>,
    pub store: Vec<u8>,
    pub outbox: Vec<u8>,
}

impl State {
    pub fn of(kernel: &Kernel) -> State {
        State {
            words: kernel.to_words().to_vec(),
            store: kernel.store().to_vec(),
            outbox: kernel.outbox().to_vec(),
        }
    }

    /// A kernel without any object.
    pub(crate) fn empty() -> State {
        State { words: vec![0; WORDS], store: vec![0; STORE], outbox: vec![0; OUTBOX] }
    }

    pub fn is_valid(&self) -> bool {
        check(&self.words, &self.store, &self.outbox)
    }

    pub fn failing(&self) -> Vec<Clause> {
        failing(&self.words, &self.store, &self.outbox)
    }

    /// Three lengths (4 bytes each), the words (4 bytes each), store and outbox; every number
    /// least byte first.
    pub fn frame(&self) -> Vec<u8> {
        let lengths = [self.words.len(), self.store.len(), self.outbox.len()];
        let numbers = lengths.iter().map(|&length| length as u32).chain(self.words.iter().copied());
        let mut frame: Vec<u8> = numbers.flat_map(u32::to_le_bytes).collect();
        frame.extend_from_slice(&self.store);
        frame.extend_from_slice(&self.outbox);
        frame
    }

    pub fn word(&self, list: usize, number: usize) -> u32 {
        self.words[list + number]
    }

    pub(crate) fn set(&mut self, list: usize, number: usize, word: u32) {
        self.words[list + number] = word;
    }

    /// Puts the current priorities right, as far as bases and mutexes are, and the bitmap by them.
    pub(crate) fn settle(&mut self) {
        let afresh = afresh(&self.words);
        for (t, &priority) in afresh.iter().enumerate().skip(1) {
            if self.word(at::PLACE, t) != ABSENT {
                self.set(at::CURRENT, t, priority);
            }
        }
        self.settle_bitmap();
    }

    /// Puts the bitmap right, as far as places and current priorities are.
    pub(crate) fn settle_bitmap(&mut self) {
        self.words[at::BITMAP] = bitmap_afresh(&self.words);
    }

    pub(crate) fn is_waiting(&self, t: usize) -> bool {
        self.word(at::PLACE, t) >= LOCKING
    }

    pub(crate) fn is_started(&self, t: usize) -> bool {
        self.word(at::PLACE, t) >= READY
    }

    /// Whether any task waits so at an object.
    pub(crate) fn any(&self, place: u32, object: usize) -> bool {
        self.waiters(place, object).next().is_some()
    }

    pub(crate) fn waiters(&self, place: u32, object: usize) -> impl Iterator<Item = usize> + '_ {
        (1..PER_TASK).filter(move |&t| {
            self.word(at::PLACE, t) == place && self.word(at::OBJECT, t) == object as u32
        })
    }

    /// How much is going on: waits count most.
    pub(crate) fn activity(&self) -> usize {
        let waits = (1..PER_TASK).filter(|&t| self.is_waiting(t)).count();
        let held = (1..PER_MUTEX).filter(|&m| self.word(at::HOLDER, m) != 0).count();
        let stored = (1..PER_BUFFER).filter(|&b| self.word(at::USED, b) != 0).count();
        let out = self.words[at::FLAGS..].iter().filter(|&&flag| flag != 0).count();
        3 * waits + held + 2 * stored + out.min(6)
    }
}

/// Where the flags of a pool begin.
pub(crate) fn flags_at(pool: usize) -> usize {
    at::FLAGS + pool * PER_BLOCK
}

/// Where each message of a buffer begins in the store.
pub(crate) fn messages(state: &State, b: usize) -> Vec<usize> {
    let (mut at, end) = ((b - 1) * STRETCH, (b - 1) * STRETCH + state.word(at::USED, b) as usize);
    let mut found = Vec::new();
    while at < end {
        found.push(at);
        at += cost(usize::from(state.store[at]));
    }
    found
}

/// Makes a ready task wait without end.
pub(crate) fn make_wait(
    state: &mut State,
    random: &mut Random,
    place: u32,
    object: usize,
) -> Option<usize> {
    let t = random.any_of(1..PER_TASK, |t| state.word(at::PLACE, t) == READY)?;
    state.set(at::PLACE, t, place);
    state.set(at::OBJECT, t, object as u32);
    state.set(at::LEFT, t, ENDLESS);
    if place == SENDING {
        let maxmsz = state.word(at::MAXMSZ, object).max(1);
        let length = 1 + random.below(maxmsz as usize);
        state.set(at::ARGUMENT, t, length as u32);
        state.outbox[(t - 1) * MESSAGE..][..length].fill(random.word() as u8);
    }
    state.settle_bitmap();
    Some(t)
}

/// Puts the arrivals into another order.
pub(crate) fn shuffle_arrivals(state: &mut State, random: &mut Random) {
    let arrivals = &mut state.words[at::ARRIVALS..][..TASKS];
    let end = arrivals.iter().position(|&word| word == 0).unwrap_or(TASKS);
    for i in (1..end).rev() {
        arrivals.swap(i, random.below(i + 1));
    }
}

/// Another length, up to twice the right one: zeros cut off or anything put behind.
pub(crate) fn resize<T: Copy + Default + PartialEq + From<u8>>(
    list: &mut Vec<T>,
    random: &mut Random,
) {
    let length = list.len();
    let zeros = list.iter().rev().take_while(|&&entry| entry == T::default()).count();
    let new = match random.below(6) {
        0 => length + 1,
        1 => length - 1,
        2 => length - zeros,
        3 => 2 * length,
        4 => length + 1 + random.below(length),
        _ => length - random.below(zeros + 1),
    };
    let fill = if random.percent(70) { T::default() } else { T::from(random.word() as u8) };
    list.resize(new, fill);
}
