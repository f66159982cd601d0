//! What is lent to the library, and what it gives: the functions are the crate `shinepod`'s, with the numbers that C has.

use reference::lent_state::State;
use reference::Answer;
use shinepod::numbers::{ANSWERED, EXITED, WAITS};
use shinepod::raw::{self, Shown};

/// What a call or a record comes to, beside the areas.
#[derive(Clone, Copy, PartialEq, Eq, Debug)]
pub struct Came {
    pub outcome: u32,
    pub code: i32,
    pub written: usize,
    /// The place in the script afterwards; of a single call 0.
    pub at: usize,
}

impl Came {
    pub fn of(answer: Answer, written: usize, at: usize) -> Came {
        let (outcome, code) = match answer {
            Answer::Code(code) => (ANSWERED, code),
            Answer::Waits => (WAITS, 0),
            Answer::Exited => (EXITED, 0),
        };
        Came { outcome, code, written, at }
    }

    fn given(came: raw::Came, at: usize) -> Came {
        Came { outcome: came.outcome, code: came.code, written: came.written, at }
    }
}

/// A list with some entries before and behind it, which nobody may touch.
#[derive(Clone, PartialEq, Eq, Debug)]
struct Guarded<T> {
    all: Vec<T>,
}

const GUARD: usize = 16;

impl<T: Copy + PartialEq + From<u8>> Guarded<T> {
    fn new(list: &[T]) -> Guarded<T> {
        let guard = [T::from(0xA5); GUARD];
        Guarded { all: [&guard, list, &guard].concat() }
    }

    fn len(&self) -> usize {
        self.all.len() - 2 * GUARD
    }

    fn list(&self) -> &[T] {
        &self.all[GUARD..self.all.len() - GUARD]
    }

    fn list_mut(&mut self) -> &mut [T] {
        let end = self.all.len() - GUARD;
        &mut self.all[GUARD..end]
    }

    fn set(&mut self, list: &[T]) {
        if self.len() == list.len() {
            self.list_mut().copy_from_slice(list);
        } else {
            *self = Guarded::new(list);
        }
    }

    fn is_guarded(&self) -> bool {
        let (before, rest) = self.all.split_at(GUARD);
        let behind = &rest[rest.len() - GUARD..];
        before.iter().chain(behind).all(|&entry| entry == T::from(0xA5))
    }
}

/// All that is lent to the library.
#[derive(Clone)]
pub struct Lent {
    words: Guarded<u32>,
    store: Guarded<u8>,
    outbox: Guarded<u8>,
    log: Guarded<u8>,
}

impl Lent {
    pub fn new(state: &State, log: &[u8]) -> Lent {
        Lent {
            words: Guarded::new(&state.words),
            store: Guarded::new(&state.store),
            outbox: Guarded::new(&state.outbox),
            log: Guarded::new(log),
        }
    }

    /// The same areas hold something else.
    pub fn set(&mut self, state: &State, log: &[u8]) {
        self.words.set(&state.words);
        self.store.set(&state.store);
        self.outbox.set(&state.outbox);
        self.log.set(log);
    }

    pub fn words(&self) -> &[u32] {
        self.words.list()
    }

    pub fn store(&self) -> &[u8] {
        self.store.list()
    }

    pub fn outbox(&self) -> &[u8] {
        self.outbox.list()
    }

    pub fn log(&self) -> &[u8] {
        self.log.list()
    }

    /// Whether nothing outside the areas was written.
    pub fn is_guarded(&self) -> bool {
        self.words.is_guarded()
            && self.store.is_guarded()
            && self.outbox.is_guarded()
            && self.log.is_guarded()
    }

    pub fn fresh(&mut self) -> i32 {
        let Lent { words, store, outbox, .. } = self;
        raw::fresh(words.list_mut(), store.list_mut(), outbox.list_mut())
    }

    pub fn is_valid(&self) -> bool {
        raw::is_valid(self.words(), self.store(), self.outbox())
    }

    pub fn next_message(&self, buffer: i32) -> Shown {
        raw::next_message(self.words(), self.store(), self.outbox(), buffer)
    }

    /// A call by its kind and fields, with message bytes of any number.
    pub fn call(&mut self, kind: u8, fields: [i32; 3], message: &[u8]) -> Came {
        let Lent { words, store, outbox, log } = self;
        let came = raw::call(
            words.list_mut(),
            store.list_mut(),
            outbox.list_mut(),
            log.list_mut(),
            kind,
            fields,
            message,
        );
        Came::given(came, 0)
    }

    /// The record at a place of a script.
    pub fn run_record(&mut self, script: &[u8], mut at: usize) -> Came {
        let Lent { words, store, outbox, log } = self;
        let came = raw::run_record(
            words.list_mut(),
            store.list_mut(),
            outbox.list_mut(),
            log.list_mut(),
            script,
            &mut at,
        );
        Came::given(came, at)
    }
}
