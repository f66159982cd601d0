//! Lent states for trying a validity check: valid ones sampled along busy scripts, ones that fail
//! a single clause, and ones with words and bytes of any value.

use std::sync::LazyLock;

use crate::alter::alter;
use crate::boundary::{reach, Boundary, BOUNDARIES};
use crate::clauses::{Clause, CLAUSES};
use crate::generator::generate;
use crate::kernel::Kernel;
use crate::lent_state::{resize, shuffle_arrivals, State};
use crate::limits::*;
use crate::outcome::Outcome;
use crate::random::Random;
use crate::record;
use crate::tally::Tally;
use crate::words::*;

/// What a state is made for.
#[derive(Clone, Copy, PartialEq, Eq, PartialOrd, Ord, Debug)]
pub enum Kind {
    /// Along a busy script.
    Valid,
    /// Valid, with a number at the end of its range.
    AtBoundary(Boundary),
    /// This clause fails, and no other that can hold.
    Fails(Clause),
    /// Some words and bytes are replaced.
    Changed,
    /// Random words and bytes.
    RandomWords,
}

/// State number `index` of a seed.
pub fn state(seed: u64, index: u64) -> (Kind, State) {
    let mut random = Random::new(seed ^ index.wrapping_mul(0xD134_2543_DE82_EF95));
    random.word();
    match random.below(100) {
        0..=9 => (Kind::Valid, busy(&mut random)),
        10..=17 => {
            let boundary = random.pick(&BOUNDARIES);
            (Kind::AtBoundary(boundary), at_boundary(boundary, &mut random))
        }
        18..=39 => {
            let clause = random.pick(&CLAUSES);
            (Kind::Fails(clause), failing_alone(clause, &mut random))
        }
        40..=95 => (Kind::Changed, changed(&mut random)),
        _ => (Kind::RandomWords, random_words(&mut random)),
    }
}

/// State number `index` of a seed among those that fail a clause.
pub fn state_failing(clause: Clause, seed: u64, index: u64) -> State {
    let mut random = Random::new(seed ^ index.wrapping_mul(0xA076_1D64_78BD_642F));
    random.word();
    failing_alone(clause, &mut random)
}

/// State number `index` of a seed among the valid ones at a boundary.
pub fn state_at_boundary(boundary: Boundary, seed: u64, index: u64) -> State {
    let mut random = Random::new(seed ^ index.wrapping_mul(0xE703_7ED1_A0B4_28DB));
    random.word();
    at_boundary(boundary, &mut random)
}

/// A bit of the bitmap that is wrong: set though no ready task has its priority, or not set though
/// one has.
#[derive(Clone, Copy, PartialEq, Eq, Debug)]
pub struct WrongBit {
    pub bit: u32,
    pub set: bool,
}

/// Every bit that can be wrong: each may be set, those of the priorities may be missing.
pub fn wrong_bits() -> impl Iterator<Item = WrongBit> {
    let set = (0..u32::BITS).map(|bit| WrongBit { bit, set: true });
    let missing = (0..u32::from(PRIORITIES)).map(|bit| WrongBit { bit, set: false });
    set.chain(missing)
}

/// State number `index` of a seed among those at which this bit alone is wrong.
pub fn state_with_wrong_bit(wrong: WrongBit, seed: u64, index: u64) -> State {
    let number = index * u64::from(u32::BITS) + u64::from(wrong.bit);
    let mut random = Random::new(seed ^ number.wrapping_mul(0x8EBC_6AF0_9C88_C6E3));
    random.word();
    loop {
        let mut state = busy(&mut random);
        if (state.words[at::BITMAP] >> wrong.bit & 1 == 1) != wrong.set {
            state.words[at::BITMAP] ^= 1 << wrong.bit;
            return state;
        }
    }
}

/// A valid state with much going on: the busiest of a few along a script.
pub fn busy(random: &mut Random) -> State {
    let script = generate(random.word(), random.word(), 10 * TASKS, &mut Tally::default());
    let mut kernel = Kernel::fresh();
    let mut out = Outcome::default();
    let (mut at, mut along) = (0, vec![State::of(&kernel)]);
    while let Some((call, length)) = record::read(&script[at..]) {
        kernel.run(&call, &mut out);
        along.push(State::of(&kernel));
        at += length;
    }
    let picks: Vec<usize> = (0..4).map(|_| random.below(along.len())).collect();
    let busiest = picks.into_iter().max_by_key(|&at| along[at].activity()).unwrap_or(0);
    along.swap_remove(busiest)
}

/// A state at which exactly the wanted clauses fail: valid ones are altered until one does.
fn failing_alone(clause: Clause, random: &mut Random) -> State {
    loop {
        let valid = if random.percent(2) { State::empty() } else { busy(random) };
        for _ in 0..8 {
            let mut state = valid.clone();
            if alter(clause, &mut state, random).is_some() && clause.fails_alone(&state.failing()) {
                return state;
            }
        }
    }
}

/// A valid state at the boundary: valid ones are altered until one still is.
fn at_boundary(boundary: Boundary, random: &mut Random) -> State {
    loop {
        let valid = busy(random);
        for _ in 0..8 {
            let mut state = valid.clone();
            if reach(boundary, &mut state, random).is_some() && state.is_valid() {
                return state;
            }
        }
    }
}

/// A valid state in which some words and bytes are replaced.
fn changed(random: &mut Random) -> State {
    let mut state = busy(random);
    let changes = match random.below(10) {
        0..=5 => 1,
        6..=8 => 2 + random.below(3),
        _ => 5 + random.below(40),
    };
    for _ in 0..changes {
        match random.below(10) {
            0 => {
                let at = random.below(STORE);
                state.store[at] = any_byte(random, state.store[at]);
            }
            1 => {
                let at = random.below(OUTBOX);
                state.outbox[at] = any_byte(random, state.outbox[at]);
            }
            2 => shuffle_arrivals(&mut state, random),
            _ => change_word(&mut state, random),
        }
    }
    // Bases and holders that were replaced change nothing but the priorities and bits that follow,
    // places and priorities nothing but the bits.
    match random.below(100) {
        0..=34 => state.settle(),
        35..=66 => state.settle_bitmap(),
        _ => {}
    }
    match random.below(60) {
        0 => resize(&mut state.words, random),
        1 => resize(&mut state.store, random),
        2 => resize(&mut state.outbox, random),
        _ => {}
    }
    state
}

fn any_byte(random: &mut Random, old: u8) -> u8 {
    match random.below(4) {
        0 => old.wrapping_add(1),
        1 => old ^ (1 << random.below(8)),
        2 => random.below(40) as u8,
        _ => random.word() as u8,
    }
}

/// Where each list begins, and where the last one ends.
static LISTS: LazyLock<Vec<usize>> = LazyLock::new(|| {
    let mut lists = [&TASK_LISTS[..], &MUTEX_LISTS, &BUFFER_LISTS, &POOL_LISTS].concat();
    lists.extend([at::ARRIVALS, at::BITMAP, at::FLAGS, at::END]);
    lists.sort_unstable();
    lists
});

/// Numbers at the ends of ranges and far beyond them.
static LIMITS: LazyLock<Vec<u32>> = LazyLock::new(|| {
    let places = [GETTING - 1, GETTING, GETTING + 1];
    let others = [0, 1, 2, 769, 1024, POOL_BYTES as u32];
    let beyond = [i32::MAX as u32, 1 << 31, u32::MAX - 1, u32::MAX];
    near_limits(&[&places[..], &others, &beyond].concat())
});

fn change_word(state: &mut State, random: &mut Random) {
    let list = random.below(LISTS.len() - 1);
    let (start, end) = (LISTS[list], LISTS[list + 1]);
    let at = start + random.below(end - start);
    let old = state.words[at];
    let other = start + random.below(end - start);
    state.words[at] = match random.below(12) {
        0 => old.wrapping_add(1),
        1 => old.wrapping_sub(1),
        2 => old ^ (1 << random.below(32)),
        3 => random.word() as u32,
        4 => state.words[random.below(WORDS)],
        5 | 6 => {
            state.words.swap(at, other);
            state.words[at]
        }
        7 => state.words[other],
        8 | 9 => random.below(PER_TASK) as u32,
        _ => random.pick(&LIMITS),
    };
}

/// Random words, areas sometimes too, or counts and sizes whose product has more than 32 bits.
fn random_words(random: &mut Random) -> State {
    let mut state = if random.percent(30) { busy(random) } else { State::empty() };
    let choice = random.below(5);
    for word in &mut state.words {
        *word = match choice {
            0 => random.word() as u32,
            1 => random.below(4) as u32,
            2 => random.below(2) as u32,
            3 => random.pick(&[0, 0, 0, 1, 2, 3, u32::MAX, 1 << 31, TASKS as u32 + 1]),
            _ => *word,
        };
    }
    if choice == 4 {
        for p in 1..PER_POOL {
            state.set(at::POOL_EXISTS, p, 1);
            let (count, size) = (BLOCKS as u32, BLOCK_SIZE as u32);
            state.set(at::COUNT, p, random.pick(&[count, 1 << 16, 1 << 20, 1 << 31, u32::MAX]));
            state.set(at::SIZE, p, random.pick(&[size, 1 << 12, 1 << 16, 1 << 31, u32::MAX]));
        }
    }
    if random.percent(50) {
        state.store.iter_mut().for_each(|byte| *byte = random.word() as u8);
        state.outbox.iter_mut().for_each(|byte| *byte = random.word() as u8);
    }
    state
}
