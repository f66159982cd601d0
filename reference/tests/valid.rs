//! Lent states: each clause of validity broken alone, and words of any value.

mod common;

use common::*;
use reference::generator::generate;
use reference::limits::*;
use reference::random::Random;
use reference::record;
use reference::tally::Tally;
use reference::words::*;
use reference::{check, run_record, Call, Kernel, Outcome};

/// The last task and the least urgent priority, as words.
const LAST: u32 = LAST_TASK as u32;
const LEAST: u32 = LEAST_URGENT as u32;

/// A lent state that can be broken.
#[derive(Clone)]
struct Lent {
    words: Vec<u32>,
    store: Vec<u8>,
    outbox: Vec<u8>,
}

impl Lent {
    fn of(kernel: &Kernel) -> Lent {
        Lent {
            words: kernel.to_words().to_vec(),
            store: kernel.store().to_vec(),
            outbox: kernel.outbox().to_vec(),
        }
    }

    fn valid(&self) -> bool {
        check(&self.words, &self.store, &self.outbox)
    }

    /// Whether the state is still valid with some words changed and the bitmap put right, so that
    /// it is another clause that decides.
    fn with(&self, changes: &[(usize, u32)]) -> bool {
        let mut other = self.clone();
        for &(at, word) in changes {
            other.words[at] = word;
        }
        other.words[at::BITMAP] = bitmap_by_words(&other.words);
        other.valid()
    }

    fn with_store(&self, at: usize, byte: u8) -> bool {
        let mut other = self.clone();
        other.store[at] = byte;
        other.valid()
    }

    fn with_outbox(&self, at: usize, byte: u8) -> bool {
        let mut other = self.clone();
        other.outbox[at] = byte;
        other.valid()
    }
}

/// Tasks: 1 (8) is ready, 2 (5) waits with 20 bytes to send to buffer 1, 3 (4) waits for mutex 1,
/// 4 (3) waits for pool 1, 5 (7) waits to receive from buffer 2 with 9 ms left, 6 (9) is dormant,
/// 7 and more are absent. Mutexes: 1 (inheritance) and 2 (ceiling 6) held by task 1, 3 free.
/// Buffers: 1 by priority, 24 bytes, holds messages of 1 and 4 bytes; 2 is empty. Pools: 1 has
/// both blocks out, 2 has one of three out.
fn sample() -> Lent {
    let mut test = TestKernel::new();
    test.code(cre_mtx(2, 0));
    test.code(cre_mtx(3, 6));
    test.code(cre_mtx(0, 0));
    test.code(cre_mbf(1, 24, 20));
    test.code(cre_mbf(0, 64, 8));
    test.code(cre_mpf(1, 2, 256));
    test.code(cre_mpf(512, 3, 100));
    test.ok(get_mpf(1, 0));
    test.ok(get_mpf(1, 0));
    test.ok(get_mpf(2, 0));
    test.ok(snd_mbf(1, 1, 0));
    test.ok(snd_mbf(1, 4, 0));
    test.start(5);
    test.waits(snd_mbf(1, 20, -1));
    test.ok(loc_mtx(1, 0));
    test.ok(loc_mtx(2, 0));
    test.start(4);
    test.waits(loc_mtx(1, -1));
    test.start(3);
    test.waits(get_mpf(1, 1));
    test.start(7);
    test.ok(chg_pri(5, 2));
    test.waits(rcv_mbf(2, 9));
    test.ok(chg_pri(5, 7));
    test.code(cre_tsk(9));
    Lent::of(&test.kernel)
}

#[test]
fn samples_are_valid() {
    assert!(Lent::of(&Kernel::fresh()).valid());
    assert!(sample().valid());
    // No task at all is valid too.
    assert!(check(&[0; WORDS], &[0; STORE], &[0; OUTBOX]));
    // The lists and the arrivals of tasks, the bitmap, then the lists of mutexes, buffers and pools,
    // the flags.
    let tasks = TASK_LISTS.len() * (TASKS + 1) + TASKS + 1;
    let mutexes = MUTEX_LISTS.len() * (MUTEXES + 1);
    let buffers = BUFFER_LISTS.len() * (BUFFERS + 1);
    let pools = (POOL_LISTS.len() + BLOCKS + 1) * (POOLS + 1);
    assert_eq!(WORDS, tasks + mutexes + buffers + pools);
}

#[test]
fn lengths() {
    let words = [0; WORDS + 1];
    for length in [0, 1, WORDS - 1, WORDS + 1] {
        assert!(!check(&words[..length], &[0; STORE], &[0; OUTBOX]));
    }
    for length in [0, 1, STORE / 2, STORE - 1, STORE + 1, 2 * STORE] {
        assert!(!check(&words[..WORDS], &vec![0; length], &[0; OUTBOX]));
    }
    for length in [0, 1, OUTBOX / 2, OUTBOX - 1, OUTBOX + 1, 2 * OUTBOX] {
        assert!(!check(&words[..WORDS], &[0; STORE], &vec![0; length]));
    }
}

#[test]
fn entries_for_none_are_zero() {
    let sample = sample();
    let lists = [&TASK_LISTS[..], &MUTEX_LISTS, &BUFFER_LISTS, &POOL_LISTS].concat();
    for at in lists {
        for word in [1, 2, u32::MAX] {
            assert!(!sample.with(&[(at, word)]));
        }
    }
    for flag in 0..PER_BLOCK {
        assert!(!sample.with(&[(at::FLAGS + flag, 1)]));
    }
    for pool in 1..PER_POOL {
        assert!(!sample.with(&[(at::FLAGS + pool * PER_BLOCK, 1)]));
    }
}

#[test]
fn unused_entries_are_zero() {
    let sample = sample();
    for task in 7..PER_TASK {
        for at in [at::OBJECT, at::ARGUMENT, at::INITIAL, at::BASE, at::CURRENT, at::LEFT] {
            assert!(!sample.with(&[(at + task, 1)]));
        }
    }
    for at in [at::MUTEX_ATTRIBUTE, at::CEILING, at::HOLDER] {
        assert!(!sample.with(&[(at + 4, 1)]));
    }
    for at in [at::BUFFER_ATTRIBUTE, at::BUFSZ, at::MAXMSZ, at::USED] {
        assert!(!sample.with(&[(at + 3, 1)]));
    }
    for at in [at::POOL_ATTRIBUTE, at::COUNT, at::SIZE, at::FLAGS + 2 * PER_BLOCK + 1] {
        assert!(!sample.with(&[(at + 3, 1)]));
    }
    // Beyond the pool's count, and in an absent pool's row.
    assert!(!sample.with(&[(at::FLAGS + 2 * PER_BLOCK + 4, 1)]));
    assert!(!sample.with(&[(at::FLAGS + 3 * PER_BLOCK + 1, 1)]));
    // Another flag of the count itself may be set.
    assert!(sample.with(&[(at::FLAGS + 2 * PER_BLOCK + 3, 1)]));
    assert!(!sample.with(&[(at::FLAGS + 2 * PER_BLOCK + 3, 2)]));
}

#[test]
fn ranges_of_tasks() {
    let sample = sample();
    for (at, good, bad) in [
        // A dormant task: its current priority is its base.
        (at::INITIAL + 6, vec![1, LEAST], vec![0, LEAST + 1, 257, u32::MAX]),
        (at::BASE + 6, vec![], vec![0, 8, 10, LEAST + 1]),
        (at::CURRENT + 6, vec![], vec![0, 8, 10, LEAST + 1]),
        (at::OBJECT + 6, vec![], vec![1]),
        (at::ARGUMENT + 6, vec![], vec![1]),
        (at::LEFT + 6, vec![], vec![1, u32::MAX]),
        // A ready one.
        (at::OBJECT + 1, vec![], vec![1, 3]),
        (at::ARGUMENT + 1, vec![], vec![1]),
        (at::LEFT + 1, vec![], vec![1, u32::MAX]),
        // Waiting ones.
        (at::LEFT + 5, vec![1, i32::MAX as u32, u32::MAX], vec![0, 1 << 31, u32::MAX - 1]),
        (at::LEFT + 3, vec![1, i32::MAX as u32], vec![0, 1 << 31]),
        (at::OBJECT + 5, vec![], vec![0, 1, 3, 4, 5, u32::MAX]),
        (at::OBJECT + 3, vec![], vec![0, 3, 4, 9, u32::MAX]),
        (at::OBJECT + 4, vec![], vec![0, 2, 3, 5, u32::MAX]),
        (at::ARGUMENT + 5, vec![], vec![1]),
        (at::ARGUMENT + 3, vec![], vec![1]),
        (at::ARGUMENT + 4, vec![], vec![1]),
        (at::ARGUMENT + 2, vec![], vec![0, 4, 19, 21, 32, 33, u32::MAX]),
        (at::PLACE + 3, vec![], vec![0, 1, 2, 4, 5, 6, 7, u32::MAX]),
        (at::PLACE + 1, vec![], vec![0, 1, 3, 4, 5, 6, 7, u32::MAX]),
    ] {
        assert!(good.iter().all(|&word| sample.with(&[(at, word)])), "{at}");
        assert!(bad.iter().all(|&word| !sample.with(&[(at, word)])), "{at}");
    }
}

#[test]
fn ranges_of_objects() {
    let sample = sample();
    for (at, good, bad) in [
        (at::MUTEX_EXISTS + 3, vec![0], vec![2, u32::MAX]),
        (at::MUTEX_ATTRIBUTE + 3, vec![1, 2], vec![3, 4, 256, u32::MAX]),
        (at::CEILING + 3, vec![], vec![1, LEAST]),
        (at::CEILING + 2, vec![4, 5, 7, 8], vec![0, 1, 2, 3, 9, LEAST, LEAST + 1, 262]),
        (at::HOLDER + 3, vec![1, 2, 3, 4, 5], vec![6, 7, LAST, LAST + 1, u32::MAX]),
        (at::BUFFER_EXISTS + 2, vec![], vec![0, 2]),
        (at::BUFFER_ATTRIBUTE + 2, vec![1], vec![2, u32::MAX]),
        (at::BUFSZ + 2, vec![0, 256], vec![257, u32::MAX]),
        (at::MAXMSZ + 2, vec![1, 32], vec![0, 33, u32::MAX]),
        (at::MAXMSZ + 1, vec![21, 32], vec![0, 3, 19, 33]),
        (at::USED + 1, vec![], vec![0, 8, 12, 20, 24, 25, 300, u32::MAX]),
        (at::BUFSZ + 1, vec![16, 39], vec![15, 40, 256]),
        (at::POOL_EXISTS + 2, vec![], vec![0, 2]),
        (at::POOL_ATTRIBUTE + 2, vec![0, 1, 256, 257, 513, 768, 769], vec![2, 255, 1024, u32::MAX]),
        (at::COUNT + 2, vec![1, 2, BLOCKS as u32], vec![0, BLOCKS as u32 + 1, 1 << 16, u32::MAX]),
        (at::SIZE + 2, vec![1, 256], vec![0, 257, 1 << 31, u32::MAX]),
    ] {
        for word in good {
            // A ceiling is the holder's current priority unless task 3 counts for more.
            assert!(sample.with(&[(at, word)]), "{at}: {word}");
        }
        for word in bad {
            assert!(!sample.with(&[(at, word)]), "{at}: {word}");
        }
    }
}

#[test]
fn pool_bytes() {
    let sample = sample();
    // The first two take 512 and 300; the third leaves 20 or a few more.
    let (count, left) = (BLOCKS as u32, POOL_BYTES as u32 - 512 - 300);
    let size = (left - 20) / count;
    let third = [(at::POOL_EXISTS + 3, 1), (at::COUNT + 3, count), (at::SIZE + 3, size)];
    assert!(sample.with(&third));
    let fourth = |size| {
        let mut changes = third.to_vec();
        changes.extend([(at::POOL_EXISTS + 4, 1), (at::COUNT + 4, 1), (at::SIZE + 4, size)]);
        sample.with(&changes)
    };
    assert!(fourth(left - count * size));
    assert!(!fourth(left - count * size + 1));
}

#[test]
fn arrivals() {
    let sample = sample();
    assert_eq!(sample.words[at::ARRIVALS..][..6], [1, 2, 3, 4, 5, 0]);
    let order = |tasks: [u32; 6]| {
        sample.with(
            &tasks.iter().enumerate().map(|(i, &t)| (at::ARRIVALS + i, t)).collect::<Vec<_>>(),
        )
    };
    assert!(order([5, 4, 3, 2, 1, 0]));
    for tasks in [
        [2, 1, 3, 4, 0, 0],
        [2, 1, 3, 4, 0, 5],
        [2, 1, 3, 4, 5, 6],
        [2, 1, 3, 4, 5, 5],
        [2, 1, 3, 4, 4, 0],
        [2, 1, 3, 4, 6, 0],
        [2, 1, 3, 4, 7, 0],
        [2, 1, 3, 4, LAST + 1, 0],
        [0, 2, 1, 3, 4, 5],
        [2, 1, 3, 4, u32::MAX, 0],
    ] {
        assert!(!order(tasks), "{tasks:?}");
    }
    assert!(!sample.with(&[(at::ARRIVALS + TASKS - 1, 1)]));
}

#[test]
fn priorities_afresh() {
    let sample = sample();
    for task in 1..=6 {
        for priority in 0..=LEAST + 1 {
            let same = sample.words[at::CURRENT + task] == priority;
            assert_eq!(sample.with(&[(at::CURRENT + task, priority)]), same, "{task} {priority}");
        }
    }
    // In a circle two tasks must not hold each other up.
    let circle = |first: u32, second: u32| {
        let mut words = [0; WORDS];
        for task in 1..=2 {
            words[at::PLACE + task] = LOCKING;
            words[at::OBJECT + task] = 3 - task as u32;
            words[at::INITIAL + task] = 12;
            words[at::LEFT + task] = ENDLESS;
            words[at::ARRIVALS + task - 1] = task as u32;
            words[at::MUTEX_EXISTS + task] = 1;
            words[at::MUTEX_ATTRIBUTE + task] = 2;
            words[at::HOLDER + task] = task as u32;
        }
        words[at::BASE + 1] = 12;
        words[at::BASE + 2] = 8;
        words[at::CURRENT + 1] = first;
        words[at::CURRENT + 2] = second;
        check(&words, &[0; STORE], &[0; OUTBOX])
    };
    for first in 1..=LEAST {
        for second in 1..=LEAST {
            assert_eq!(circle(first, second), (first, second) == (8, 8));
        }
    }
}

#[test]
fn bitmap() {
    let mut sample = sample();
    // Task 1 alone is ready, with the priority of task 3.
    for word in 0..=1 << 16 {
        sample.words[at::BITMAP] = word;
        assert_eq!(sample.valid(), word == 8, "{word}");
    }
}

#[test]
fn mutexes_and_their_waiters() {
    let sample = sample();
    // A holder's base above the ceiling; the current priority is put right.
    assert!(sample.with(&[(at::BASE + 1, 6)]));
    assert!(!sample.with(&[(at::BASE + 1, 5)]));
    // A waiter's base above the ceiling: task 3 (4) at mutex 2 (6).
    let at_second = [(at::OBJECT + 3, 2), (at::CURRENT + 1, 6)];
    assert!(!sample.with(&at_second));
    assert!(sample.with(&[at_second[0], at_second[1], (at::BASE + 3, 6), (at::CURRENT + 3, 6)]));
    // Waiting for a free mutex, for an absent one, for one's own.
    assert!(!sample.with(&[(at::HOLDER + 1, 0), (at::CURRENT + 1, 6)]));
    assert!(!sample.with(&[(at::OBJECT + 3, 3), (at::CURRENT + 1, 6)]));
    assert!(!sample.with(&[(at::OBJECT + 3, 4), (at::CURRENT + 1, 6)]));
    assert!(!sample.with(&[(at::HOLDER + 1, 3), (at::CURRENT + 1, 6)]));
    // Held by another it would be fine.
    assert!(sample.with(&[(at::HOLDER + 1, 4), (at::CURRENT + 1, 6)]));
}

#[test]
fn buffers_and_their_waiters() {
    let sample = sample();
    // The receiver of buffer 2 moved to buffer 1, beside messages and a sender.
    assert!(!sample.with(&[(at::OBJECT + 5, 1)]));
    // A sender beside the receiver of buffer 2; its message would not fit there.
    assert!(!sample.with(&[(at::OBJECT + 2, 2), (at::ARGUMENT + 2, 8), (at::BUFSZ + 2, 4)]));
    // The only sender fits when the buffer is larger (16 used, 24 more).
    assert!(sample.with(&[(at::BUFSZ + 1, 39)]));
    assert!(!sample.with(&[(at::BUFSZ + 1, 40)]));
    // A second sender whose message fits (8 of 8 free): by priority it is first or not, by
    // arrival it is not.
    let second = |priority: u32, attribute: u32| {
        let mut other = sample.clone();
        other.words[at::PLACE + 5] = SENDING;
        other.words[at::OBJECT + 5] = 1;
        other.words[at::ARGUMENT + 5] = 4;
        other.words[at::BASE + 5] = priority;
        other.words[at::CURRENT + 5] = priority;
        other.words[at::BUFFER_ATTRIBUTE + 1] = attribute;
        other.outbox[4 * MESSAGE] = 1;
        other.valid()
    };
    assert!(second(6, 1));
    assert!(second(5, 1));
    assert!(!second(4, 1));
    assert!(second(4, 0));
}

#[test]
fn pools_and_their_waiters() {
    let sample = sample();
    assert!(!sample.with(&[(at::FLAGS + PER_BLOCK + 1, 0)]));
    assert!(!sample.with(&[(at::FLAGS + PER_BLOCK + 2, 0)]));
    assert!(!sample.with(&[(at::COUNT + 1, 3)]));
    assert!(!sample.with(&[(at::COUNT + 1, 1)]));
    // Without a waiter a free block is fine.
    assert!(sample.with(&[(at::FLAGS + 2 * PER_BLOCK + 1, 0)]));
}

#[test]
fn layout_of_the_areas() {
    let sample = sample();
    assert_eq!(sample.store[..20], [1, 0, 0, 0, 1, 0, 0, 0, 4, 0, 0, 0, 1, 2, 3, 4, 0, 0, 0, 0]);
    // Bytes of messages may be anything, all others not.
    let free: Vec<usize> = (0..STORE).filter(|&at| sample.with_store(at, 0xEE)).collect();
    assert_eq!(free, [4, 12, 13, 14, 15]);
    let free: Vec<usize> = (0..OUTBOX).filter(|&at| sample.with_outbox(at, 0xEE)).collect();
    assert_eq!(free, (MESSAGE..MESSAGE + 20).collect::<Vec<_>>());
    // Other lengths of the first message: up to the next one, or 12 bytes over both.
    let lengths: Vec<u8> = (0..=255).filter(|&length| sample.with_store(0, length)).collect();
    assert_eq!(lengths, [1, 2, 3, 4, 12]);
    for at in 1..4 {
        assert!(!sample.with_store(at, 1));
    }
}

/// Lent states of generated scripts with one or more words replaced: never a panic; whatever is
/// still valid goes through the kernel and back, and every call keeps it valid.
#[test]
fn words_of_any_value() {
    let mut random = Random::new(77);
    let mut kept = 0;
    for index in 0..300 {
        let script = generate(9, index, 60, &mut Tally::default());
        let mut kernel = Kernel::fresh();
        let mut out = Outcome::default();
        let mut at = 0;
        let mut calls = Vec::new();
        while let Some((call, length)) = record::read(&script[at..]) {
            kernel.run(&call, &mut out);
            calls.push(call);
            at += length;
        }
        calls.push(Call::Tick);
        for _ in 0..60 {
            let mut lent = Lent::of(&kernel);
            for _ in 0..=random.below(3) {
                let at = random.below(WORDS);
                lent.words[at] = match random.below(5) {
                    0 => random.word() as u32,
                    1 => lent.words[at].wrapping_add(1),
                    2 => lent.words[at].wrapping_sub(1),
                    3 => lent.words[random.below(WORDS)],
                    _ => random.below(PER_TASK + 1) as u32,
                };
            }
            if random.percent(10) {
                let at = random.below(STORE);
                lent.store[at] = random.word() as u8;
            }
            let taken = Kernel::from_words(&lent.words, &lent.store, &lent.outbox);
            assert_eq!(taken.is_some(), lent.valid());
            let Some(taken) = taken else { continue };
            kept += 1;
            assert_eq!(taken.to_words()[..], lent.words);
            assert_eq!((taken.store(), taken.outbox()), (&lent.store[..], &lent.outbox[..]));
            let mut log = [0; LOG];
            for _ in 0..20 {
                let call = random.pick(&calls);
                run_record(&mut lent.words, &mut lent.store, &mut lent.outbox, &call, &mut log);
                assert!(lent.valid(), "{call:?}");
            }
        }
    }
    assert!(kept > 500, "{kept} states stayed valid");
}

/// Every word random.
#[test]
fn random_words() {
    let mut random = Random::new(3);
    let areas = ([0; STORE], [0; OUTBOX]);
    for round in 0..5_000 {
        let mut words = [0u32; WORDS];
        for word in &mut words {
            *word = match round % 4 {
                0 => random.word() as u32,
                1 => random.below(4) as u32,
                2 => random.below(2) as u32,
                _ => random.pick(&[0, 0, 0, 1, 2, 3, u32::MAX, 1 << 31, LAST + 1]),
            };
        }
        assert!(!check(&words, &areas.0, &areas.1));
    }
}
