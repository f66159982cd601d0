//! Lent states made for trying a validity check, and the clauses told one by one.

use std::collections::BTreeMap;
use std::process::{Command, Stdio};

use reference::boundary::BOUNDARIES;
use reference::check;
use reference::clauses::{failing, Clause, CLAUSES};
use reference::lent_state::State;
use reference::limits::*;
use reference::random::Random;
use reference::states::{busy, state, state_at_boundary, state_failing, Kind};
use reference::words::*;

/// States that each clause and each boundary is tried on.
const STATES_EACH: u64 = 24;

#[test]
fn every_clause_fails_alone() {
    for clause in CLAUSES {
        let mut states: Vec<State> = Vec::new();
        for index in 0..STATES_EACH {
            let state = state_failing(clause, 5, index);
            let failing = state.failing();
            assert!(clause.fails_alone(&failing), "{clause:?}: {failing:?}");
            // Alone but for the current priorities' range, which only fails beside another.
            assert_eq!(failing.len() == 1, clause != Clause::TaskCurrent);
            assert!(!state.is_valid(), "{clause:?}");
            states.push(state);
        }
        states.dedup();
        assert!(states.len() as u64 == STATES_EACH, "{clause:?}: the same state twice");
    }
}

#[test]
fn valid_at_every_boundary() {
    for boundary in BOUNDARIES {
        for index in 0..STATES_EACH {
            let state = state_at_boundary(boundary, 5, index);
            assert_eq!(state.failing(), [], "{boundary:?}");
            assert!(state.is_valid(), "{boundary:?}");
        }
    }
}

/// Every list's entry for none and every field of a wait is among the states.
#[test]
fn every_field_is_altered() {
    let zeros = [
        Clause::TaskEntryZero,
        Clause::MutexEntryZero,
        Clause::BufferEntryZero,
        Clause::PoolEntryZero,
        Clause::BlockEntryZero,
    ];
    let altered = |clause: Clause| -> usize {
        let words = (0..400).map(|index| {
            let state = state_failing(clause, 8, index);
            let lists = [&TASK_LISTS[..], &MUTEX_LISTS, &BUFFER_LISTS, &POOL_LISTS].concat();
            let mut entries = lists
                .into_iter()
                .chain(at::FLAGS..at::FLAGS + PER_BLOCK)
                .chain((1..PER_POOL).map(|p| at::FLAGS + p * PER_BLOCK));
            entries.find(|&at| state.words[at] != 0)
        });
        let mut found: Vec<usize> = words.flatten().collect();
        found.sort_unstable();
        found.dedup();
        found.len()
    };
    let [tasks, mutexes] = [TASK_LISTS.len(), MUTEX_LISTS.len()];
    let [buffers, pools] = [BUFFER_LISTS.len(), POOL_LISTS.len() + PER_BLOCK];
    assert_eq!(zeros.map(altered), [tasks, mutexes, buffers, pools, POOLS]);
}

#[test]
fn clauses_agree_with_the_check() {
    let mut counts: BTreeMap<(Kind, bool), usize> = BTreeMap::new();
    for index in 0..20_000 {
        let (kind, state) = state(6, index);
        let failing = state.failing();
        assert_eq!(failing.is_empty(), state.is_valid(), "{kind:?} {failing:?}");
        // Bases and ceilings in range keep what is worked out afresh in range.
        assert_ne!(failing, [Clause::TaskCurrent]);
        let kind = match kind {
            Kind::Fails(_) => Kind::Fails(CLAUSES[0]),
            Kind::AtBoundary(_) => Kind::AtBoundary(BOUNDARIES[0]),
            kind => kind,
        };
        *counts.entry((kind, state.is_valid())).or_default() += 1;
    }
    assert!(counts[&(Kind::Valid, true)] > 1_500);
    assert!(counts[&(Kind::Changed, true)] > 1_000, "{counts:?}");
    assert!(counts[&(Kind::Changed, false)] > 5_000);
    assert!(counts[&(Kind::RandomWords, false)] > 500);
    assert!(!counts.contains_key(&(Kind::Valid, false)));
}

/// Any words, bytes and lengths: nothing panics.
#[test]
fn clauses_of_random_words() {
    let mut random = Random::new(12);
    for _ in 0..3_000 {
        let lengths = [WORDS, STORE, OUTBOX].map(|right| match random.below(4) {
            0 => random.below(2 * right + 1),
            _ => right,
        });
        let words: Vec<u32> = (0..lengths[0]).map(|_| random.word() as u32).collect();
        let store: Vec<u8> = (0..lengths[1]).map(|_| random.word() as u8).collect();
        let outbox: Vec<u8> = (0..lengths[2]).map(|_| random.word() as u8).collect();
        assert_eq!(check(&words, &store, &outbox), failing(&words, &store, &outbox).is_empty());
    }
}

/// What a busy state can have, by name, and whether this one has it.
fn features(state: &State) -> Vec<(&'static str, bool)> {
    let word = |list: usize, number: usize| state.word(list, number);
    let tasks = |wanted: &dyn Fn(usize) -> bool| (1..PER_TASK).any(wanted);
    let at = |place: u32| tasks(&|t| word(at::PLACE, t) == place);
    let locks = |t: usize| word(at::PLACE, t) == LOCKING;
    let mutex = |t: usize| word(at::OBJECT, t) as usize;
    let attribute = |t: usize| word(at::MUTEX_ATTRIBUTE, mutex(t));
    let step = |t: usize| (locks(t) && attribute(t) == 2).then(|| word(at::HOLDER, mutex(t)));
    let steps =
        |t: usize, count: usize| (0..count).try_fold(t, |t, _| step(t).map(|next| next as usize));
    let waits = |t: usize| word(at::PLACE, t) >= LOCKING;
    let pools_full = (1..PER_POOL).any(|p| {
        let flags = &state.words[at::FLAGS + p * PER_BLOCK..][..PER_BLOCK];
        word(at::POOL_EXISTS, p) == 1 && flags.iter().sum::<u32>() == word(at::COUNT, p)
    });
    vec![
        ("absent", at(ABSENT)),
        ("dormant", at(DORMANT)),
        ("ready", at(READY)),
        ("locking", at(LOCKING)),
        ("sending", at(SENDING)),
        ("receiving", at(RECEIVING)),
        ("getting", at(GETTING)),
        ("every task in use", !at(ABSENT)),
        ("none ready", !at(READY)),
        ("several senders", (1..PER_BUFFER).any(|b| senders(state, b) > 1)),
        ("messages", (1..PER_BUFFER).any(|b| word(at::USED, b) > 0)),
        (
            "messages and senders",
            (1..PER_BUFFER).any(|b| word(at::USED, b) > 0 && senders(state, b) > 0),
        ),
        (
            "held ceiling",
            (1..PER_MUTEX).any(|m| word(at::CEILING, m) > 0 && word(at::HOLDER, m) > 0),
        ),
        ("awaited ceiling", tasks(&|t| locks(t) && attribute(t) == 3)),
        ("chain of three", tasks(&|t| steps(t, 3).is_some())),
        ("circle", tasks(&|t| (2..5).any(|count| steps(t, count) == Some(t)))),
        ("inherited", tasks(&|t| word(at::CURRENT, t) < word(at::BASE, t))),
        ("full pool", pools_full),
        ("timeout", tasks(&|t| waits(t) && word(at::LEFT, t) != ENDLESS)),
        ("endless", tasks(&|t| waits(t) && word(at::LEFT, t) == ENDLESS)),
        ("other base", tasks(&|t| word(at::BASE, t) != word(at::INITIAL, t))),
    ]
}

fn senders(state: &State, b: usize) -> usize {
    let sends =
        |&t: &usize| state.word(at::PLACE, t) == SENDING && state.word(at::OBJECT, t) == b as u32;
    (1..PER_TASK).filter(sends).count()
}

#[test]
fn valid_states_are_busy() {
    let mut random = Random::new(31);
    let mut seen: BTreeMap<&str, usize> = BTreeMap::new();
    for _ in 0..2_000 {
        let state = busy(&mut random);
        assert!(state.is_valid());
        for (feature, has) in features(&state) {
            *seen.entry(feature).or_default() += usize::from(has);
        }
    }
    assert!(seen.values().all(|&count| count >= 20), "{seen:?}");
}

#[test]
fn a_seed_gives_the_same_states() {
    for index in 0..50 {
        assert_eq!(state(3, index), state(3, index));
    }
    assert_ne!(state(3, 1), state(3, 2));
    assert_ne!(state(3, 1), state(4, 1));
}

#[test]
fn frames() {
    let state = State { words: vec![1, 0x0203_0405], store: vec![6, 7, 8], outbox: vec![9] };
    let frame = [2, 0, 0, 0, 3, 0, 0, 0, 1, 0, 0, 0, 1, 0, 0, 0, 5, 4, 3, 2, 6, 7, 8, 9];
    assert_eq!(state.frame(), frame);
}

/// The product's own files are what the command in docs/VALID.md writes.
#[test]
fn committed_states() {
    let crates = concat!(env!("CARGO_MANIFEST_DIR"), "/../crates/verdicts/");
    let made = std::env::temp_dir().join(format!("states-test-{}", std::process::id()));
    std::fs::create_dir_all(&made).unwrap();
    let status = Command::new(env!("CARGO_BIN_EXE_states"))
        .args(["2026", "170"])
        .args([made.join("stdin"), made.join("stdout")])
        .args(["--each-clause", "4"])
        .stderr(Stdio::null())
        .status()
        .unwrap();
    assert!(status.success());
    for name in ["stdin", "stdout"] {
        let committed = std::fs::read(format!("{crates}{name}")).unwrap();
        assert!(std::fs::read(made.join(name)).unwrap() == committed, "{name} differs");
    }
    std::fs::remove_dir_all(&made).unwrap();
}
