//! The status board of lent states, with tables of any number of rows and any old content.

use std::fmt::Debug;

use reference::board as expected;
use reference::lent_state::State;
use reference::limits::*;
use reference::random::Random;
use shinepod::{board, raw};

use crate::difference::{same, same_list, Compared};
use crate::library::Lent;

/// Rows before and behind a table, which nobody may touch.
const GUARD: usize = 2;

/// How many of each there were.
#[derive(Default)]
pub struct Counts {
    pub boards: u64,
    pub written: u64,
    pub rows: u64,
    pub not_valid: u64,
    pub too_few: u64,
}

/// A row of the library.
trait Row: Copy {
    /// The reference's, with the same fields.
    type Expected: Copy + PartialEq + Debug;

    fn any(random: &mut Random) -> Self;
    fn expected(self) -> Self::Expected;
}

macro_rules! row {
    ($name:ident, $($field:ident),+) => {
        impl Row for board::$name {
            type Expected = expected::$name;

            fn any(random: &mut Random) -> Self {
                Self { $($field: random.word() as _),+ }
            }

            fn expected(self) -> Self::Expected {
                expected::$name { $($field: self.$field),+ }
            }
        }
    };
}

row!(TaskRow, state, base, current, kind, object, left);
row!(MutexRow, holder, waiter);
row!(BufferRow, free, room, next, receiver, sender);
row!(PoolRow, free, waiter);

/// A function of the board.
type Board<Row> = fn(&[u32], &[u8], &[u8], &mut [Row]) -> i32;

/// What is lent, on both sides.
struct Case<'a> {
    lent: &'a Lent,
    state: &'a State,
    random: &'a mut Random,
    counts: &'a mut Counts,
}

/// All four boards of a lent state.
pub fn compare(lent: &Lent, state: &State, random: &mut Random, counts: &mut Counts) -> Compared {
    let mut case = Case { lent, state, random, counts };
    case.one("task", TASKS, raw::ref_tsk, expected::ref_tsk)?;
    case.one("mutex", MUTEXES, raw::ref_mtx, expected::ref_mtx)?;
    case.one("buffer", BUFFERS, raw::ref_mbf, expected::ref_mbf)?;
    case.one("pool", POOLS, raw::ref_mpf, expected::ref_mpf)
}

impl Case<'_> {
    fn one<R: Row>(
        &mut self,
        kind: &str,
        numbers: usize,
        library: Board<R>,
        reference: Board<R::Expected>,
    ) -> Compared {
        let rows = row_count(numbers, self.random);
        let table = GUARD..GUARD + rows;
        let mut given: Vec<R> = (0..rows + 2 * GUARD).map(|_| R::any(self.random)).collect();
        let old: Vec<R::Expected> = given.iter().map(|row| row.expected()).collect();
        let mut expected = old.clone();
        let State { words, store, outbox } = self.state;
        let code = reference(words, store, outbox, &mut expected[table.clone()]);
        let lent = self.lent;
        let came = library(lent.words(), lent.store(), lent.outbox(), &mut given[table]);
        self.count(code, old.iter().zip(&expected).filter(|(old, new)| old != new).count());
        let given: Vec<R::Expected> = given.iter().map(|row| row.expected()).collect();
        let name = |i: usize| format!("row {}", i as i64 + 1 - GUARD as i64);
        same("the answer", came, code)
            .and_then(|()| same_list(&given, &expected, name))
            .map_err(|what| format!("the {kind} board with {rows} rows: {what}"))
    }

    fn count(&mut self, code: i32, rows: usize) {
        self.counts.boards += 1;
        self.counts.written += u64::from(code == E_OK);
        self.counts.rows += rows as u64;
        self.counts.not_valid += u64::from(code == E_SYS);
        self.counts.too_few += u64::from(code == E_PAR);
    }
}

/// As many rows as there are numbers, one less, one more, none, one, fewer, or any number up to 40.
fn row_count(numbers: usize, random: &mut Random) -> usize {
    match random.below(10) {
        0 => random.below(2),
        1 => numbers - 1,
        2 => numbers + 1,
        3 => random.below(numbers),
        4 | 5 => random.below(41),
        _ => numbers,
    }
}
