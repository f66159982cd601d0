//! What is expected of the library, and the first place where it differs.

use std::fmt::Debug;

use reference::lent_state::State;
use reference::words::at;

use crate::library::{Came, Lent};

/// What the reference has: the answer, every word and byte, and the log area.
pub struct Expected<'a> {
    pub came: Came,
    pub state: &'a State,
    pub log: &'a [u8],
}

/// Either all is the same, or what differs.
pub type Compared = Result<(), String>;

/// The lists of a state's words, by where they begin.
const LISTS: [(usize, &str); 23] = [
    (at::PLACE, "place of task"),
    (at::OBJECT, "object of task"),
    (at::ARGUMENT, "argument of task"),
    (at::INITIAL, "initial priority of task"),
    (at::BASE, "base priority of task"),
    (at::CURRENT, "current priority of task"),
    (at::LEFT, "milliseconds left of task"),
    (at::ARRIVALS, "arrival"),
    (at::BITMAP, "bitmap word"),
    (at::MUTEX_EXISTS, "existence of mutex"),
    (at::MUTEX_ATTRIBUTE, "attribute of mutex"),
    (at::CEILING, "ceiling of mutex"),
    (at::HOLDER, "holder of mutex"),
    (at::BUFFER_EXISTS, "existence of buffer"),
    (at::BUFFER_ATTRIBUTE, "attribute of buffer"),
    (at::BUFSZ, "bufsz of buffer"),
    (at::MAXMSZ, "maxmsz of buffer"),
    (at::USED, "bytes used of buffer"),
    (at::POOL_EXISTS, "existence of pool"),
    (at::POOL_ATTRIBUTE, "attribute of pool"),
    (at::COUNT, "count of pool"),
    (at::SIZE, "block size of pool"),
    (at::FLAGS, "flag"),
];

fn word_name(i: usize) -> String {
    let (start, name) = LISTS.iter().rev().find(|list| list.0 <= i).unwrap_or(&LISTS[0]);
    format!("word {i}, {name} {}", i - start)
}

pub fn same_list<T: PartialEq + Debug>(
    library: &[T],
    reference: &[T],
    name: impl Fn(usize) -> String,
) -> Compared {
    if library == reference {
        return Ok(());
    }
    if library.len() != reference.len() {
        return Err(format!("a length: library {}, reference {}", library.len(), reference.len()));
    }
    let i = library.iter().zip(reference).position(|(a, b)| a != b).unwrap_or(0);
    Err(format!("{}: library {:?}, reference {:?}", name(i), library[i], reference[i]))
}

pub fn same<T: PartialEq + Debug>(what: &str, library: T, reference: T) -> Compared {
    if library == reference {
        Ok(())
    } else {
        Err(format!("{what}: library {library:?}, reference {reference:?}"))
    }
}

/// The answer, every area, and what lies around the areas.
pub fn same_all(lent: &Lent, came: Came, expected: &Expected) -> Compared {
    same("the answer", came, expected.came)?;
    same_list(lent.words(), &expected.state.words, word_name)?;
    same_list(lent.store(), &expected.state.store, |i| format!("byte {i} of the store"))?;
    same_list(lent.outbox(), &expected.state.outbox, |i| format!("byte {i} of the outbox"))?;
    same_list(lent.log(), expected.log, |i| format!("byte {i} of the log area"))?;
    if lent.is_guarded() {
        Ok(())
    } else {
        Err("something outside the areas was written".to_string())
    }
}

/// Bytes as a report has them.
pub fn hex(bytes: &[u8]) -> String {
    bytes.iter().map(|byte| format!("{byte:02X}")).collect::<Vec<String>>().join(" ")
}
