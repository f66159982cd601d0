//! A log, item by item.

use crate::numbers::*;

/// An item of a log.
#[derive(Clone, Copy, PartialEq, Eq, Debug)]
pub enum Item<'a> {
    /// The call is answered with the code.
    Answer(i32),
    /// The caller waits.
    Waits,
    /// The caller has exited.
    Exits,
    /// The task's wait has ended with the code.
    Ended { task: u8, code: i32 },
    /// The task got a message, with zeros behind it; the code before is its length.
    Message { task: u8, bytes: &'a [u8; MESSAGE_BYTES] },
    /// The task got a block of a pool, counted from 1; the code before is 0.
    Block { task: u8, block: i32 },
    /// The task that runs now, 0 for none.
    Runs(u8),
    /// The script stops at the offset: unknown kind, cut body.
    Stops(u32),
    /// The script has more than `SCRIPT_BYTES` bytes.
    TooLong,
}

/// The items of a log in order, as [`items`] gives them.
#[derive(Clone, Debug)]
pub struct Items<'a> {
    rest: &'a [u8],
}

/// The items of a log in order. They end where no whole item begins; of what a call writes this is its end.
pub fn items(log: &[u8]) -> Items<'_> {
    Items { rest: log }
}

impl<'a> Items<'a> {
    /// The bytes whose items have not come yet.
    pub fn rest(&self) -> &'a [u8] {
        self.rest
    }
}

impl<'a> Iterator for Items<'a> {
    type Item = Item<'a>;

    fn next(&mut self) -> Option<Item<'a>> {
        let (item, rest) = first(self.rest)?;
        self.rest = rest;
        Some(item)
    }
}

/// The first item, and what follows it.
fn first(log: &[u8]) -> Option<(Item<'_>, &[u8])> {
    let (&tag, rest) = log.split_first()?;
    match tag {
        LOG_ANSWER => number(rest).map(|(code, rest)| (Item::Answer(code), rest)),
        LOG_WAITS => Some((Item::Waits, rest)),
        LOG_EXITS => Some((Item::Exits, rest)),
        LOG_RUNS => rest.split_first().map(|(&task, rest)| (Item::Runs(task), rest)),
        LOG_STOPS => number(rest).map(|(offset, rest)| (Item::Stops(offset as u32), rest)),
        LOG_TOO_LONG => Some((Item::TooLong, rest)),
        _ => of_task(tag, rest),
    }
}

/// An item that begins with a task.
fn of_task(tag: u8, rest: &[u8]) -> Option<(Item<'_>, &[u8])> {
    let (&task, rest) = rest.split_first()?;
    match tag {
        LOG_ENDED => number(rest).map(|(code, rest)| (Item::Ended { task, code }, rest)),
        LOG_BLOCK => number(rest).map(|(block, rest)| (Item::Block { task, block }, rest)),
        LOG_MESSAGE => {
            rest.split_first_chunk().map(|(bytes, rest)| (Item::Message { task, bytes }, rest))
        }
        _ => None,
    }
}

fn number(rest: &[u8]) -> Option<(i32, &[u8])> {
    rest.split_first_chunk().map(|(bytes, rest)| (i32::from_le_bytes(*bytes), rest))
}
