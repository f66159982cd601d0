//! How often a base was changed, by the queue its task stands in and by what raises it afterwards.

use std::cmp::Ordering;
use std::collections::BTreeMap;
use std::fmt::Write;

use crate::kernel::{Kernel, Order, Place};
use crate::limits::*;
use crate::number::TaskNo;
use crate::outcome::{Answer, Outcome};
use crate::record::Call;

/// The queues by priority, each kind, and all others.
const QUEUES: [&str; 7] =
    ["ready", "mutex 1", "mutex 2", "mutex 3", "senders", "pool", "by arrival"];

/// What keeps the task above its base.
const RAISES: [&str; 5] = ["not raised", "inheritance", "chain", "circle", "ceiling"];

/// Where the base goes, in the raised rows only if the task was raised before too; whether it
/// arrived anew or kept its arrival; whether it was raised before or is afterwards, but not both;
/// whether it arrived anew although a mutex would keep it at exactly its new base; whether it
/// arrived before one that is its equal afterwards, so that the order tells which it was. `turned`
/// and `exactly` are counted only if they are visible, `exactly` in the row of that mutex.
const COLUMNS: [&str; 9] =
    ["up", "down", "same", "to 0", "anew", "kept", "turned", "exactly", "visible"];

#[derive(Default)]
pub(crate) struct BaseTally {
    /// By queue, raise and column.
    counts: BTreeMap<(&'static str, &'static str, &'static str), u64>,
}

impl BaseTally {
    /// Counts a change of the base of a task that stands in a queue.
    pub fn record(&mut self, before: &Kernel, call: &Call, out: &Outcome, after: &Kernel) {
        let Call::ChgPri { task, priority } = *call else { return };
        let (Some(caller), Answer::Code(E_OK)) = (out.caller, out.answer) else { return };
        let task = TaskNo::new(task).unwrap_or(caller);
        let (old, new) = (before.task(task), after.task(task));
        let Some(queue) = queue_name(before, old.place) else { return };
        let (was_raised, is_raised) = (old.is_raised(), new.is_raised());
        // Neither if the look at the buffers has ended its wait.
        let stays = new.place == old.place;
        let anew = stays && new.arrival != old.arrival;
        let visible = arrived_before_an_equal(before, after, task);
        let raise = raise_name(after, task);
        let keeper = keeper_name(after, task);
        let columns = [
            (raise, direction(priority, old.base, new.base), was_raised || !is_raised),
            (raise, "anew", anew),
            (raise, "kept", stays && !anew),
            (raise, "turned", visible && was_raised != is_raised),
            (keeper, "exactly", visible && anew && keeper != "not raised"),
            (raise, "visible", visible),
        ];
        for (row, column, _) in columns.into_iter().filter(|&(_, _, happened)| happened) {
            *self.counts.entry((queue, row, column)).or_default() += 1;
        }
    }

    /// The counts as a table.
    pub fn report(&self, text: &mut String) {
        let _ = write!(text, "{:<26}", "changes of bases");
        for column in COLUMNS {
            let _ = write!(text, "{column:>8}");
        }
        let _ = writeln!(text);
        for (queue, raise) in rows() {
            let _ = write!(text, "  {:<24}", format!("{queue}, {raise}"));
            for column in COLUMNS {
                let count = self.counts.get(&(queue, raise, column)).unwrap_or(&0);
                let _ = write!(text, "{count:>8}");
            }
            let _ = writeln!(text);
        }
    }

    /// What has to occur and did not.
    pub fn report_missing(&self, text: &mut String) {
        for (queue, raise) in rows() {
            let outcomes: &[&str] = match (queue, raise) {
                ("by arrival", _) => &["kept"],
                (_, "not raised") => &["anew"],
                _ => &["kept", "exactly"],
            };
            let wanted = COLUMNS[..4].iter().chain(outcomes).chain(&["turned", "visible"]);
            for column in wanted.filter(|&&c| !self.counts.contains_key(&(queue, raise, c))) {
                let _ = writeln!(text, "  change of base {queue}, {raise}: {column}");
            }
        }
    }
}

/// Every queue with every raise that it can have: a member of a circle waits for inheritance.
fn rows() -> impl Iterator<Item = (&'static str, &'static str)> {
    let pairs = QUEUES.into_iter().flat_map(|queue| RAISES.map(|raise| (queue, raise)));
    pairs.filter(|&(queue, raise)| raise != "circle" || queue == "mutex 2")
}

fn direction(priority: i32, old: u8, new: u8) -> &'static str {
    match new.cmp(&old) {
        _ if priority == 0 => "to 0",
        Ordering::Less => "up",
        Ordering::Equal => "same",
        Ordering::Greater => "down",
    }
}

fn queue_name(kernel: &Kernel, place: Place) -> Option<&'static str> {
    if kernel.order_at(place)? == Order::Arrival {
        return Some("by arrival");
    }
    match place {
        Place::Ready => Some("ready"),
        Place::Locking(m) => match kernel.mutex(m)?.attribute {
            MUTEX_INHERIT => Some("mutex 2"),
            MUTEX_CEILING => Some("mutex 3"),
            _ => Some("mutex 1"),
        },
        Place::Sending(_) => Some("senders"),
        Place::Getting(_) => Some("pool"),
        Place::Absent | Place::Dormant | Place::Receiving(_) => None,
    }
}

/// What keeps the task above its base: a ceiling of its own, else its circle, else the nearest task
/// that waits for it.
fn raise_name(kernel: &Kernel, task: TaskNo) -> &'static str {
    let current = kernel.task(task).current;
    let held = |by: TaskNo, attribute: u8| {
        let mutexes = kernel.mutexes.iter().flatten();
        mutexes.filter(move |m| m.holder == Some(by) && m.attribute == attribute)
    };
    let by_ceiling = |t: TaskNo| held(t, MUTEX_CEILING).any(|m| m.ceiling == current);
    let by_itself = |t: TaskNo| kernel.task(t).base == current || by_ceiling(t);
    if kernel.task(task).base == current {
        "not raised"
    } else if by_ceiling(task) {
        "ceiling"
    } else if is_in_circle(kernel, task) {
        "circle"
    } else if held(task, MUTEX_INHERIT).any(|m| m.waiters.into_iter().any(by_itself)) {
        "inheritance"
    } else {
        "chain"
    }
}

/// What would keep the task at its current priority with any less urgent base.
fn keeper_name(kernel: &Kernel, task: TaskNo) -> &'static str {
    let mut other = kernel.clone();
    other.task_mut(task).base = PRIORITIES + 1;
    other.settle();
    if other.task(task).current == kernel.task(task).current {
        raise_name(&other, task)
    } else {
        "not raised"
    }
}

/// Whether the task arrived before one that is its equal afterwards, so that an arrival is seen. In
/// a queue by arrival everyone is.
fn arrived_before_an_equal(before: &Kernel, after: &Kernel, task: TaskNo) -> bool {
    let changed = before.task(task);
    let by_arrival = before.order_at(changed.place) == Some(Order::Arrival);
    TaskNo::all().any(|t| {
        let other = before.task(t);
        let equal = by_arrival || after.task(t).current == after.task(task).current;
        other.place == changed.place && other.arrival > changed.arrival && equal
    })
}

/// Whether the task is a member of a circle of waits for inheritance mutexes.
pub(crate) fn is_in_circle(kernel: &Kernel, task: TaskNo) -> bool {
    let step = |t: TaskNo| match kernel.task(t).place {
        Place::Locking(m) => {
            kernel.mutex(m).filter(|m| m.attribute == MUTEX_INHERIT).and_then(|m| m.holder)
        }
        _ => None,
    };
    let mut at = task;
    for _ in 0..TASKS {
        match step(at) {
            Some(next) if next == task => return true,
            Some(next) => at = next,
            None => return false,
        }
    }
    false
}
