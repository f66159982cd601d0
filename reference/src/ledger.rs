//! The ledger: who holds what and who stands where, from the calls, their answers and the ended
//! waits alone. It is kept as plainly as possible, to be held against the kernel's state.

use crate::kernel::{Kernel, Place};
use crate::limits::*;
use crate::number::{BufferNo, MutexNo, PoolNo, TaskNo};
use crate::outcome::{Answer, Outcome};
use crate::record::Call;

#[derive(Clone, Copy, PartialEq, Eq, Debug)]
struct Entry {
    initial: u8,
    base: u8,
    started: bool,
}

#[derive(Clone, Copy, PartialEq, Eq, Debug)]
struct MutexEntry {
    attribute: i32,
    ceiling: i32,
    holder: Option<usize>,
}

/// A queue by its number; numbers count from 1 as in the calls.
#[derive(Clone, Copy, PartialEq, Eq, PartialOrd, Ord, Debug)]
enum Queue {
    Ready,
    Mutex(usize),
    Senders(usize),
    Receivers(usize),
    Pool(usize),
}

#[derive(Clone, Debug)]
pub struct Ledger {
    tasks: [Option<Entry>; TASKS + 1],
    mutexes: [Option<MutexEntry>; MUTEXES + 1],
    buffers: [Option<i32>; BUFFERS + 1],
    pools: [Option<i32>; POOLS + 1],
    /// Every queued task with its queue, as they arrived.
    queued: Vec<(usize, Queue)>,
}

impl Ledger {
    pub fn fresh() -> Ledger {
        let mut tasks = [None; TASKS + 1];
        tasks[1] = Some(Entry { initial: FRESH_PRIORITY, base: FRESH_PRIORITY, started: true });
        Ledger {
            tasks,
            mutexes: [None; MUTEXES + 1],
            buffers: [None; BUFFERS + 1],
            pools: [None; POOLS + 1],
            queued: vec![(1, Queue::Ready)],
        }
    }

    /// Enters one call with its answer and the waits it ended.
    pub fn enter(&mut self, call: &Call, outcome: &Outcome) {
        let caller = self.running();
        if let Answer::Code(..=-1) = outcome.answer {
            return;
        }
        if outcome.answer == Answer::Waits {
            let queue = match *call {
                Call::LocMtx { mutex, .. } => Queue::Mutex(mutex as usize),
                Call::SndMbf { buffer, .. } => Queue::Senders(buffer as usize),
                Call::RcvMbf { buffer, .. } => Queue::Receivers(buffer as usize),
                Call::GetMpf { pool, .. } => Queue::Pool(pool as usize),
                _ => panic!("a caller waits in {call:?}"),
            };
            self.arrive(caller.expect("a caller waits"), queue);
        } else {
            let code = match outcome.answer {
                Answer::Code(code) => code as usize,
                _ => 0,
            };
            self.take_effect(call, code, caller);
        }
        for ended in &outcome.ended {
            let task = usize::from(ended.task.get());
            if let (Some(Queue::Mutex(m)), E_OK) = (self.queue_of(task), ended.code) {
                self.mutexes[m].as_mut().expect("an awaited mutex").holder = Some(task);
            }
            self.arrive(task, Queue::Ready);
        }
    }

    fn take_effect(&mut self, call: &Call, code: usize, caller: Option<usize>) {
        match *call {
            Call::CreTsk { priority } => {
                let priority = priority as u8;
                let entry = Entry { initial: priority, base: priority, started: false };
                assert_eq!(self.tasks[code].replace(entry), None);
            }
            Call::DelTsk { task } => self.tasks[task as usize] = None,
            Call::StaTsk { task } => {
                self.tasks[task as usize].as_mut().expect("a task").started = true;
                self.arrive(task as usize, Queue::Ready);
            }
            Call::ExtTsk => self.stop(caller.expect("a caller")),
            Call::TerTsk { task } => self.stop(task as usize),
            Call::ChgPri { task, priority } => {
                let task = if task == 0 { caller.expect("a caller") } else { task as usize };
                let entry = self.tasks[task].as_mut().expect("a task");
                entry.base = if priority == 0 { entry.initial } else { priority as u8 };
                self.arrive_by_base(task);
            }
            Call::CreMtx { attribute, ceiling } => {
                let entry = MutexEntry { attribute, ceiling, holder: None };
                assert_eq!(self.mutexes[code].replace(entry), None);
            }
            Call::DelMtx { mutex } => self.mutexes[mutex as usize] = None,
            Call::LocMtx { mutex, .. } => {
                self.mutexes[mutex as usize].as_mut().expect("a mutex").holder = caller;
            }
            Call::UnlMtx { mutex } => {
                self.mutexes[mutex as usize].as_mut().expect("a mutex").holder = None;
            }
            Call::CreMbf { attribute, .. } => {
                assert_eq!(self.buffers[code].replace(attribute), None);
            }
            Call::DelMbf { buffer } => self.buffers[buffer as usize] = None,
            Call::CreMpf { attribute, .. } => {
                assert_eq!(self.pools[code].replace(attribute), None);
            }
            Call::DelMpf { pool } => self.pools[pool as usize] = None,
            Call::SndMbf { .. }
            | Call::RcvMbf { .. }
            | Call::GetMpf { .. }
            | Call::RelMpf { .. }
            | Call::Tick => {}
        }
    }

    fn stop(&mut self, task: usize) {
        let entry = self.tasks[task].as_mut().expect("a task");
        entry.base = entry.initial;
        entry.started = false;
        self.queued.retain(|&(t, _)| t != task);
        for mutex in self.mutexes.iter_mut().flatten() {
            if mutex.holder == Some(task) {
                mutex.holder = None;
            }
        }
    }

    fn arrive(&mut self, task: usize, queue: Queue) {
        self.queued.retain(|&(t, _)| t != task);
        self.queued.push((task, queue));
    }

    /// A task whose base was set arrives anew in a queue by priority, unless its priority, worked
    /// out from the new base, is another: then a mutex keeps it up, and it stays where it is.
    fn arrive_by_base(&mut self, task: usize) {
        let base = self.tasks[task].map(|entry| entry.base);
        if let Some(queue) = self.queue_of(task) {
            if self.by_priority(queue) && self.priority(task) == base {
                self.arrive(task, queue);
            }
        }
    }

    fn queue_of(&self, task: usize) -> Option<Queue> {
        self.queued.iter().find(|&&(t, _)| t == task).map(|&(_, queue)| queue)
    }

    fn by_priority(&self, queue: Queue) -> bool {
        match queue {
            Queue::Ready => true,
            Queue::Mutex(m) => self.mutexes[m].is_some_and(|m| m.attribute != 0),
            Queue::Senders(b) => self.buffers[b] == Some(1),
            Queue::Receivers(_) => false,
            Queue::Pool(p) => self.pools[p].is_some_and(|attribute| attribute % 2 == 1),
        }
    }

    /// Whether x waits for an inheritance mutex that y holds.
    fn waits_for(&self, x: usize, y: usize) -> bool {
        match self.queue_of(x) {
            Some(Queue::Mutex(m)) => {
                self.mutexes[m].is_some_and(|m| m.attribute == 2 && m.holder == Some(y))
            }
            _ => false,
        }
    }

    /// A task's current priority, by the definition: over all tasks that reach it.
    pub fn priority(&self, task: usize) -> Option<u8> {
        self.tasks[task]?;
        let mut linked = vec![task];
        let mut seen = 0;
        while seen < linked.len() {
            let y = linked[seen];
            seen += 1;
            for x in 1..=TASKS {
                if self.waits_for(x, y) && !linked.contains(&x) {
                    linked.push(x);
                }
            }
        }
        let bases = linked.iter().filter_map(|&t| self.tasks[t]).map(|entry| entry.base);
        let ceilings =
            self.mutexes.iter().flatten().filter_map(|m| match (m.attribute, m.holder) {
                (3, Some(holder)) if linked.contains(&holder) => Some(m.ceiling as u8),
                _ => None,
            });
        bases.chain(ceilings).min()
    }

    /// The tasks of a queue in its order.
    fn in_order(&self, queue: Queue) -> Vec<usize> {
        let mut tasks: Vec<usize> =
            self.queued.iter().filter(|&&(_, q)| q == queue).map(|&(t, _)| t).collect();
        if self.by_priority(queue) {
            // A stable sort: equals stay as they arrived.
            tasks.sort_by_key(|&t| self.priority(t));
        }
        tasks
    }

    pub fn running(&self) -> Option<usize> {
        self.in_order(Queue::Ready).first().copied()
    }

    /// Whether the task is a member of a circle of waits for inheritance mutexes.
    pub fn in_circle(&self, task: usize) -> bool {
        let mut at = task;
        for _ in 0..TASKS {
            match (1..=TASKS).find(|&y| self.waits_for(at, y)) {
                Some(y) if y == task => return true,
                Some(y) => at = y,
                None => return false,
            }
        }
        false
    }

    /// Says where the kernel differs from the ledger.
    pub fn compare(&self, kernel: &Kernel) -> Result<(), String> {
        let running = kernel.running().map(|t| usize::from(t.get()));
        if running != self.running() {
            return Err(format!("{running:?} runs, not {:?}", self.running()));
        }
        for t in TaskNo::all() {
            let n = usize::from(t.get());
            let task = kernel.task(t);
            let entry = match task.place {
                Place::Absent => None,
                place => Some(Entry {
                    initial: task.initial,
                    base: task.base,
                    started: place != Place::Dormant,
                }),
            };
            if entry != self.tasks[n] || queue_at(task.place) != self.queue_of(n) {
                return Err(format!("task {n}: {task:?}, not {:?}", self.tasks[n]));
            }
            if entry.map(|_| task.current) != self.priority(n) {
                return Err(format!("task {n}: {task:?}, not at {:?}", self.priority(n)));
            }
        }
        for m in MutexNo::all() {
            let n = usize::from(m.get());
            let holder = kernel.mutex(m).map(|m| m.holder.map(|t| usize::from(t.get())));
            if holder != self.mutexes[n].map(|m| m.holder) {
                return Err(format!("mutex {n}: {holder:?}, not {:?}", self.mutexes[n]));
            }
        }
        let buffers = BufferNo::all().all(|b| {
            kernel.buffer(b).map(|b| i32::from(b.attribute)) == self.buffers[usize::from(b.get())]
        });
        let pools = PoolNo::all().all(|p| {
            kernel.pool(p).map(|p| i32::from(p.attribute)) == self.pools[usize::from(p.get())]
        });
        if !buffers || !pools {
            return Err("buffers or pools differ".into());
        }
        self.compare_arrivals(kernel)
    }

    /// The same for the tasks of each queue, as they arrived.
    fn compare_arrivals(&self, kernel: &Kernel) -> Result<(), String> {
        let queued = |t: TaskNo| Some((usize::from(t.get()), queue_at(kernel.task(t).place)?));
        // Stable sorts: the tasks of one queue stay as they arrived.
        let mut theirs: Vec<_> = kernel.arrivals().into_iter().filter_map(queued).collect();
        theirs.sort_by_key(|&(_, queue)| queue);
        let mut ours = self.queued.clone();
        ours.sort_by_key(|&(_, queue)| queue);
        if theirs != ours {
            return Err(format!("arrived as {theirs:?}, not {ours:?}"));
        }
        Ok(())
    }
}

/// The queue that a task of the kernel stands in.
fn queue_at(place: Place) -> Option<Queue> {
    match place {
        Place::Absent | Place::Dormant => None,
        Place::Ready => Some(Queue::Ready),
        Place::Locking(m) => Some(Queue::Mutex(usize::from(m.get()))),
        Place::Sending(b) => Some(Queue::Senders(usize::from(b.get()))),
        Place::Receiving(b) => Some(Queue::Receivers(usize::from(b.get()))),
        Place::Getting(p) => Some(Queue::Pool(usize::from(p.get()))),
    }
}
