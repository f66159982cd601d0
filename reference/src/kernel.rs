//! The state, the queues and the priorities.

use crate::limits::*;
use crate::number::{BufferNo, MutexNo, PoolNo, TaskNo, TaskSet};
use crate::words::ENDLESS;

/// Where a task stands.
#[derive(Clone, Copy, PartialEq, Eq, Debug)]
pub enum Place {
    Absent,
    Dormant,
    /// In the ready queue; its first task runs.
    Ready,
    /// Waiting for a mutex.
    Locking(MutexNo),
    /// Waiting to send; the message lies in the task's part of the outbox.
    Sending(BufferNo),
    /// Waiting to receive.
    Receiving(BufferNo),
    /// Waiting for a pool's block.
    Getting(PoolNo),
}

#[derive(Clone, Copy, Debug)]
pub struct Task {
    pub place: Place,
    /// Length of a waiting sender's message, else 0.
    pub length: u8,
    pub initial: u8,
    pub base: u8,
    pub current: u8,
    /// Milliseconds left of the wait: 0 without a wait, [`ENDLESS`] without a timeout.
    pub left: u32,
    /// Number of the arrival in its queue; larger is later.
    pub(crate) arrival: u32,
}

impl Task {
    pub(crate) const ABSENT: Task = Task {
        place: Place::Absent,
        length: 0,
        initial: 0,
        base: 0,
        current: 0,
        left: 0,
        arrival: 0,
    };

    /// Whether a mutex keeps it above its base.
    pub fn is_raised(&self) -> bool {
        self.current < self.base
    }
}

#[derive(Clone, Copy, Debug)]
pub struct Mutex {
    pub attribute: u8,
    /// 0 unless the attribute is [`MUTEX_CEILING`].
    pub ceiling: u8,
    pub holder: Option<TaskNo>,
    pub waiters: TaskSet,
}

#[derive(Clone, Copy, Debug)]
pub struct Buffer {
    pub attribute: u8,
    pub bufsz: u16,
    pub maxmsz: u8,
    /// Bytes of the store in use.
    pub used: u16,
    pub senders: TaskSet,
    pub receivers: TaskSet,
}

impl Buffer {
    /// Bytes over, or lacking (below zero), for a message of this length: it fits unless some are
    /// lacking.
    #[inline]
    pub fn room(&self, length: usize) -> i32 {
        room(u32::from(self.bufsz), u32::from(self.used), length) as i32
    }
}

#[derive(Clone, Copy, Debug)]
pub struct Pool {
    /// As given, the protection level included.
    pub attribute: u16,
    pub count: u8,
    pub size: u16,
    /// Bit b - 1 is set while block b is handed out.
    pub out: u32,
    pub waiters: TaskSet,
}

const _: () = assert!(BLOCKS <= u32::BITS as usize);

/// How a queue is ordered.
#[derive(Clone, Copy, PartialEq, Eq, Debug)]
pub enum Order {
    Arrival,
    Priority,
}

impl Order {
    #[inline]
    fn by_priority(yes: bool) -> Order {
        if yes {
            Order::Priority
        } else {
            Order::Arrival
        }
    }
}

impl Mutex {
    #[inline]
    pub fn order(&self) -> Order {
        Order::by_priority(self.attribute != MUTEX_FIFO)
    }

    /// Whether the mutex has a part in anyone's current priority.
    #[inline]
    pub fn affects_priorities(&self) -> bool {
        self.attribute >= MUTEX_INHERIT
    }
}

impl Buffer {
    #[inline]
    pub fn sender_order(&self) -> Order {
        Order::by_priority(self.attribute & 1 != 0)
    }
}

impl Pool {
    #[inline]
    pub fn order(&self) -> Order {
        Order::by_priority(self.attribute & 1 != 0)
    }

    #[inline]
    pub fn bytes(&self) -> usize {
        usize::from(self.count) * usize::from(self.size)
    }
}

#[derive(Clone, Debug)]
pub struct Kernel {
    pub(crate) tasks: [Task; TASKS],
    pub(crate) mutexes: [Option<Mutex>; MUTEXES],
    pub(crate) buffers: [Option<Buffer>; BUFFERS],
    pub(crate) pools: [Option<Pool>; POOLS],
    pub(crate) store: [[u8; STRETCH]; BUFFERS],
    pub(crate) outbox: [[u8; MESSAGE]; TASKS],
    pub(crate) ready: TaskSet,
    /// The waiting tasks that have a timeout.
    pub(crate) timed: TaskSet,
    /// The first of the ready queue, brought up to date at the end of each call.
    pub(crate) running: Option<TaskNo>,
    /// Number of the next arrival in a queue.
    pub(crate) next_arrival: u32,
}

impl Kernel {
    /// A kernel without any object.
    pub(crate) fn empty() -> Kernel {
        Kernel {
            tasks: [Task::ABSENT; TASKS],
            mutexes: [None; MUTEXES],
            buffers: [None; BUFFERS],
            pools: [None; POOLS],
            store: [[0; STRETCH]; BUFFERS],
            outbox: [[0; MESSAGE]; TASKS],
            ready: TaskSet::EMPTY,
            timed: TaskSet::EMPTY,
            running: None,
            next_arrival: 0,
        }
    }

    /// The kernel every script starts with: task 1 alone, running.
    pub fn fresh() -> Kernel {
        let mut kernel = Kernel::empty();
        let first = TaskNo::from_index(0);
        *kernel.task_mut(first) = Task {
            place: Place::Dormant,
            initial: FRESH_PRIORITY,
            base: FRESH_PRIORITY,
            current: FRESH_PRIORITY,
            ..Task::ABSENT
        };
        kernel.make_ready(first);
        kernel.choose_running();
        kernel
    }

    #[inline]
    pub fn running(&self) -> Option<TaskNo> {
        self.running
    }

    #[inline]
    pub fn task(&self, task: TaskNo) -> &Task {
        &self.tasks[task.index()]
    }

    #[inline]
    pub(crate) fn task_mut(&mut self, task: TaskNo) -> &mut Task {
        &mut self.tasks[task.index()]
    }

    pub fn mutex(&self, mutex: MutexNo) -> Option<&Mutex> {
        self.mutexes[mutex.index()].as_ref()
    }

    pub fn buffer(&self, buffer: BufferNo) -> Option<&Buffer> {
        self.buffers[buffer.index()].as_ref()
    }

    pub fn pool(&self, pool: PoolNo) -> Option<&Pool> {
        self.pools[pool.index()].as_ref()
    }

    /// The tasks of the ready queue, in no order.
    pub fn ready(&self) -> TaskSet {
        self.ready
    }

    pub fn store(&self) -> &[u8] {
        self.store.as_flattened()
    }

    pub fn outbox(&self) -> &[u8] {
        self.outbox.as_flattened()
    }

    // Queues.

    /// The first task of a queue.
    #[inline]
    pub fn first(&self, queue: TaskSet, order: Order) -> Option<TaskNo> {
        match order {
            Order::Arrival => queue.min_by_key(|&t| self.task(t).arrival),
            Order::Priority => queue.min_by_key(|&t| {
                let task = self.task(t);
                (u64::from(task.current) << 32) | u64::from(task.arrival)
            }),
        }
    }

    #[inline]
    pub(crate) fn choose_running(&mut self) {
        self.running = self.first(self.ready, Order::Priority);
    }

    /// The order of the queue a task stands in; none outside every queue.
    pub(crate) fn order_at(&self, place: Place) -> Option<Order> {
        match place {
            Place::Absent | Place::Dormant => None,
            Place::Ready => Some(Order::Priority),
            Place::Locking(m) => self.mutexes[m.index()].as_ref().map(Mutex::order),
            Place::Sending(b) => self.buffers[b.index()].as_ref().map(Buffer::sender_order),
            Place::Receiving(_) => Some(Order::Arrival),
            Place::Getting(p) => self.pools[p.index()].as_ref().map(Pool::order),
        }
    }

    /// Makes the task the latest of its queue.
    #[inline]
    pub(crate) fn arrive(&mut self, task: TaskNo) {
        if self.next_arrival == u32::MAX {
            self.renumber();
        }
        self.task_mut(task).arrival = self.next_arrival;
        self.next_arrival += 1;
    }

    /// Takes the smallest numbers that keep every order, so that they never run out.
    #[cold]
    fn renumber(&mut self) {
        let mut order: [usize; TASKS] = std::array::from_fn(|i| i);
        order.sort_by_key(|&i| self.tasks[i].arrival);
        for (arrival, &i) in order.iter().enumerate() {
            self.tasks[i].arrival = arrival as u32;
        }
        self.next_arrival = TASKS as u32;
    }

    /// Puts a task that stands in no queue into the ready queue.
    #[inline]
    pub(crate) fn make_ready(&mut self, task: TaskNo) {
        self.task_mut(task).place = Place::Ready;
        self.ready.insert(task);
        self.arrive(task);
    }

    /// The queue that a place stands for; none outside every queue.
    #[inline]
    pub(crate) fn queue_mut(&mut self, place: Place) -> Option<&mut TaskSet> {
        match place {
            Place::Absent | Place::Dormant => None,
            Place::Ready => Some(&mut self.ready),
            Place::Locking(m) => self.mutexes[m.index()].as_mut().map(|m| &mut m.waiters),
            Place::Sending(b) => self.buffers[b.index()].as_mut().map(|b| &mut b.senders),
            Place::Receiving(b) => self.buffers[b.index()].as_mut().map(|b| &mut b.receivers),
            Place::Getting(p) => self.pools[p.index()].as_mut().map(|p| &mut p.waiters),
        }
    }

    /// Takes a task out of the queue it stands in. Its place is for the caller to set.
    #[inline]
    pub(crate) fn leave_queue(&mut self, task: TaskNo) {
        let place = self.task(task).place;
        if let Some(queue) = self.queue_mut(place) {
            queue.remove(task);
        }
        if let Place::Sending(_) = place {
            self.outbox[task.index()] = [0; MESSAGE];
        }
        let state = self.task_mut(task);
        state.length = 0;
        state.left = 0;
        self.timed.remove(task);
    }

    /// Moves the caller from the ready queue to the queue it waits in. `timeout` is not 0.
    #[inline]
    pub(crate) fn wait(&mut self, caller: TaskNo, place: Place, timeout: i32) {
        self.ready.remove(caller);
        if let Some(queue) = self.queue_mut(place) {
            queue.insert(caller);
        }
        let task = self.task_mut(caller);
        task.place = place;
        if timeout > 0 {
            task.left = timeout as u32;
            self.timed.insert(caller);
        } else {
            task.left = ENDLESS;
        }
        self.arrive(caller);
    }

    // Priorities.

    /// Works out every current priority afresh: from bases and held ceilings alone, never from
    /// earlier current priorities, or the members of a circle would hold each other up for ever.
    pub(crate) fn settle(&mut self) {
        for task in &mut self.tasks {
            task.current = task.base;
        }
        for mutex in self.mutexes.iter().flatten() {
            if let (MUTEX_CEILING, Some(holder)) = (mutex.attribute, mutex.holder) {
                let task = &mut self.tasks[holder.index()];
                task.current = task.current.min(mutex.ceiling);
            }
        }
        for i in 0..MUTEXES {
            if let Some(Mutex { attribute: MUTEX_INHERIT, holder: Some(holder), waiters, .. }) =
                self.mutexes[i]
            {
                for waiter in waiters {
                    self.raise(holder, self.task(waiter).current);
                }
            }
        }
    }

    /// Raises a task, then the holder of the inheritance mutex it waits for, and so on. A task
    /// that is urgent enough ends the walk: what it waits for gets at least that from itself.
    #[inline]
    fn raise(&mut self, mut task: TaskNo, priority: u8) {
        while self.task(task).current > priority {
            self.task_mut(task).current = priority;
            let Place::Locking(m) = self.task(task).place else { return };
            match self.mutexes[m.index()] {
                Some(Mutex { attribute: MUTEX_INHERIT, holder: Some(holder), .. }) => task = holder,
                _ => return,
            }
        }
    }
}
