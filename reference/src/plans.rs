//! Longer plans of the generator: situations that single random calls seldom make.

use crate::calls::{number, CallMaker, LEAST_URGENT};
use crate::kernel::Order;
use crate::limits::{MUTEX_CEILING, MUTEX_INHERIT};
use crate::number::{BufferNo, MutexNo, TaskNo};
use crate::record::Call;

/// One call of a plan and the task that has to make it; none if any may.
#[derive(Clone, Copy, Debug)]
pub(crate) struct Step {
    pub by: Option<TaskNo>,
    pub call: Call,
}

impl Step {
    pub fn anyone(call: Call) -> Step {
        Step { by: None, call }
    }

    pub fn by(task: TaskNo, call: Call) -> Step {
        Step { by: Some(task), call }
    }
}

impl CallMaker {
    /// A plan, if the kernel has what it takes.
    pub fn plan(&mut self) -> Vec<Step> {
        let plan = match self.random.below(8) {
            0 | 1 => self.chain(true),
            2 => self.chain(false),
            3 => self.raised_sender(),
            4 => self.lowered_sender(),
            5 => self.two_buffers_at_once(),
            6 => self.awaited_ceiling(),
            _ => self.terminated_in_circle(),
        };
        plan.unwrap_or_default()
    }

    /// Free inheritance mutexes, in random order.
    fn free_inheritance(&mut self) -> Vec<MutexNo> {
        let mut mutexes = self.mutexes();
        mutexes.retain(|&m| {
            self.kernel.mutex(m).is_some_and(|m| m.attribute == MUTEX_INHERIT && m.holder.is_none())
        });
        self.shuffle(mutexes)
    }

    pub fn shuffled_ready(&mut self) -> Vec<TaskNo> {
        let ready = self.ready();
        self.shuffle(ready)
    }

    pub fn shuffle<T>(&mut self, mut list: Vec<T>) -> Vec<T> {
        for i in (1..list.len()).rev() {
            list.swap(i, self.random.below(i + 1));
        }
        list
    }

    pub fn wait_timeout(&mut self) -> i32 {
        if self.random.percent(50) {
            -1
        } else {
            self.random.between(2, 9)
        }
    }

    /// Gives the tasks that take part priorities of their own again.
    fn set_priorities(&mut self, steps: &mut Vec<Step>, tasks: &[TaskNo]) {
        for &task in tasks {
            let priority =
                if self.random.percent(30) { 0 } else { self.random.between(2, LEAST_URGENT) };
            steps.push(Step::anyone(Call::ChgPri { task: number(task), priority }));
        }
    }

    /// Tasks that each hold one inheritance mutex and wait for the next one's, closed to a circle
    /// or open; then sometimes one from outside.
    fn chain(&mut self, closed: bool) -> Option<Vec<Step>> {
        let mutexes = self.free_inheritance();
        let tasks = self.shuffled_ready();
        let most = mutexes.len().min(tasks.len().saturating_sub(1)).min(6);
        if most < 2 {
            return None;
        }
        let length = 2 + self.random.below(most - 1);
        let mut steps = Vec::new();
        let lock = |m: MutexNo, timeout| Call::LocMtx { mutex: i32::from(m.get()), timeout };
        for i in 0..length {
            steps.push(Step::by(tasks[i], lock(mutexes[i], -1)));
        }
        // In any order: a chain that grows at its front or at its end.
        let last = if closed { length } else { length - 1 };
        let order: Vec<usize> = self.shuffle((0..last).collect());
        for i in order {
            let timeout = self.wait_timeout();
            steps.push(Step::by(tasks[i], lock(mutexes[(i + 1) % length], timeout)));
        }
        let members = tasks[..length].to_vec();
        self.set_priorities(&mut steps, &members);
        for &outsider in tasks[length..].iter().take(2) {
            if self.random.percent(60) {
                let into = mutexes[self.random.below(length)];
                let priority = self.random.between(1, 6);
                steps.push(Step::by(outsider, Call::ChgPri { task: 0, priority }));
                let timeout = self.random.between(1, 4);
                steps.push(Step::by(outsider, lock(into, timeout)));
                // What stood when the call began counts, although the mutex itself raised it.
                if self.random.percent(30) {
                    steps.push(Step::anyone(Call::DelMtx { mutex: i32::from(into.get()) }));
                }
            }
        }
        Some(steps)
    }

    /// A member of a circle is terminated while it holds several mutexes, so that who gets them
    /// hangs on the priorities being settled in between.
    fn terminated_in_circle(&mut self) -> Option<Vec<Step>> {
        let mutexes = self.free_inheritance();
        let tasks = self.shuffled_ready();
        if mutexes.len() < 3 || tasks.len() < 4 {
            return None;
        }
        let lock = |m: MutexNo, timeout| Call::LocMtx { mutex: i32::from(m.get()), timeout };
        let [terminated, partner, third, caller] = [tasks[0], tasks[1], tasks[2], tasks[3]];
        let mut steps = vec![
            Step::by(terminated, lock(mutexes[0], -1)),
            Step::by(terminated, lock(mutexes[1], -1)),
            Step::by(partner, lock(mutexes[2], -1)),
            Step::by(partner, lock(mutexes[0], -1)),
            Step::by(third, lock(mutexes[self.random.below(2)], -1)),
            Step::by(terminated, lock(mutexes[2], -1)),
        ];
        self.set_priorities(&mut steps, &[terminated, partner, third]);
        let task = number(terminated);
        steps.push(Step::by(caller, Call::TerTsk { task }));
        Some(steps)
    }

    /// Buffers that nobody waits at and that can hold a short message but no long one.
    fn unawaited_buffers(&mut self) -> Vec<BufferNo> {
        let mut buffers = self.buffers();
        buffers.retain(|&b| {
            self.kernel.buffer(b).is_some_and(|b| {
                b.maxmsz >= 16 && b.bufsz >= 16 && b.receivers.is_empty() && b.senders.is_empty()
            })
        });
        self.shuffle(buffers)
    }

    /// One of them whose senders stand in this order.
    pub fn unawaited_buffer(&mut self, order: Order) -> Option<BufferNo> {
        let mut buffers = self.unawaited_buffers();
        buffers.retain(|&b| self.kernel.buffer(b).is_some_and(|b| b.sender_order() == order));
        buffers.first().copied()
    }

    /// A buffer that has no message and no senders.
    pub fn empty_buffer(&mut self) -> Option<BufferNo> {
        let mut empty = self.buffers();
        empty.retain(|b| self.kernel.next_message(i32::from(b.get())).is_empty());
        self.random.pick_if_any(&empty)
    }

    /// Fills a buffer until 8 to 16 bytes are free: a short message fits, a long one does not.
    pub fn fill_up(&mut self, steps: &mut Vec<Step>, buffer: BufferNo) -> Option<()> {
        let state = *self.kernel.buffer(buffer)?;
        let longest = i32::from(state.maxmsz) / 4 * 4;
        let mut free = i32::from(state.bufsz) - i32::from(state.used);
        while free > 16 {
            let length = (free - 12 - 4).clamp(1, longest);
            let call = self.snd_mbf(buffer, length, 0);
            steps.push(Step::anyone(call));
            free -= 4 + (length + 3) / 4 * 4;
        }
        (free >= 8).then_some(())
    }

    /// A sender behind another is raised through its mutex to the front, where its message fits.
    fn raised_sender(&mut self) -> Option<Vec<Step>> {
        let mutex = *self.free_inheritance().first()?;
        let tasks = self.shuffled_ready();
        let buffer = self.unawaited_buffer(Order::Priority)?;
        if tasks.len() < 3 {
            return None;
        }
        let [low, high, urgent] = [tasks[0], tasks[1], tasks[2]];
        let mut steps = Vec::new();
        self.fill_up(&mut steps, buffer)?;
        let lock = |timeout| Call::LocMtx { mutex: i32::from(mutex.get()), timeout };
        let longest = i32::from(self.kernel.buffer(buffer)?.maxmsz);
        steps.push(Step::by(low, lock(-1)));
        let call = self.snd_mbf(buffer, longest, -1);
        steps.push(Step::by(high, call));
        // The second comes later at the same priority, so it stands behind.
        steps.push(Step::by(low, Call::ChgPri { task: 0, priority: LEAST_URGENT }));
        let timeout = self.wait_timeout();
        let call = self.snd_mbf(buffer, 4, timeout);
        steps.push(Step::by(low, call));
        let (less_urgent, more_urgent) =
            (self.random.between(10, LEAST_URGENT), self.random.between(3, 5));
        steps.push(Step::anyone(Call::ChgPri { task: number(low), priority: less_urgent }));
        steps.push(Step::anyone(Call::ChgPri { task: number(high), priority: more_urgent }));
        let priority = self.random.between(1, 4);
        steps.push(Step::by(urgent, Call::ChgPri { task: 0, priority }));
        let timeout = self.wait_timeout();
        steps.push(Step::by(urgent, lock(timeout)));
        Some(steps)
    }

    /// The first sender, raised through its mutex, falls back; the next one's message fits.
    fn lowered_sender(&mut self) -> Option<Vec<Step>> {
        let mutex = *self.free_inheritance().first()?;
        let tasks = self.shuffled_ready();
        let buffer = self.unawaited_buffer(Order::Priority)?;
        if tasks.len() < 4 {
            return None;
        }
        let [raised, waiter, next, last] = [tasks[0], tasks[1], tasks[2], tasks[3]];
        let mut steps = Vec::new();
        self.fill_up(&mut steps, buffer)?;
        let lock = |timeout| Call::LocMtx { mutex: i32::from(mutex.get()), timeout };
        let longest = i32::from(self.kernel.buffer(buffer)?.maxmsz);
        steps.push(Step::by(raised, lock(-1)));
        let call = self.snd_mbf(buffer, longest, -1);
        steps.push(Step::by(raised, call));
        steps.push(Step::by(waiter, Call::ChgPri { task: 0, priority: 1 }));
        let timeout = self.random.between(2, 4);
        steps.push(Step::by(waiter, lock(timeout)));
        let call = self.snd_mbf(buffer, 4, -1);
        steps.push(Step::by(next, call));
        let (less_urgent, more_urgent) =
            (self.random.between(9, LEAST_URGENT), self.random.between(2, 8));
        steps.push(Step::anyone(Call::ChgPri { task: number(next), priority: more_urgent }));
        steps.push(Step::anyone(Call::ChgPri { task: number(raised), priority: less_urgent }));
        // The waiter goes by its timeout, its end or the mutex's.
        match self.random.below(4) {
            0 => {
                let task = number(waiter);
                steps.push(Step::by(last, Call::TerTsk { task }));
            }
            1 => {
                let mutex = i32::from(mutex.get());
                steps.push(Step::by(last, Call::DelMtx { mutex }));
            }
            2 => {
                let task = number(waiter);
                steps.push(Step::by(last, Call::ChgPri { task, priority: LEAST_URGENT }));
            }
            _ => steps.extend((0..timeout).map(|_| Step::anyone(Call::Tick))),
        }
        Some(steps)
    }

    /// At two buffers the first senders time out in the same tick; the next ones' messages fit.
    fn two_buffers_at_once(&mut self) -> Option<Vec<Step>> {
        let buffers = self.unawaited_buffers();
        let tasks = self.shuffled_ready();
        if buffers.len() < 2 || tasks.len() < 5 {
            return None;
        }
        let mut steps = Vec::new();
        let timeout = self.random.between(1, 3);
        for (&buffer, &task) in buffers[..2].iter().zip(&tasks) {
            self.fill_up(&mut steps, buffer)?;
            let longest = i32::from(self.kernel.buffer(buffer)?.maxmsz);
            let call = self.snd_mbf(buffer, longest, timeout);
            steps.push(Step::by(task, call));
            // The most urgent, so that the next one stands behind in either order.
            steps.push(Step::anyone(Call::ChgPri { task: number(task), priority: 1 }));
        }
        for (&buffer, &task) in buffers[..2].iter().zip(&tasks[2..]) {
            let call = self.snd_mbf(buffer, 4, -1);
            steps.push(Step::by(task, call));
        }
        steps.extend((0..timeout).map(|_| Step::anyone(Call::Tick)));
        Some(steps)
    }

    /// The holder of a ceiling mutex waits elsewhere, the next task waits for the mutex; then both
    /// are changed to priorities around the ceiling.
    fn awaited_ceiling(&mut self) -> Option<Vec<Step>> {
        let holder = self.kernel.running()?;
        let mut others = self.kernel.ready();
        others.remove(holder);
        let waiter = self.kernel.first(others, Order::Priority)?;
        let lowest = self.kernel.task(holder).base.min(self.kernel.task(waiter).base);
        let mut mutexes = self.mutexes();
        mutexes.retain(|&m| {
            self.kernel.mutex(m).is_some_and(|m| {
                m.attribute == MUTEX_CEILING && m.holder.is_none() && m.ceiling <= lowest
            })
        });
        let buffer = i32::from(self.empty_buffer()?.get());
        let chosen = self.random.pick_if_any(&mutexes)?;
        let ceiling = i32::from(self.kernel.mutex(chosen)?.ceiling);
        let mutex = i32::from(chosen.get());
        let (first, second) = (self.random.between(4, 9), self.wait_timeout());
        let mut steps = vec![
            Step::by(holder, Call::LocMtx { mutex, timeout: -1 }),
            Step::by(holder, Call::RcvMbf { buffer, timeout: first }),
            Step::by(waiter, Call::LocMtx { mutex, timeout: second }),
        ];
        for task in [waiter, holder, waiter] {
            let priority = (ceiling + self.random.between(-1, 0)).max(1);
            steps.push(Step::anyone(Call::ChgPri { task: number(task), priority }));
        }
        Some(steps)
    }
}
