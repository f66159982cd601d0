//! Plans about changes of a base: a task stands in a queue beside equals, mostly raised above its
//! base, so that its place among them shows whether it arrived anew.

use std::iter::once;

use crate::calls::{number, CallMaker, LEAST_URGENT};
use crate::kernel::{Order, Task};
use crate::limits::{MESSAGE, MUTEX_CEILING, MUTEX_INHERIT, PRIORITIES};
use crate::number::{BufferNo, MutexNo, PoolNo, TaskNo};
use crate::plans::Step;
use crate::record::Call;

/// What keeps the task above its base.
#[derive(Clone, Copy, PartialEq, Eq, Debug)]
enum Raise {
    Nothing,
    /// A ceiling mutex that it holds.
    Ceiling,
    /// So many others, each waiting for an inheritance mutex of the one before.
    Chain(usize),
    /// The same, and the task waits for one of the last.
    Circle(usize),
}

/// A kind of queue.
#[derive(Clone, Copy, PartialEq, Eq, Debug)]
enum Queue {
    Ready,
    /// The waiters of a mutex with this attribute.
    Mutex(u8),
    Senders(Order),
    Receivers,
    Pool(Order),
}

/// A plan in the making.
struct Plan {
    raise: Raise,
    queue: Queue,
    /// What the changed task is to be raised to; with [`Raise::Nothing`] only what its equals have.
    level: i32,
    /// The task whose base is changed.
    changed: TaskNo,
    /// The others of its chain or circle, the nearest first.
    linked: Vec<TaskNo>,
    /// They stand in the same queue, as urgent as the level.
    equals: Vec<TaskNo>,
    /// Holds the mutex that the others wait for, and is there to run meanwhile.
    bystander: TaskNo,
    /// The mutexes that raise the changed task: its own, then one of each that is waited for.
    links: Vec<i32>,
    /// The object of the queue; 0 for the ready queue.
    object: i32,
    steps: Vec<Step>,
}

impl Plan {
    fn push(&mut self, step: Step) {
        self.steps.push(step);
    }

    fn set_base(&mut self, task: TaskNo, priority: i32) {
        self.push(Step::anyone(Call::ChgPri { task: number(task), priority }));
    }
}

impl CallMaker {
    /// A plan about changes of a base, if the kernel has what it takes.
    pub fn base_plan(&mut self) -> Vec<Step> {
        let raise = self.random.pick(&[
            Raise::Nothing,
            Raise::Ceiling,
            Raise::Ceiling,
            Raise::Chain(1),
            Raise::Chain(1),
            Raise::Chain(2),
            Raise::Chain(2),
            Raise::Chain(2),
            Raise::Chain(3),
            Raise::Circle(1),
            Raise::Circle(2),
        ]);
        self.changes_among_equals(raise).unwrap_or_default()
    }

    fn changes_among_equals(&mut self, raise: Raise) -> Option<Vec<Step>> {
        let mut plan = self.begin_plan(raise)?;
        self.lock_links(&mut plan)?;
        plan.object = self.object(&mut plan)?;
        self.let_wait(&mut plan);
        self.change_bases(&mut plan);
        self.show_order(&mut plan);
        Some(plan.steps)
    }

    /// A plan for the running task and ready ones that nothing raises.
    fn begin_plan(&mut self, raise: Raise) -> Option<Plan> {
        let changed = self.kernel.running()?;
        let mut others = self.shuffled_ready();
        others.retain(|&t| t != changed && !self.is_raised(t));
        let linked = match raise {
            Raise::Nothing | Raise::Ceiling => 0,
            Raise::Chain(others) | Raise::Circle(others) => others,
        };
        if self.is_raised(changed) || others.len() < linked + 2 {
            return None;
        }
        let bystander = others.pop()?;
        let linked = others.split_off(others.len() - linked);
        others.truncate(1 + self.random.below(2));
        let queue = self.queue(raise);
        Some(Plan {
            raise,
            queue,
            level: self.level(raise, queue, changed),
            changed,
            linked,
            equals: others,
            bystander,
            links: Vec::new(),
            object: 0,
            steps: Vec::new(),
        })
    }

    fn is_raised(&self, task: TaskNo) -> bool {
        self.kernel.task(task).is_raised()
    }

    fn queue(&mut self, raise: Raise) -> Queue {
        if let Raise::Circle(_) = raise {
            return Queue::Mutex(MUTEX_INHERIT);
        }
        let by_arrival = [
            Queue::Mutex(0),
            Queue::Senders(Order::Arrival),
            Queue::Receivers,
            Queue::Pool(Order::Arrival),
        ];
        match self.random.below(7) {
            0 => Queue::Ready,
            attribute @ 1..=3 => Queue::Mutex(attribute as u8),
            4 => Queue::Senders(Order::Priority),
            5 => Queue::Pool(Order::Priority),
            _ => self.random.pick(&by_arrival),
        }
    }

    fn level(&mut self, raise: Raise, queue: Queue, changed: TaskNo) -> i32 {
        let Task { base, initial, .. } = *self.kernel.task(changed);
        match (raise, queue) {
            // The holder of the awaited mutex has 1: a less urgent task would not come to wait.
            (Raise::Ceiling, Queue::Mutex(MUTEX_CEILING)) => 1,
            // Its base and its initial priority are allowed.
            (Raise::Ceiling, _) => self.random.between(1, i32::from(base.min(initial))),
            _ if self.random.percent(20) => i32::from(initial.min(PRIORITIES - 1)),
            _ => self.random.between(1, 8),
        }
    }

    /// Lets the changed task and those that are waited for lock a mutex each.
    fn lock_links(&mut self, plan: &mut Plan) -> Option<()> {
        let (attribute, holders) = match plan.raise {
            Raise::Nothing => (0, 0),
            Raise::Ceiling => (MUTEX_CEILING, 1),
            // Nobody waits for the last of a chain.
            Raise::Chain(others) => (MUTEX_INHERIT, others),
            Raise::Circle(others) => (MUTEX_INHERIT, others + 1),
        };
        let level = plan.level;
        let members: Vec<TaskNo> = once(plan.changed).chain(plan.linked.iter().copied()).collect();
        for &task in &members[..holders] {
            let mutex = self.unheld_mutex(plan, attribute, level)?;
            plan.push(Step::by(task, Call::LocMtx { mutex, timeout: -1 }));
            plan.links.push(mutex);
        }
        Some(())
    }

    /// A mutex that nobody holds and the plan does not use yet; one is created if none is there.
    fn unheld_mutex(&self, plan: &mut Plan, attribute: u8, ceiling: i32) -> Option<i32> {
        let mut unused: Vec<MutexNo> = MutexNo::all().collect();
        unused.retain(|m| !plan.links.contains(&i32::from(m.get())));
        let suits = |m: MutexNo| {
            self.kernel.mutex(m).is_some_and(|m| {
                let same = attribute != MUTEX_CEILING || i32::from(m.ceiling) == ceiling;
                m.holder.is_none() && m.attribute == attribute && same
            })
        };
        if let Some(mutex) = unused.iter().find(|&&m| suits(m)) {
            return Some(i32::from(mutex.get()));
        }
        let created = unused.iter().find(|&&m| self.kernel.mutex(m).is_none())?;
        plan.push(Step::anyone(Call::CreMtx { attribute: i32::from(attribute), ceiling }));
        Some(i32::from(created.get()))
    }

    /// An object with such a queue that has nothing to give.
    fn object(&mut self, plan: &mut Plan) -> Option<i32> {
        match plan.queue {
            Queue::Ready => Some(0),
            Queue::Mutex(_) if matches!(plan.raise, Raise::Circle(_)) => plan.links.last().copied(),
            Queue::Mutex(attribute) => {
                // No base is above the ceiling 1.
                let mutex = self.unheld_mutex(plan, attribute, 1)?;
                plan.push(Step::by(plan.bystander, Call::LocMtx { mutex, timeout: -1 }));
                Some(mutex)
            }
            Queue::Senders(order) => match self.unawaited_buffer(order) {
                Some(buffer) => {
                    self.fill_up(&mut plan.steps, buffer)?;
                    Some(i32::from(buffer.get()))
                }
                None => self.created_buffer(plan, order),
            },
            Queue::Receivers => match self.empty_buffer() {
                Some(buffer) => Some(i32::from(buffer.get())),
                None => self.created_buffer(plan, Order::Arrival),
            },
            Queue::Pool(order) => self.pool_without_blocks(plan, order),
        }
    }

    /// A buffer that can hold a short message but no long one.
    fn created_buffer(&mut self, plan: &mut Plan, order: Order) -> Option<i32> {
        let created = BufferNo::all().find(|&b| self.kernel.buffer(b).is_none())?;
        let attribute = i32::from(order == Order::Priority);
        let bufsz = self.random.between(8, 16);
        plan.push(Step::anyone(Call::CreMbf { attribute, bufsz, maxmsz: MESSAGE as i32 }));
        Some(i32::from(created.get()))
    }

    /// A pool with few free blocks, or a new one, whose blocks are then all handed out.
    fn pool_without_blocks(&mut self, plan: &mut Plan, order: Order) -> Option<i32> {
        let mut pools: Vec<(PoolNo, u32)> = Vec::new();
        for number in PoolNo::all() {
            if let Some(pool) = self.kernel.pool(number).filter(|pool| pool.order() == order) {
                pools.push((number, u32::from(pool.count) - pool.out.count_ones()));
            }
        }
        pools.retain(|&(_, free)| free < 4);
        let (pool, free) = match self.random.pick_if_any(&pools) {
            Some(found) => found,
            None => {
                let created = PoolNo::all().find(|&p| self.kernel.pool(p).is_none())?;
                let level = self.random.pick(&[0, 256, 512, 768]);
                let attribute = i32::from(order == Order::Priority) + level;
                plan.push(Step::anyone(Call::CreMpf { attribute, count: 1, size: 1 }));
                (created, 1)
            }
        };
        let pool = i32::from(pool.get());
        plan.steps.extend((0..free).map(|_| Step::anyone(Call::GetMpf { pool, timeout: 0 })));
        Some(pool)
    }

    /// Lets the linked tasks, the changed one and its equals wait, in any order.
    fn let_wait(&mut self, plan: &mut Plan) {
        let mut waits = Vec::new();
        for (&task, &mutex) in plan.linked.iter().zip(&plan.links) {
            let timeout = self.wait_timeout();
            waits.push(Step::by(task, Call::LocMtx { mutex, timeout }));
        }
        for task in once(plan.changed).chain(plan.equals.iter().copied()) {
            // A short message fits as soon as its sender is the first.
            let short = task != plan.changed && self.random.percent(50);
            let call = self.waiting_call(plan, if short { 4 } else { 16 });
            waits.extend(call.map(|call| Step::by(task, call)));
        }
        plan.steps.extend(self.shuffle(waits));
    }

    fn waiting_call(&mut self, plan: &Plan, msgsz: i32) -> Option<Call> {
        let timeout = self.wait_timeout();
        Some(match plan.queue {
            Queue::Ready => return None,
            Queue::Mutex(_) => Call::LocMtx { mutex: plan.object, timeout },
            Queue::Senders(_) => self.snd_mbf(BufferNo::new(plan.object)?, msgsz, timeout),
            Queue::Receivers => Call::RcvMbf { buffer: plan.object, timeout },
            Queue::Pool(_) => Call::GetMpf { pool: plan.object, timeout },
        })
    }

    /// Gives each its base, then changes the one again and again; at times an equal arrives anew,
    /// so that it stands behind.
    fn change_bases(&mut self, plan: &mut Plan) {
        for task in plan.linked.clone() {
            // The last of a chain is the most urgent.
            let is_last = plan.linked.last() == Some(&task);
            let below = self.random.between(plan.level, LEAST_URGENT - 1) + 1;
            plan.set_base(task, if is_last { plan.level } else { below });
        }
        for equal in plan.equals.clone() {
            plan.set_base(equal, plan.level);
        }
        let Task { base, initial, .. } = *self.kernel.task(plan.changed);
        let mut base = i32::from(base);
        for _ in 0..self.random.between(8, 12) {
            let mut priority = self.base_around(base, plan.level);
            if plan.raise == Raise::Ceiling && priority > 0 {
                // More urgent would be refused.
                priority = priority.max(plan.level);
            }
            plan.set_base(plan.changed, priority);
            base = if priority == 0 { i32::from(initial) } else { priority };
            // Not raised, it has arrived anew and is the last until an equal does so too.
            let often = if base <= plan.level { 70 } else { 20 };
            if self.random.percent(often) {
                plan.set_base(self.random.pick(&plan.equals), plan.level);
            }
        }
    }

    /// Mostly deletes the object or serves its queue.
    fn show_order(&mut self, plan: &mut Plan) {
        if self.random.percent(20) {
            return;
        }
        // The holder in a circle waits, so it cannot unlock.
        if matches!(plan.raise, Raise::Circle(_)) || self.random.percent(40) {
            plan.steps.extend(deletion(plan).map(Step::anyone));
        } else if let Queue::Mutex(_) = plan.queue {
            plan.push(Step::by(plan.bystander, Call::UnlMtx { mutex: plan.object }));
        } else {
            let serving = self.serving_call(plan).map(Step::anyone);
            plan.steps.extend(serving.into_iter().chain(serving));
        }
    }

    fn serving_call(&mut self, plan: &Plan) -> Option<Call> {
        match plan.queue {
            Queue::Ready | Queue::Mutex(_) => None,
            Queue::Senders(_) => Some(Call::RcvMbf { buffer: plan.object, timeout: 0 }),
            Queue::Receivers => Some(self.snd_mbf(BufferNo::new(plan.object)?, 1, 0)),
            Queue::Pool(_) => Some(Call::RelMpf { pool: plan.object, block: 1 }),
        }
    }
}

fn deletion(plan: &Plan) -> Option<Call> {
    match plan.queue {
        Queue::Ready => None,
        Queue::Mutex(_) => Some(Call::DelMtx { mutex: plan.object }),
        Queue::Senders(_) | Queue::Receivers => Some(Call::DelMbf { buffer: plan.object }),
        Queue::Pool(_) => Some(Call::DelMpf { pool: plan.object }),
    }
}
