//! The calls: each tests its refusals in the order of the table, then takes effect.

use std::ops::Range;

use crate::kernel::{Buffer, Kernel, Mutex, Order, Place, Pool, Task};
use crate::limits::*;
use crate::number::{BufferNo, MutexNo, PoolNo, TaskNo, TaskSet};
use crate::outcome::{Answer, Ended, Got, Outcome};
use crate::record::Call;

/// An answer, or the code of a refusal that has left everything as it was.
type Result<T = Answer> = std::result::Result<T, i32>;

const DONE: Result = Ok(Answer::Code(E_OK));

impl Kernel {
    /// Runs one call of the running task.
    pub fn run(&mut self, call: &Call, out: &mut Outcome) {
        let caller = self.running;
        out.caller = caller;
        out.got = Got::Nothing;
        out.ended.clear();
        let result = match (call, caller) {
            (Call::Tick, _) => self.tick(out),
            (_, Some(caller)) => self.dispatch(caller, call, out),
            (_, None) => Err(E_CTX),
        };
        match result {
            Ok(answer) => {
                self.serve_senders(out);
                self.choose_running();
                out.answer = answer;
            }
            Err(code) => out.answer = Answer::Code(code),
        }
        out.running = self.running;
    }

    fn dispatch(&mut self, caller: TaskNo, call: &Call, out: &mut Outcome) -> Result {
        match *call {
            Call::CreTsk { priority } => self.cre_tsk(priority),
            Call::DelTsk { task } => self.del_tsk(task),
            Call::StaTsk { task } => self.sta_tsk(task),
            Call::ExtTsk => self.ext_tsk(caller, out),
            Call::TerTsk { task } => self.ter_tsk(caller, task, out),
            Call::ChgPri { task, priority } => self.chg_pri(caller, task, priority),
            Call::CreMtx { attribute, ceiling } => self.cre_mtx(attribute, ceiling),
            Call::DelMtx { mutex } => self.del_mtx(mutex, out),
            Call::LocMtx { mutex, timeout } => self.loc_mtx(caller, mutex, timeout),
            Call::UnlMtx { mutex } => self.unl_mtx(caller, mutex, out),
            Call::CreMbf { attribute, bufsz, maxmsz } => self.cre_mbf(attribute, bufsz, maxmsz),
            Call::DelMbf { buffer } => self.del_mbf(buffer, out),
            Call::SndMbf { buffer, msgsz, timeout, ref bytes } => {
                self.snd_mbf(caller, buffer, msgsz, timeout, bytes, out)
            }
            Call::RcvMbf { buffer, timeout } => self.rcv_mbf(caller, buffer, timeout, out),
            Call::CreMpf { attribute, count, size } => self.cre_mpf(attribute, count, size),
            Call::DelMpf { pool } => self.del_mpf(pool, out),
            Call::GetMpf { pool, timeout } => self.get_mpf(caller, pool, timeout, out),
            Call::RelMpf { pool, block } => self.rel_mpf(pool, block, out),
            Call::Tick => self.tick(out),
        }
    }

    // Tasks.

    fn cre_tsk(&mut self, priority: i32) -> Result {
        if !(1..=i32::from(PRIORITIES)).contains(&priority) {
            return Err(E_PAR);
        }
        let free = self.tasks.iter().position(|task| task.place == Place::Absent).ok_or(E_LIMIT)?;
        let priority = priority as u8;
        self.tasks[free] = Task {
            place: Place::Dormant,
            initial: priority,
            base: priority,
            current: priority,
            ..Task::ABSENT
        };
        Ok(created(free))
    }

    fn live_task(&self, task: i32) -> Result<TaskNo> {
        let task = TaskNo::new(task).ok_or(E_ID)?;
        match self.task(task).place {
            Place::Absent => Err(E_NOEXS),
            _ => Ok(task),
        }
    }

    fn del_tsk(&mut self, task: i32) -> Result {
        let task = self.live_task(task)?;
        if self.task(task).place != Place::Dormant {
            return Err(E_OBJ);
        }
        *self.task_mut(task) = Task::ABSENT;
        DONE
    }

    fn sta_tsk(&mut self, task: i32) -> Result {
        let task = self.live_task(task)?;
        if self.task(task).place != Place::Dormant {
            return Err(E_OBJ);
        }
        self.make_ready(task);
        DONE
    }

    fn ext_tsk(&mut self, caller: TaskNo, out: &mut Outcome) -> Result {
        self.stop(caller, out);
        Ok(Answer::Exited)
    }

    fn ter_tsk(&mut self, caller: TaskNo, task: i32, out: &mut Outcome) -> Result {
        let task = self.live_task(task)?;
        if task == caller || self.task(task).place == Place::Dormant {
            return Err(E_OBJ);
        }
        self.stop(task, out);
        DONE
    }

    /// Makes a started task dormant.
    fn stop(&mut self, task: TaskNo, out: &mut Outcome) {
        let place = self.task(task).place;
        self.leave_queue(task);
        self.task_mut(task).place = Place::Dormant;
        if let Place::Locking(_) = place {
            // Whom it raised may stand in the queues of the mutexes it gives up next.
            self.settle();
        }
        for mutex in MutexNo::all() {
            if self.mutex(mutex).is_some_and(|m| m.holder == Some(task)) {
                self.give_up(mutex, out);
            }
        }
        let state = self.task_mut(task);
        state.base = state.initial;
        state.current = state.initial;
    }

    fn chg_pri(&mut self, caller: TaskNo, task: i32, priority: i32) -> Result {
        if !(0..=i32::from(PRIORITIES)).contains(&priority) {
            return Err(E_PAR);
        }
        let task = if task == 0 { caller } else { self.live_task(task)? };
        let Task { place, initial, .. } = *self.task(task);
        let base = if priority == 0 { initial } else { priority as u8 };
        if self.is_above_a_ceiling(task, base) {
            return Err(E_ILUSE);
        }
        self.task_mut(task).base = base;
        self.settle();
        // Kept above its new base by a mutex, it keeps its arrival.
        if !self.task(task).is_raised() && self.order_at(place) == Some(Order::Priority) {
            self.arrive(task);
        }
        DONE
    }

    /// Whether the base is above the ceiling of a mutex that the task holds or waits for.
    pub(crate) fn is_above_a_ceiling(&self, task: TaskNo, base: u8) -> bool {
        self.mutexes.iter().flatten().any(|m| {
            m.attribute == MUTEX_CEILING
                && base < m.ceiling
                && (m.holder == Some(task) || m.waiters.contains(task))
        })
    }

    // Mutexes.

    fn cre_mtx(&mut self, attribute: i32, ceiling: i32) -> Result {
        if !(0..=i32::from(MUTEX_CEILING)).contains(&attribute) {
            return Err(E_RSATR);
        }
        let attribute = attribute as u8;
        let has_ceiling = attribute == MUTEX_CEILING;
        if has_ceiling && !(1..=i32::from(PRIORITIES)).contains(&ceiling) {
            return Err(E_PAR);
        }
        let free = self.mutexes.iter().position(Option::is_none).ok_or(E_LIMIT)?;
        self.mutexes[free] = Some(Mutex {
            attribute,
            ceiling: if has_ceiling { ceiling as u8 } else { 0 },
            holder: None,
            waiters: TaskSet::EMPTY,
        });
        Ok(created(free))
    }

    fn live_mutex(&mut self, mutex: i32) -> Result<(MutexNo, &mut Mutex)> {
        let number = MutexNo::new(mutex).ok_or(E_ID)?;
        let mutex = self.mutexes[number.index()].as_mut().ok_or(E_NOEXS)?;
        Ok((number, mutex))
    }

    fn del_mtx(&mut self, mutex: i32, out: &mut Outcome) -> Result {
        let (number, &mut mutex) = self.live_mutex(mutex)?;
        self.end_all(mutex.waiters, mutex.order(), out);
        self.mutexes[number.index()] = None;
        if mutex.affects_priorities() {
            self.settle();
        }
        DONE
    }

    fn loc_mtx(&mut self, caller: TaskNo, mutex: i32, timeout: i32) -> Result {
        if timeout <= -2 {
            return Err(E_PAR);
        }
        let base = self.task(caller).base;
        let (number, mutex) = self.live_mutex(mutex)?;
        if mutex.holder == Some(caller) || mutex.attribute == MUTEX_CEILING && base < mutex.ceiling
        {
            return Err(E_ILUSE);
        }
        if mutex.holder.is_none() {
            mutex.holder = Some(caller);
            if mutex.attribute == MUTEX_CEILING {
                self.settle();
            }
            return DONE;
        }
        if timeout == 0 {
            return Err(E_TMOUT);
        }
        let inherit = mutex.attribute == MUTEX_INHERIT;
        self.wait(caller, Place::Locking(number), timeout);
        if inherit {
            self.settle();
        }
        Ok(Answer::Waits)
    }

    fn unl_mtx(&mut self, caller: TaskNo, mutex: i32, out: &mut Outcome) -> Result {
        let (number, mutex) = self.live_mutex(mutex)?;
        if mutex.holder != Some(caller) {
            return Err(E_ILUSE);
        }
        self.give_up(number, out);
        DONE
    }

    /// Hands a held mutex to its first waiter, or frees it.
    fn give_up(&mut self, number: MutexNo, out: &mut Outcome) {
        let Some(mutex) = self.mutexes[number.index()] else { return };
        let next_holder = self.first(mutex.waiters, mutex.order());
        if let Some(next_holder) = next_holder {
            self.end_wait(next_holder, E_OK, Got::Nothing, out);
        }
        if let Some(mutex) = &mut self.mutexes[number.index()] {
            mutex.holder = next_holder;
        }
        if mutex.affects_priorities() {
            self.settle();
        }
    }

    // Message buffers.

    fn cre_mbf(&mut self, attribute: i32, bufsz: i32, maxmsz: i32) -> Result {
        if !(0..=1).contains(&attribute) {
            return Err(E_RSATR);
        }
        if bufsz < 0 || !(1..=MESSAGE as i32).contains(&maxmsz) {
            return Err(E_PAR);
        }
        let free = self.buffers.iter().position(Option::is_none).ok_or(E_LIMIT)?;
        if bufsz > STRETCH as i32 {
            return Err(E_NOMEM);
        }
        self.buffers[free] = Some(Buffer {
            attribute: attribute as u8,
            bufsz: bufsz as u16,
            maxmsz: maxmsz as u8,
            used: 0,
            senders: TaskSet::EMPTY,
            receivers: TaskSet::EMPTY,
        });
        Ok(created(free))
    }

    fn live_buffer(&self, buffer: i32) -> Result<(BufferNo, Buffer)> {
        let number = BufferNo::new(buffer).ok_or(E_ID)?;
        let buffer = self.buffers[number.index()].ok_or(E_NOEXS)?;
        Ok((number, buffer))
    }

    fn del_mbf(&mut self, buffer: i32, out: &mut Outcome) -> Result {
        let (number, buffer) = self.live_buffer(buffer)?;
        self.end_all(buffer.receivers, Order::Arrival, out);
        self.end_all(buffer.senders, buffer.sender_order(), out);
        self.buffers[number.index()] = None;
        self.store[number.index()] = [0; STRETCH];
        DONE
    }

    fn snd_mbf(
        &mut self,
        caller: TaskNo,
        buffer: i32,
        msgsz: i32,
        timeout: i32,
        bytes: &[u8; MESSAGE],
        out: &mut Outcome,
    ) -> Result {
        if timeout <= -2 || msgsz <= 0 || has_dirty_tail(msgsz as usize, bytes) {
            return Err(E_PAR);
        }
        let (number, buffer) = self.live_buffer(buffer)?;
        if msgsz > i32::from(buffer.maxmsz) {
            return Err(E_PAR);
        }
        let length = msgsz as usize;
        let message = &bytes[..length];
        if let Some(receiver) = self.first(buffer.receivers, Order::Arrival) {
            self.end_wait(receiver, msgsz, Got::Message(zero_filled(message)), out);
            return DONE;
        }
        if buffer.room(length) >= 0 && self.would_head(caller, &buffer) {
            self.put(number, message);
            return DONE;
        }
        if timeout == 0 {
            return Err(E_TMOUT);
        }
        self.outbox[caller.index()][..length].copy_from_slice(message);
        self.task_mut(caller).length = length as u8;
        self.wait(caller, Place::Sending(number), timeout);
        Ok(Answer::Waits)
    }

    /// Whether the caller, arriving among the senders now, would be their first.
    fn would_head(&self, caller: TaskNo, buffer: &Buffer) -> bool {
        let order = buffer.sender_order();
        match self.first(buffer.senders, order) {
            None => true,
            Some(first) => {
                order == Order::Priority && self.task(caller).current < self.task(first).current
            }
        }
    }

    fn rcv_mbf(&mut self, caller: TaskNo, buffer: i32, timeout: i32, out: &mut Outcome) -> Result {
        if timeout <= -2 {
            return Err(E_PAR);
        }
        let (number, buffer) = self.live_buffer(buffer)?;
        if buffer.used > 0 {
            let (message, length) = self.take(number);
            out.got = Got::Message(message);
            return Ok(Answer::Code(length as i32));
        }
        if let Some(sender) = self.first(buffer.senders, buffer.sender_order()) {
            out.got = Got::Message(self.outbox[sender.index()]);
            let length = self.task(sender).length;
            self.end_wait(sender, E_OK, Got::Nothing, out);
            return Ok(Answer::Code(i32::from(length)));
        }
        if timeout == 0 {
            return Err(E_TMOUT);
        }
        self.wait(caller, Place::Receiving(number), timeout);
        Ok(Answer::Waits)
    }

    /// Stores a message that fits.
    fn put(&mut self, number: BufferNo, message: &[u8]) {
        let Some(buffer) = &mut self.buffers[number.index()] else { return };
        let stretch = &mut self.store[number.index()];
        let at = usize::from(buffer.used);
        stretch[at..at + LENGTH].copy_from_slice(&(message.len() as u32).to_le_bytes());
        stretch[at + LENGTH..at + LENGTH + message.len()].copy_from_slice(message);
        buffer.used += cost(message.len()) as u16;
    }

    /// Takes the oldest stored message, zero filled, and moves the others to the front.
    fn take(&mut self, number: BufferNo) -> ([u8; MESSAGE], usize) {
        let length = stored_length(&self.store[number.index()]);
        let stretch = &mut self.store[number.index()];
        let message = zero_filled(&stretch[LENGTH..LENGTH + length]);
        if let Some(buffer) = &mut self.buffers[number.index()] {
            let used = usize::from(buffer.used);
            let rest = used - cost(length);
            stretch.copy_within(used - rest..used, 0);
            stretch[rest..used].fill(0);
            buffer.used = rest as u16;
        }
        (message, length)
    }

    /// Last in each call: stores what waiting senders can store now. Any call may have moved
    /// another sender to the front, by its timeout, its end or its priority.
    fn serve_senders(&mut self, out: &mut Outcome) {
        for i in 0..BUFFERS {
            while let Some(buffer) = &self.buffers[i] {
                let Some(sender) = self.first(buffer.senders, buffer.sender_order()) else { break };
                let length = usize::from(self.task(sender).length);
                if buffer.room(length) < 0 {
                    break;
                }
                let message = self.outbox[sender.index()];
                self.put(BufferNo::from_index(i), &message[..length]);
                self.end_wait(sender, E_OK, Got::Nothing, out);
            }
        }
    }

    /// Where the message lies that a receive would take next; none if there is none.
    fn next_span(&self, buffer: i32) -> Option<Span> {
        let (number, buffer) = self.live_buffer(buffer).ok()?;
        if buffer.used > 0 {
            let length = stored_length(&self.store[number.index()]);
            let start = number.index() * STRETCH + LENGTH;
            return Some(Span::Store(start..start + length));
        }
        let sender = self.first(buffer.senders, buffer.sender_order())?;
        let start = sender.index() * MESSAGE;
        Some(Span::Outbox(start..start + usize::from(self.task(sender).length)))
    }

    /// The message that a receive would take next, where it lies; empty if there is none.
    pub fn next_message(&self, buffer: i32) -> &[u8] {
        show(self.next_span(buffer), self.store(), self.outbox())
    }

    // Fixed pools.

    fn cre_mpf(&mut self, attribute: i32, count: i32, size: i32) -> Result {
        if !is_pool_attribute(attribute as u32) {
            return Err(E_RSATR);
        }
        if !(1..=BLOCKS as i32).contains(&count) || !(1..=BLOCK_SIZE as i32).contains(&size) {
            return Err(E_PAR);
        }
        let free = self.pools.iter().position(Option::is_none).ok_or(E_LIMIT)?;
        let pool = Pool {
            attribute: attribute as u16,
            count: count as u8,
            size: size as u16,
            out: 0,
            waiters: TaskSet::EMPTY,
        };
        let live: usize = self.pools.iter().flatten().map(Pool::bytes).sum();
        if live + pool.bytes() > POOL_BYTES {
            return Err(E_NOMEM);
        }
        self.pools[free] = Some(pool);
        Ok(created(free))
    }

    fn live_pool(&mut self, pool: i32) -> Result<(PoolNo, &mut Pool)> {
        let number = PoolNo::new(pool).ok_or(E_ID)?;
        let pool = self.pools[number.index()].as_mut().ok_or(E_NOEXS)?;
        Ok((number, pool))
    }

    fn del_mpf(&mut self, pool: i32, out: &mut Outcome) -> Result {
        let (number, &mut pool) = self.live_pool(pool)?;
        self.end_all(pool.waiters, pool.order(), out);
        self.pools[number.index()] = None;
        DONE
    }

    fn get_mpf(&mut self, caller: TaskNo, pool: i32, timeout: i32, out: &mut Outcome) -> Result {
        if timeout <= -2 {
            return Err(E_PAR);
        }
        let (number, pool) = self.live_pool(pool)?;
        let free = pool.out.trailing_ones();
        if free < u32::from(pool.count) {
            pool.out |= 1 << free;
            out.got = Got::Block(free as u8 + 1);
            return DONE;
        }
        if timeout == 0 {
            return Err(E_TMOUT);
        }
        self.wait(caller, Place::Getting(number), timeout);
        Ok(Answer::Waits)
    }

    fn rel_mpf(&mut self, pool: i32, block: i32, out: &mut Outcome) -> Result {
        let (_, pool) = self.live_pool(pool)?;
        if !(1..=i32::from(pool.count)).contains(&block) || pool.out & (1 << (block - 1)) == 0 {
            return Err(E_PAR);
        }
        if pool.waiters.is_empty() {
            pool.out &= !(1 << (block - 1));
            return DONE;
        }
        let (waiters, order) = (pool.waiters, pool.order());
        if let Some(waiter) = self.first(waiters, order) {
            self.end_wait(waiter, E_OK, Got::Block(block as u8), out);
        }
        DONE
    }

    // Time.

    fn tick(&mut self, out: &mut Outcome) -> Result {
        let mut lock_ended = false;
        for task in self.timed {
            let state = self.task_mut(task);
            state.left -= 1;
            if state.left == 0 {
                lock_ended |= matches!(state.place, Place::Locking(_));
                self.end_wait(task, E_TMOUT, Got::Nothing, out);
            }
        }
        if lock_ended {
            self.settle();
        }
        DONE
    }

    // Ends of waits.

    #[inline]
    fn end_wait(&mut self, task: TaskNo, code: i32, got: Got, out: &mut Outcome) {
        self.leave_queue(task);
        self.make_ready(task);
        out.ended.push(Ended { task, code, got });
    }

    /// Ends the waits of a queue that is deleted, in its order. Priorities must not be settled
    /// before the last of them has ended.
    fn end_all(&mut self, mut queue: TaskSet, order: Order, out: &mut Outcome) {
        while let Some(task) = self.first(queue, order) {
            queue.remove(task);
            self.end_wait(task, E_DLT, Got::Nothing, out);
        }
    }
}

/// A part of one of the two areas.
enum Span {
    Store(Range<usize>),
    Outbox(Range<usize>),
}

fn show<'a>(span: Option<Span>, store: &'a [u8], outbox: &'a [u8]) -> &'a [u8] {
    match span {
        Some(Span::Store(part)) => &store[part],
        Some(Span::Outbox(part)) => &outbox[part],
        None => &[],
    }
}

/// The next message of a buffer of a lent state, as a part of the lent area it lies in; empty if
/// the state or an area is not valid, the number names no buffer, or there is no message.
pub fn next_message<'a>(words: &[u32], store: &'a [u8], outbox: &'a [u8], buffer: i32) -> &'a [u8] {
    let kernel = Kernel::from_words(words, store, outbox);
    show(kernel.and_then(|kernel| kernel.next_span(buffer)), store, outbox)
}

fn created(index: usize) -> Answer {
    Answer::Code(index as i32 + 1)
}

/// The length of the oldest message of a buffer's stretch.
fn stored_length(stretch: &[u8; STRETCH]) -> usize {
    // No length above MESSAGE: the other bytes of the length are 0.
    usize::from(stretch[0])
}

/// Whether a byte behind the first `length` is not zero. A length above 32 has none behind it; order
/// 5, 6 or 7 refuses it.
fn has_dirty_tail(length: usize, bytes: &[u8; MESSAGE]) -> bool {
    bytes.iter().skip(length).any(|&byte| byte != 0)
}

fn zero_filled(message: &[u8]) -> [u8; MESSAGE] {
    let mut filled = [0; MESSAGE];
    filled[..message.len()].copy_from_slice(message);
    filled
}

#[cfg(test)]
mod tests {
    use super::*;

    /// A kernel whose arrival numbers are nearly used up behaves like any other.
    #[test]
    fn arrivals_never_run_out() {
        let mut low = Kernel::fresh();
        let mut high = Kernel::fresh();
        let (mut a, mut b) = (Outcome::default(), Outcome::default());
        let mut calls = vec![Call::CreMbf { attribute: 1, bufsz: 0, maxmsz: MESSAGE as i32 }];
        for task in 2..=TASKS as i32 {
            calls.push(Call::CreTsk { priority: 8 });
            calls.push(Call::StaTsk { task });
        }
        for i in 0..200 {
            calls.push(Call::ChgPri { task: 0, priority: 8 });
            calls.push(Call::RcvMbf { buffer: 1, timeout: 3 + i % 5 });
            calls.push(Call::Tick);
        }
        high.next_arrival = u32::MAX - 150;
        for call in &calls {
            low.run(call, &mut a);
            high.run(call, &mut b);
            assert_eq!(a, b);
            assert_eq!(low.to_words(), high.to_words());
        }
        assert!(high.next_arrival < 10_000, "the tasks were renumbered");
    }
}
