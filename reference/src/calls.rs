//! Single calls of the generator, each made by looking at the kernel that runs beside.

use crate::kernel::{Kernel, Place, Task};
use crate::limits::*;
use crate::number::{BufferNo, MutexNo, PoolNo, TaskNo};
use crate::random::Random;
use crate::record::{self, Call, KINDS};

/// The least urgent priority.
pub(crate) const LEAST_URGENT: i32 = PRIORITIES as i32;

/// The kernel as it is now, and the random source that calls are chosen by.
pub(crate) struct CallMaker {
    pub random: Random,
    pub kernel: Kernel,
}

impl CallMaker {
    // What the kernel holds now.

    pub fn tasks(&self, wanted: impl Fn(&Task) -> bool) -> Vec<TaskNo> {
        TaskNo::all().filter(|&t| wanted(self.kernel.task(t))).collect()
    }

    pub fn ready(&self) -> Vec<TaskNo> {
        self.kernel.ready().collect()
    }

    pub fn mutexes(&self) -> Vec<MutexNo> {
        MutexNo::all().filter(|&m| self.kernel.mutex(m).is_some()).collect()
    }

    pub fn buffers(&self) -> Vec<BufferNo> {
        BufferNo::all().filter(|&b| self.kernel.buffer(b).is_some()).collect()
    }

    fn pools(&self) -> Vec<PoolNo> {
        PoolNo::all().filter(|&p| self.kernel.pool(p).is_some()).collect()
    }

    /// Whether fewer than a hundred ticks end a wait.
    pub fn some_wait_ends_soon(&self) -> bool {
        TaskNo::all().any(|t| (1..100).contains(&self.kernel.task(t).left))
    }

    /// Whether another task could run if the caller stopped.
    pub fn another_is_ready(&self) -> bool {
        self.kernel.ready().len() > 1
    }

    // Calls.

    pub fn timeout(&mut self) -> i32 {
        match self.random.below(100) {
            0..=8 => 0,
            9..=11 => self.random.pick(&[i32::MAX, i32::MAX - 1, 50, 1000]),
            12..=54 if self.another_is_ready() => -1,
            55 => -1,
            _ => self.random.between(1, 7),
        }
    }

    fn priority(&mut self) -> i32 {
        self.random.between(1, LEAST_URGENT)
    }

    pub fn cre_tsk(&mut self) -> Call {
        // Mostly below task 1, so that setting up goes on.
        let low = if self.random.percent(70) { i32::from(FRESH_PRIORITY) } else { 1 };
        Call::CreTsk { priority: self.random.between(low, LEAST_URGENT) }
    }

    pub fn cre_mtx(&mut self) -> Call {
        let attribute = self.random.pick(&[0, 1, 2, 2, 2, 2, 3]);
        let ceiling = match attribute {
            // Low ceilings would let nobody in; high ones let everyone.
            3 => self.random.pick(&[1, 1, 2, 3, 5, 8, 12, LEAST_URGENT]),
            _ => self.random.pick(&[0, 0, 5, LEAST_URGENT + 1, -1]),
        };
        Call::CreMtx { attribute, ceiling }
    }

    pub fn cre_mbf(&mut self) -> Call {
        let [shortest, longest] = [1, MESSAGE].map(|length| cost(length) as i32);
        let most = STRETCH as i32;
        let ends = [shortest - 1, shortest, longest - 1, longest, most - 1, most, most + 1];
        let bufsz = match self.random.below(10) {
            0 => 0,
            1 => self.random.pick(&ends),
            2 => self.random.between(0, most),
            _ => self.random.between(8, 80),
        };
        let longest = MESSAGE as i32;
        let maxmsz =
            if self.random.percent(60) { longest } else { self.random.between(1, longest) };
        Call::CreMbf { attribute: self.random.pick(&[0, 1, 1]), bufsz, maxmsz }
    }

    pub fn cre_mpf(&mut self) -> Call {
        let count = if self.random.percent(75) {
            self.random.between(1, 3)
        } else {
            self.random.between(1, BLOCKS as i32)
        };
        let size = self.random.pick(&[1, 4, 16, 64, BLOCK_SIZE as i32 - 1, BLOCK_SIZE as i32]);
        let level = self.random.pick(&[0, 0, 0, 256, 512, 768]);
        Call::CreMpf { attribute: self.random.between(0, 1) + level, count, size }
    }

    pub fn snd_mbf(&mut self, buffer: BufferNo, msgsz: i32, timeout: i32) -> Call {
        let bytes = self.message(msgsz);
        Call::SndMbf { buffer: i32::from(buffer.get()), msgsz, timeout, bytes }
    }

    /// Zeros behind the message, and mostly some inside it.
    fn message(&mut self, msgsz: i32) -> [u8; MESSAGE] {
        let mut bytes = [0; MESSAGE];
        let zeros = self.random.pick(&[0, 20, 20, 60]);
        for byte in bytes.iter_mut().take(msgsz.max(0) as usize) {
            if !self.random.percent(zeros) {
                *byte = self.nonzero();
            }
        }
        bytes
    }

    fn nonzero(&mut self) -> u8 {
        self.random.between(1, i32::from(u8::MAX)) as u8
    }

    /// A send to any number with a dirty tail; at times one with a msgsz above 32, which has none.
    pub fn dirty_send(&mut self) -> Call {
        let most = MESSAGE as i32;
        let msgsz = if self.random.percent(15) {
            // In their lowest byte alone, or the lowest two, some of these are 1.
            self.random.pick(&[most + 1, most + 2, (1 << 8) + 1, (1 << 16) + 1, i32::MAX])
        } else {
            self.random.between(1, most - 1)
        };
        let mut bytes = self.message(msgsz);
        if msgsz < most {
            self.soil(&mut bytes[msgsz as usize..]);
        }
        let buffers = self.buffers();
        let buffer = match self.random.pick_if_any(&buffers) {
            Some(buffer) if self.random.percent(50) => i32::from(buffer.get()),
            _ => self.random.between(0, BUFFERS as i32 + 1),
        };
        let timeout =
            if self.random.percent(10) { self.random.between(-4, -2) } else { self.timeout() };
        Call::SndMbf { buffer, msgsz, timeout, bytes }
    }

    /// Bytes other than zero in a tail: the first, the last, any one, or all.
    fn soil(&mut self, tail: &mut [u8]) {
        let last = tail.len() - 1;
        match self.random.below(4) {
            0 => tail[0] = self.nonzero(),
            1 => tail[last] = self.nonzero(),
            2 => tail[self.random.below(tail.len())] = self.nonzero(),
            _ => tail.iter_mut().for_each(|byte| *byte = self.nonzero()),
        }
    }

    /// A call of the kind that is likely to be good; none if there is nothing to call it on.
    pub fn likely_good(&mut self, row: usize) -> Option<Call> {
        let running = self.kernel.running()?;
        let holds = |k: &Kernel, m: MutexNo| k.mutex(m).and_then(|m| m.holder) == Some(running);
        Some(match KINDS[row].1 {
            "cre_tsk" => {
                if self.tasks(|t| t.place == Place::Absent).is_empty() && self.random.percent(80) {
                    return None;
                }
                self.cre_tsk()
            }
            "del_tsk" => {
                let dormant = self.tasks(|t| t.place == Place::Dormant);
                Call::DelTsk { task: number(self.random.pick_if_any(&dormant)?) }
            }
            "sta_tsk" => {
                let dormant = self.tasks(|t| t.place == Place::Dormant);
                Call::StaTsk { task: number(self.random.pick_if_any(&dormant)?) }
            }
            "ext_tsk" => {
                if !self.another_is_ready() && !self.random.percent(3) {
                    return None;
                }
                Call::ExtTsk
            }
            "ter_tsk" => {
                let started = self.tasks(|t| !matches!(t.place, Place::Absent | Place::Dormant));
                let others: Vec<TaskNo> = started.into_iter().filter(|&t| t != running).collect();
                // Rather those that wait: they have something to leave.
                let waiting: Vec<TaskNo> = others
                    .iter()
                    .copied()
                    .filter(|&t| self.kernel.task(t).place != Place::Ready)
                    .collect();
                let from = if self.random.percent(60) { &waiting } else { &others };
                Call::TerTsk { task: number(self.random.pick_if_any(from)?) }
            }
            "chg_pri" if self.random.percent(10) => self.near_a_ceiling()?,
            "chg_pri" if self.random.percent(20) => self.change_of_raised()?,
            "chg_pri" => {
                let live = self.tasks(|t| t.place != Place::Absent);
                let task = if self.random.percent(25) {
                    0
                } else {
                    number(self.random.pick_if_any(&live)?)
                };
                let priority = if self.random.percent(15) { 0 } else { self.priority() };
                Call::ChgPri { task, priority }
            }
            "cre_mtx" => {
                if self.mutexes().len() == MUTEXES && self.random.percent(80) {
                    return None;
                }
                self.cre_mtx()
            }
            "del_mtx" => {
                let mutexes = self.mutexes();
                let awaited: Vec<MutexNo> = mutexes
                    .iter()
                    .copied()
                    .filter(|&m| self.kernel.mutex(m).is_some_and(|m| !m.waiters.is_empty()))
                    .collect();
                let from = if self.random.percent(60) { &awaited } else { &mutexes };
                Call::DelMtx { mutex: i32::from(self.random.pick_if_any(from)?.get()) }
            }
            "loc_mtx" => {
                let base = self.kernel.task(running).base;
                let mut mutexes = self.mutexes();
                mutexes.retain(|&m| {
                    let allowed = self.kernel.mutex(m).is_some_and(|m| base >= m.ceiling);
                    allowed && !holds(&self.kernel, m)
                });
                let held: Vec<MutexNo> = mutexes
                    .iter()
                    .copied()
                    .filter(|&m| self.kernel.mutex(m).is_some_and(|m| m.holder.is_some()))
                    .collect();
                let from = if self.random.percent(35) { &held } else { &mutexes };
                let mutex = i32::from(self.random.pick_if_any(from)?.get());
                Call::LocMtx { mutex, timeout: self.timeout() }
            }
            "unl_mtx" => {
                let mut held = self.mutexes();
                held.retain(|&m| holds(&self.kernel, m));
                Call::UnlMtx { mutex: i32::from(self.random.pick_if_any(&held)?.get()) }
            }
            "cre_mbf" => {
                if self.buffers().len() == BUFFERS && self.random.percent(80) {
                    return None;
                }
                self.cre_mbf()
            }
            "del_mbf" => {
                let buffers = self.buffers();
                Call::DelMbf { buffer: i32::from(self.random.pick_if_any(&buffers)?.get()) }
            }
            "snd_mbf" => {
                let buffers = self.buffers();
                let buffer = self.random.pick_if_any(&buffers)?;
                let maxmsz = i32::from(self.kernel.buffer(buffer)?.maxmsz);
                let msgsz = match self.random.below(4) {
                    0 => maxmsz,
                    1 => self.random.between(1, maxmsz.min(4)),
                    _ => self.random.between(1, maxmsz),
                };
                let timeout = self.timeout();
                self.snd_mbf(buffer, msgsz, timeout)
            }
            "rcv_mbf" => {
                let buffers = self.buffers();
                let buffer = self.random.pick_if_any(&buffers)?;
                let buffer = i32::from(buffer.get());
                // Mostly where something is to be had; waiting receivers would eat every message.
                if self.kernel.next_message(buffer).is_empty() && self.random.percent(50) {
                    return None;
                }
                Call::RcvMbf { buffer, timeout: self.timeout() }
            }
            "cre_mpf" => {
                if self.pools().len() == POOLS && self.random.percent(80) {
                    return None;
                }
                self.cre_mpf()
            }
            "del_mpf" => {
                let pools = self.pools();
                Call::DelMpf { pool: i32::from(self.random.pick_if_any(&pools)?.get()) }
            }
            "get_mpf" => {
                let pools = self.pools();
                let pool = i32::from(self.random.pick_if_any(&pools)?.get());
                Call::GetMpf { pool, timeout: self.timeout() }
            }
            "rel_mpf" => {
                let pools = self.pools();
                let number = self.random.pick_if_any(&pools)?;
                let pool = self.kernel.pool(number)?;
                let out: Vec<i32> = (1..=i32::from(pool.count))
                    .filter(|block| pool.out >> (block - 1) & 1 == 1)
                    .collect();
                let block = self.random.pick_if_any(&out)?;
                Call::RelMpf { pool: i32::from(number.get()), block }
            }
            _ => Call::Tick,
        })
    }

    /// A priority around the ceiling of a mutex for a task that holds or awaits it.
    fn near_a_ceiling(&mut self) -> Option<Call> {
        let mut near = Vec::new();
        for mutex in self.mutexes() {
            let mutex = self.kernel.mutex(mutex)?;
            if mutex.attribute == MUTEX_CEILING {
                let tasks = mutex.holder.into_iter().chain(mutex.waiters);
                near.extend(tasks.map(|task| (task, i32::from(mutex.ceiling))));
            }
        }
        let (task, ceiling) = self.random.pick_if_any(&near)?;
        let priority = (ceiling + self.random.between(-1, 1)).clamp(1, LEAST_URGENT);
        Some(Call::ChgPri { task: number(task), priority })
    }

    /// A base for a raised task, at times the one it has.
    fn change_of_raised(&mut self) -> Option<Call> {
        let raised = self.tasks(Task::is_raised);
        let task = self.random.pick_if_any(&raised)?;
        let Task { base, current, .. } = *self.kernel.task(task);
        let priority = self.base_around(i32::from(base), i32::from(current));
        Some(Call::ChgPri { task: number(task), priority })
    }

    /// A base for a task that has this one and is raised to the level: 0, the same, exactly the
    /// level, at least as urgent as it, from one to the other, or at most as urgent as it.
    pub fn base_around(&mut self, base: i32, level: i32) -> i32 {
        match self.random.below(20) {
            0..=3 => 0,
            4..=6 => base,
            7..=9 => level,
            10 => self.random.between(1, level),
            11..=14 => self.random.between(level.min(base), level.max(base)),
            _ => self.random.between(level, LEAST_URGENT),
        }
    }

    /// A call of the kind on any numbers in or near their ranges.
    pub fn any_call(&mut self, row: usize) -> Call {
        let (kind, _, length) = KINDS[row];
        let mut bytes = vec![kind];
        for _ in 0..length / 4 {
            let field = match self.random.below(6) {
                0 => self.random.between(-2, TASKS as i32 + 2),
                1 | 2 => self.random.between(1, TASKS as i32),
                _ => self.random.between(1, BUFFERS as i32),
            };
            bytes.extend_from_slice(&field.to_le_bytes());
        }
        let mut call = record::read(&bytes).map_or(Call::Tick, |(call, _)| call);
        if let Call::SndMbf { msgsz, ref mut bytes, .. } = call {
            // Dirty tails hide the orders behind them.
            if self.random.percent(70) {
                *bytes = self.message(msgsz);
            }
        }
        call
    }
}

pub(crate) fn number(task: TaskNo) -> i32 {
    i32::from(task.get())
}
