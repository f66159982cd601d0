//! Random scripts that get far: each call is chosen by looking at the kernel that runs beside.

use std::collections::VecDeque;
use std::sync::LazyLock;

use crate::calls::CallMaker;
use crate::kernel::{Kernel, Place};
use crate::limits::*;
use crate::outcome::Outcome;
use crate::plans::Step;
use crate::random::Random;
use crate::record::{self, Call, KINDS};
use crate::tally::Tally;

/// Most records of a script where nothing else is asked for: enough for every task to be made.
pub const RECORDS: usize = TASKS * 15 / 2;

/// What a script is mostly about.
struct Profile {
    /// How often each call is tried, in the order of [`KINDS`].
    weights: [u32; KINDS.len()],
    /// How often, in a hundred records, a longer plan is tried.
    plans: usize,
    /// The same for plans about changes of a base.
    base_plans: usize,
    /// How often, in a hundred records, a field gets an unusual number.
    unusual: usize,
    /// How many tasks, mutexes, buffers and pools are made first.
    setup: [usize; 4],
}

/// About two thirds of the tasks.
const MANY_TASKS: usize = TASKS * 2 / 3 + 1;

//       tasks: cre del sta ext ter chg | mtx: cre del loc unl | mbf: cre del snd rcv
//       | mpf: cre del get rel | tick
#[rustfmt::skip]
const PROFILES: [Profile; 8] = [
    // A bit of everything.
    Profile { weights: [5, 2, 14, 3, 4, 10,  4, 2, 22, 14,  3, 2, 24, 20,  3, 1, 14, 10,  14],
              plans: 4, base_plans: 2, unusual: 2, setup: [TASKS / 2 + 1, 5, 2, 2] },
    // Inheritance: chains, circles, and what breaks them.
    Profile { weights: [3, 1, 12, 2, 5, 10,  3, 2, 40, 14,  0, 0, 1, 1,  0, 0, 1, 1,  10],
              plans: 12, base_plans: 4, unusual: 1, setup: [MANY_TASKS, 7, 0, 0] },
    // Message buffers, with mutexes that move the senders.
    Profile { weights: [3, 1, 10, 2, 4, 10,  2, 1, 16, 8,  3, 2, 44, 24,  0, 0, 1, 1,  10],
              plans: 10, base_plans: 2, unusual: 1, setup: [MANY_TASKS, 4, 3, 0] },
    // Pools.
    Profile { weights: [3, 1, 10, 3, 4, 8,  1, 1, 8, 5,  0, 0, 1, 1,  6, 3, 40, 24,  10],
              plans: 1, base_plans: 2, unusual: 1, setup: [MANY_TASKS, 2, 0, 4] },
    // Tasks that come and go, under waits and with mutexes.
    Profile { weights: [14, 8, 26, 12, 16, 16,  3, 2, 20, 6,  2, 1, 8, 8,  2, 1, 8, 4,  10],
              plans: 3, base_plans: 1, unusual: 2, setup: [TASKS / 2, 4, 2, 2] },
    // Every number in use.
    Profile { weights: [20, 2, 10, 2, 2, 4,  16, 3, 8, 4,  10, 2, 6, 6,  12, 3, 6, 4,  6],
              plans: 2, base_plans: 1, unusual: 5, setup: [TASKS - 1, MUTEXES, BUFFERS, POOLS] },
    // Timeouts.
    Profile { weights: [2, 1, 12, 2, 2, 6,  2, 1, 24, 8,  2, 1, 16, 14,  2, 1, 12, 4,  50],
              plans: 5, base_plans: 1, unusual: 1, setup: [MANY_TASKS, 5, 2, 2] },
    // Unusual numbers everywhere.
    Profile { weights: [6, 4, 14, 2, 5, 12,  6, 3, 16, 8,  6, 3, 18, 14,  6, 3, 12, 10,  6],
              plans: 2, base_plans: 1, unusual: 45, setup: [TASKS / 2, 5, 3, 3] },
];

/// Numbers at the ends of ranges, pool attributes, and what no field allows.
static UNUSUAL: LazyLock<Vec<i32>> = LazyLock::new(|| {
    let longest = cost(MESSAGE) as u32;
    let attributes = [512, 513, 768, 769, 1024];
    let others = [&[0, 1, 2, longest - 1, longest, POOL_BYTES as u32, 1 << 16], &attributes[..]];
    let negative = [-1, -2, -3, -256, i32::MIN, i32::MIN + 1];
    let upwards = near_limits(&others.concat()).into_iter().map(|number| number as i32);
    upwards.chain(negative).chain([i32::MAX]).collect()
});

/// A script in the making and the kernel that runs it.
struct Generator<'a> {
    maker: CallMaker,
    plan: VecDeque<Step>,
    profile: &'static Profile,
    outcome: Outcome,
    script: Vec<u8>,
    /// Records tried so far for the first step of the plan.
    tries: usize,
    tally: &'a mut Tally,
}

/// Script number `index` of a seed, of at most `records` records.
pub fn generate(seed: u64, index: u64, records: usize, tally: &mut Tally) -> Vec<u8> {
    // Far apart for neighbouring seeds and scripts.
    let mut random = Random::new(seed ^ index.wrapping_mul(0xD134_2543_DE82_EF95));
    random.word();
    if random.percent(2) {
        return garbage(&mut random, tally);
    }
    let profile = &PROFILES[random.below(PROFILES.len())];
    let mut generator = Generator {
        maker: CallMaker { random, kernel: Kernel::fresh() },
        plan: VecDeque::new(),
        profile,
        outcome: Outcome::default(),
        script: Vec::new(),
        tries: 0,
        tally,
    };
    generator.fill(records);
    generator.end();
    generator.script
}

/// Bytes of any kind, sometimes with a kind byte in front, sometimes too long or none.
fn garbage(random: &mut Random, tally: &mut Tally) -> Vec<u8> {
    let length = match random.below(20) {
        0 => 0,
        1 => SCRIPT,
        2 => SCRIPT + 1,
        3 => SCRIPT + 1 + random.below(100),
        _ => random.below(200),
    };
    // Ticks only, so that a script of the full length is read to its end, or any bytes.
    let ticks = random.percent(30);
    let mut script: Vec<u8> =
        (0..length).map(|_| if ticks { 0x40 } else { random.word() as u8 }).collect();
    if let (false, Some(first)) = (ticks, script.first_mut()) {
        *first = KINDS[random.below(KINDS.len())].0;
    }
    tally.script(if script.is_empty() {
        "empty"
    } else if length > SCRIPT {
        "too long"
    } else {
        "garbage"
    });
    script
}

impl Generator<'_> {
    fn fill(&mut self, records: usize) {
        let records = 1 + self.maker.random.below(records.max(1));
        self.set_up();
        let mut made = 0;
        let mut stuck = 0;
        while made < records && self.script.len() + 1 + 12 + MESSAGE <= SCRIPT {
            // With nobody running only ticks help, and they only while a wait can time out.
            if self.maker.kernel.running().is_none() && !self.maker.some_wait_ends_soon() {
                stuck += 1;
                if stuck > 4 {
                    break;
                }
            }
            let call = match self.plan.pop_front() {
                Some(step) => self.call(step),
                None => self.choose(),
            };
            self.add(call);
            made += 1;
        }
    }

    /// Makes the objects that the profile begins with; most tasks are started by the plan too.
    fn set_up(&mut self) {
        let [tasks, mutexes, buffers, pools] = self.profile.setup;
        let mut calls = Vec::new();
        for _ in 0..self.half_or_more(mutexes) {
            calls.push(self.maker.cre_mtx());
        }
        for _ in 0..self.half_or_more(buffers) {
            calls.push(self.maker.cre_mbf());
        }
        for _ in 0..self.half_or_more(pools) {
            calls.push(self.maker.cre_mpf());
        }
        for task in 0..self.half_or_more(tasks) {
            calls.push(self.maker.cre_tsk());
            if self.maker.random.percent(85) {
                calls.push(Call::StaTsk { task: task as i32 + 2 });
            }
        }
        self.plan.extend(calls.into_iter().map(Step::anyone));
    }

    /// Half of the number or more, up to the number.
    fn half_or_more(&mut self, number: usize) -> usize {
        number - self.maker.random.below(number / 2 + 1)
    }

    /// Ends the script: mostly as it is, sometimes with a cut or unknown record.
    fn end(&mut self) {
        match self.maker.random.below(100) {
            0..=7 => {
                let mut record = Vec::new();
                self.plan.clear();
                self.choose().write(&mut record);
                if record.len() > 1 {
                    record.truncate(1 + self.maker.random.below(record.len() - 1));
                    self.script.extend_from_slice(&record);
                    self.tally.script("cut");
                    return;
                }
            }
            8..=13 => {
                let unknown = loop {
                    let kind = self.maker.random.word() as u8;
                    if record::body_length(kind).is_none() {
                        break kind;
                    }
                };
                self.script.push(unknown);
                for _ in 0..self.maker.random.below(50) {
                    self.script.push(self.maker.random.word() as u8);
                }
                self.tally.script("unknown kind");
                return;
            }
            _ => {}
        }
        self.tally.script("whole");
    }

    /// Runs the call and appends its record.
    fn add(&mut self, call: Call) {
        let mut bytes = Vec::new();
        call.write(&mut bytes);
        while self.maker.random.percent(self.profile.unusual) {
            self.make_unusual(&mut bytes);
        }
        let Some((call, _)) = record::read(&bytes) else { return };
        let before = self.maker.kernel.clone();
        self.maker.kernel.run(&call, &mut self.outcome);
        self.tally.record(&before, &call, &self.outcome, &self.maker.kernel);
        self.script.extend_from_slice(&bytes);
    }

    /// Puts an unusual number into one field of a record.
    fn make_unusual(&mut self, record: &mut [u8]) {
        let fields = ((record.len() - 1) / 4).min(3);
        if fields == 0 {
            return;
        }
        let at = 1 + 4 * self.maker.random.below(fields);
        let old = i32::from_le_bytes([record[at], record[at + 1], record[at + 2], record[at + 3]]);
        let new = match self.maker.random.below(12) {
            0 => old.wrapping_add(1),
            1 => old.wrapping_sub(1),
            2 => old.wrapping_neg(),
            // The same number to whoever drops the upper bytes or the sign.
            3 => old.wrapping_add(1 << 8),
            4 => old.wrapping_add(1 << 16),
            5 => old ^ i32::MIN,
            6 => self.maker.random.word() as i32,
            _ => self.maker.random.pick(&UNUSUAL),
        };
        record[at..at + 4].copy_from_slice(&new.to_le_bytes());
    }

    /// The next call towards a step of the plan: the step itself if the right task runs, else one
    /// that brings that task nearer to running.
    fn call(&mut self, step: Step) -> Call {
        let Some(running) = self.maker.kernel.running() else {
            self.plan.clear();
            return Call::Tick;
        };
        let wanted = match step.by {
            Some(task) if task != running => task,
            _ => {
                self.tries = 0;
                return step.call;
            }
        };
        self.tries += 1;
        if self.maker.kernel.task(wanted).place != Place::Ready || self.tries > 6 {
            self.plan.clear();
            self.tries = 0;
            return self.choose();
        }
        self.plan.push_front(step);
        let kernel = &self.maker.kernel;
        let (first, current) = (kernel.task(running).current, kernel.task(wanted).current);
        let more_urgent = first.max(2) - 1;
        if current > first && !kernel.is_above_a_ceiling(wanted, more_urgent) {
            Call::ChgPri { task: i32::from(wanted.get()), priority: i32::from(more_urgent) }
        } else {
            // The running task steps behind its equal; a raised one gets as urgent a base for that.
            Call::ChgPri { task: 0, priority: i32::from(current) }
        }
    }

    /// A call where no plan is under way; it may begin one.
    fn choose(&mut self) -> Call {
        if self.maker.kernel.running().is_none() {
            let row = self.maker.random.below(KINDS.len());
            return if self.maker.random.percent(70) {
                Call::Tick
            } else {
                self.maker.any_call(row)
            };
        }
        if self.maker.random.percent(self.profile.plans) {
            self.plan.extend(self.maker.plan());
        } else if self.maker.random.percent(self.profile.base_plans) {
            self.plan.extend(self.maker.base_plan());
        }
        // At once: the plan is made for the kernel as it is now.
        if let Some(step) = self.plan.pop_front() {
            return self.call(step);
        }
        let all: u32 = self.profile.weights.iter().sum();
        for _ in 0..20 {
            let mut at = self.maker.random.below(all as usize) as u32;
            let row = self
                .profile
                .weights
                .iter()
                .position(|&weight| {
                    let here = at < weight;
                    at = at.wrapping_sub(weight);
                    here
                })
                .unwrap_or(0);
            // Now and then a call on any target, mostly to be refused.
            if self.maker.random.percent(3) {
                return self.maker.any_call(row);
            }
            if KINDS[row].1 == "snd_mbf" && self.maker.random.percent(8) {
                return self.maker.dirty_send();
            }
            if let Some(call) = self.maker.likely_good(row) {
                return call;
            }
        }
        Call::Tick
    }
}
