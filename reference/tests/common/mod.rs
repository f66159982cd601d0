//! A kernel under test: every call is also held against the validity check and the ledger.
#![allow(dead_code)]

use std::io::Write;
use std::process::{Command, Stdio};

use reference::ledger::Ledger;
use reference::limits::*;
use reference::number::TaskNo;
use reference::words::{at, PER_TASK, READY};
use reference::{check, Answer, Call, Got, Kernel, Outcome};

/// The last task, the least urgent priority and the most blocks of a pool, as fields of calls.
pub const LAST_TASK: i32 = TASKS as i32;
pub const LEAST_URGENT: i32 = PRIORITIES as i32;
pub const MOST_BLOCKS: i32 = BLOCKS as i32;

pub struct TestKernel {
    pub kernel: Kernel,
    pub out: Outcome,
    ledger: Ledger,
}

impl TestKernel {
    pub fn new() -> TestKernel {
        TestKernel { kernel: Kernel::fresh(), out: Outcome::default(), ledger: Ledger::fresh() }
    }

    /// Runs a call; a refused one must leave everything as it was.
    pub fn run(&mut self, call: Call) -> Answer {
        let before = self.kernel.clone();
        self.kernel.run(&call, &mut self.out);
        let words = self.kernel.to_words();
        assert!(check(&words, self.kernel.store(), self.kernel.outbox()), "not valid: {call:?}");
        self.ledger.enter(&call, &self.out);
        self.ledger.compare(&self.kernel).unwrap();
        if let Answer::Code(..=-1) = self.out.answer {
            assert_eq!(words, before.to_words(), "{call:?}");
            assert_eq!(self.kernel.store(), before.store(), "{call:?}");
            assert_eq!(self.kernel.outbox(), before.outbox(), "{call:?}");
            assert!(self.out.ended.is_empty() && self.out.got == Got::Nothing, "{call:?}");
        }
        self.out.answer
    }

    #[track_caller]
    pub fn code(&mut self, call: Call) -> i32 {
        match self.run(call) {
            Answer::Code(code) => code,
            other => panic!("{call:?}: {other:?}"),
        }
    }

    #[track_caller]
    pub fn ok(&mut self, call: Call) {
        assert_eq!(self.run(call), Answer::Code(E_OK), "{call:?}");
    }

    #[track_caller]
    pub fn waits(&mut self, call: Call) {
        assert_eq!(self.run(call), Answer::Waits, "{call:?}");
    }

    /// Creates a task and starts it.
    #[track_caller]
    pub fn start(&mut self, priority: i32) -> i32 {
        let task = self.code(cre_tsk(priority));
        assert!(task > 0);
        self.ok(sta_tsk(task));
        task
    }

    /// Makes a ready task run by making it more urgent than all, then gives its base back when it
    /// has made its calls.
    #[track_caller]
    pub fn as_task(&mut self, task: i32, calls: impl FnOnce(&mut TestKernel)) {
        let base = i32::from(self.task(task).base);
        self.ok(chg_pri(task, 1));
        self.rotate_to(task);
        calls(self);
        self.ok(chg_pri(task, base));
    }

    /// Lets the equally urgent tasks before it step behind. A raised one gets as urgent a base for
    /// that; with its own base again it keeps the new place.
    #[track_caller]
    pub fn rotate_to(&mut self, task: i32) {
        for _ in 0..TASKS {
            let running = self.running();
            if running == task {
                return;
            }
            let (base, current) = (self.task(running).base, self.current(running));
            self.ok(chg_pri(0, i32::from(current)));
            if current < base {
                self.ok(chg_pri(running, i32::from(base)));
            }
        }
        panic!("task {task} does not run");
    }

    /// Ticks so often; none of them ends a wait.
    #[track_caller]
    pub fn uneventful_ticks(&mut self, count: usize) {
        for _ in 0..count {
            self.ok(Call::Tick);
            assert_eq!(self.ended(), []);
        }
    }

    pub fn ended(&self) -> Vec<(i32, i32)> {
        self.out.ended.iter().map(|e| (i32::from(e.task.get()), e.code)).collect()
    }

    pub fn running(&self) -> i32 {
        self.kernel.running().map_or(0, |t| i32::from(t.get()))
    }

    pub fn task(&self, task: i32) -> &reference::kernel::Task {
        self.kernel.task(TaskNo::new(task).unwrap())
    }

    pub fn current(&self, task: i32) -> u8 {
        self.task(task).current
    }

    pub fn used(&self, buffer: i32) -> u16 {
        self.kernel.buffer(reference::number::BufferNo::new(buffer).unwrap()).unwrap().used
    }
}

pub fn cre_tsk(priority: i32) -> Call {
    Call::CreTsk { priority }
}
pub fn del_tsk(task: i32) -> Call {
    Call::DelTsk { task }
}
pub fn sta_tsk(task: i32) -> Call {
    Call::StaTsk { task }
}
pub fn ter_tsk(task: i32) -> Call {
    Call::TerTsk { task }
}
pub fn chg_pri(task: i32, priority: i32) -> Call {
    Call::ChgPri { task, priority }
}
pub fn cre_mtx(attribute: i32, ceiling: i32) -> Call {
    Call::CreMtx { attribute, ceiling }
}
pub fn del_mtx(mutex: i32) -> Call {
    Call::DelMtx { mutex }
}
pub fn loc_mtx(mutex: i32, timeout: i32) -> Call {
    Call::LocMtx { mutex, timeout }
}
pub fn unl_mtx(mutex: i32) -> Call {
    Call::UnlMtx { mutex }
}
pub fn cre_mbf(attribute: i32, bufsz: i32, maxmsz: i32) -> Call {
    Call::CreMbf { attribute, bufsz, maxmsz }
}
pub fn del_mbf(buffer: i32) -> Call {
    Call::DelMbf { buffer }
}
/// Sends `msgsz` of the bytes 1, 2, 3, ..., zeros behind them; all of them if msgsz is no length.
pub fn snd_mbf(buffer: i32, msgsz: i32, timeout: i32) -> Call {
    let length = if msgsz > 0 { msgsz as usize } else { MESSAGE };
    Call::SndMbf { buffer, msgsz, timeout, bytes: message(length) }
}
pub fn rcv_mbf(buffer: i32, timeout: i32) -> Call {
    Call::RcvMbf { buffer, timeout }
}
pub fn cre_mpf(attribute: i32, count: i32, size: i32) -> Call {
    Call::CreMpf { attribute, count, size }
}
pub fn del_mpf(pool: i32) -> Call {
    Call::DelMpf { pool }
}
pub fn get_mpf(pool: i32, timeout: i32) -> Call {
    Call::GetMpf { pool, timeout }
}
pub fn rel_mpf(pool: i32, block: i32) -> Call {
    Call::RelMpf { pool, block }
}

/// The message that [`snd_mbf`] sends, zero filled.
pub fn message(msgsz: usize) -> [u8; MESSAGE] {
    std::array::from_fn(|i| if i < msgsz { i as u8 + 1 } else { 0 })
}

pub fn script(calls: &[Call]) -> Vec<u8> {
    let mut bytes = Vec::new();
    for call in calls {
        call.write(&mut bytes);
    }
    bytes
}

/// The bitmap as a state's words tell it: of each ready task the bit of its current priority, where
/// that is 1 to 16.
pub fn bitmap_by_words(words: &[u32]) -> u32 {
    (1..PER_TASK).filter(|&t| words[at::PLACE + t] == READY).fold(0, |bits, t| {
        let bit = match words[at::CURRENT + t] {
            priority @ 1..=16 => 1 << (priority - 1),
            _ => 0,
        };
        bits | bit
    })
}

/// What a program writes for an input.
pub fn run_binary(program: &str, arguments: &[&str], input: &[u8]) -> Vec<u8> {
    let mut child = Command::new(program)
        .args(arguments)
        .stdin(Stdio::piped())
        .stdout(Stdio::piped())
        .spawn()
        .unwrap();
    // From another thread: output may fill its pipe before all input is taken.
    let mut stdin = child.stdin.take().unwrap();
    let input = input.to_vec();
    let writer = std::thread::spawn(move || drop(stdin.write_all(&input)));
    let output = child.wait_with_output().unwrap();
    writer.join().unwrap();
    assert!(output.status.success());
    output.stdout
}

pub fn write_frame(file: &mut Vec<u8>, bytes: &[u8]) {
    file.extend((bytes.len() as u32).to_le_bytes());
    file.extend(bytes);
}
