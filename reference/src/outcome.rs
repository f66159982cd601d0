//! What one call does, as its log tells it.

use crate::limits::{E_SYS, MESSAGE};
use crate::number::TaskNo;

/// The answer to the caller.
#[derive(Clone, Copy, PartialEq, Eq, Debug)]
pub enum Answer {
    Code(i32),
    /// The caller waits and is answered when its wait ends.
    Waits,
    /// A good ext_tsk: nobody is left to be answered.
    Exited,
}

/// What a task gets together with its code.
#[derive(Clone, Copy, PartialEq, Eq, Debug)]
pub enum Got {
    Nothing,
    /// A message, zero filled.
    Message([u8; MESSAGE]),
    Block(u8),
}

/// A wait that ended in a call.
#[derive(Clone, Copy, PartialEq, Eq, Debug)]
pub struct Ended {
    pub task: TaskNo,
    pub code: i32,
    pub got: Got,
}

/// The whole outcome of a call. It is lent to each call anew so that its list is kept.
#[derive(Clone, PartialEq, Eq, Debug)]
pub struct Outcome {
    pub answer: Answer,
    pub caller: Option<TaskNo>,
    /// What the caller got with its answer.
    pub got: Got,
    pub ended: Vec<Ended>,
    pub running: Option<TaskNo>,
}

impl Default for Outcome {
    fn default() -> Outcome {
        Outcome {
            answer: Answer::Code(E_SYS),
            caller: None,
            got: Got::Nothing,
            ended: Vec::new(),
            running: None,
        }
    }
}

const ANSWERED: u8 = 0x80;
const WAITS: u8 = 0x81;
const EXITED: u8 = 0x82;
const ENDED: u8 = 0x83;
const GOT_MESSAGE: u8 = 0x84;
const GOT_BLOCK: u8 = 0x85;
const RUNNING: u8 = 0x8F;

impl Outcome {
    /// Appends the record's log.
    #[inline]
    pub fn write(&self, log: &mut Vec<u8>) {
        match self.answer {
            Answer::Code(code) => {
                log.push(ANSWERED);
                log.extend_from_slice(&code.to_le_bytes());
                if let Some(caller) = self.caller {
                    write_got(log, caller, &self.got);
                }
            }
            Answer::Waits => log.push(WAITS),
            Answer::Exited => log.push(EXITED),
        }
        for ended in &self.ended {
            log.extend_from_slice(&[ENDED, ended.task.get()]);
            log.extend_from_slice(&ended.code.to_le_bytes());
            write_got(log, ended.task, &ended.got);
        }
        log.extend_from_slice(&[RUNNING, self.running.map_or(0, TaskNo::get)]);
    }
}

#[inline]
fn write_got(log: &mut Vec<u8>, task: TaskNo, got: &Got) {
    match got {
        Got::Nothing => {}
        Got::Message(bytes) => {
            log.extend_from_slice(&[GOT_MESSAGE, task.get()]);
            log.extend_from_slice(bytes);
        }
        Got::Block(block) => {
            log.extend_from_slice(&[GOT_BLOCK, task.get()]);
            log.extend_from_slice(&i32::from(*block).to_le_bytes());
        }
    }
}
