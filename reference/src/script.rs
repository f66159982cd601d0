//! Whole scripts, and one record on a lent state.

use crate::kernel::Kernel;
use crate::limits::{E_SYS, LOG, SCRIPT};
use crate::outcome::{Answer, Outcome};
use crate::record::{self, Call};

const TOO_LONG: u8 = 0x8D;
const STOPPED: u8 = 0x8E;

/// How far a script is run.
#[derive(Clone, Copy, PartialEq, Eq, Debug)]
pub(crate) enum End {
    Whole,
    /// Only the records before this offset: the kind there is unknown, or the body is cut.
    Stopped(usize),
    /// Nothing of it.
    TooLong,
}

/// Runs a script on the fresh kernel and gives its log.
pub fn run_script(script: &[u8]) -> Vec<u8> {
    let mut log = Vec::with_capacity(2 * script.len());
    match run_each(script, |out| out.write(&mut log)).1 {
        End::Whole => {}
        End::Stopped(at) => {
            log.push(STOPPED);
            log.extend_from_slice(&(at as u32).to_le_bytes());
        }
        End::TooLong => log.push(TOO_LONG),
    }
    log
}

/// The same, with each record's outcome handed on: gives the kernel after it, and how far it ran.
pub(crate) fn run_each(script: &[u8], mut each: impl FnMut(&Outcome)) -> (Kernel, End) {
    let mut kernel = Kernel::fresh();
    if script.len() > SCRIPT {
        return (kernel, End::TooLong);
    }
    let mut out = Outcome::default();
    let mut at = 0;
    while at < script.len() {
        let Some((call, length)) = record::read(&script[at..]) else {
            return (kernel, End::Stopped(at));
        };
        kernel.run(&call, &mut out);
        each(&out);
        at += length;
    }
    (kernel, End::Whole)
}

/// Runs one call on a lent state, lent areas and a lent log area. Gives the answer and how many
/// bytes of the log area were written; the rest of it stays as it came.
pub fn run_record(
    words: &mut [u32],
    store: &mut [u8],
    outbox: &mut [u8],
    call: &Call,
    log: &mut [u8],
) -> (Answer, usize) {
    if log.len() != LOG {
        return (Answer::Code(E_SYS), 0);
    }
    let mut out = Outcome::default();
    if let Some(mut kernel) = Kernel::from_words(words, store, outbox) {
        kernel.run(call, &mut out);
        words.copy_from_slice(&kernel.to_words());
        store.copy_from_slice(kernel.store());
        outbox.copy_from_slice(kernel.outbox());
    }
    let mut written = Vec::with_capacity(LOG);
    out.write(&mut written);
    log[..written.len()].copy_from_slice(&written);
    (out.answer, written.len())
}
