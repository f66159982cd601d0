//! Runs a script record by record and holds the kernel against everything else that knows what
//! should happen: the validity check, the lent state, the ledger and the shown message.

use crate::effects::next_message;
use crate::kernel::Kernel;
use crate::ledger::Ledger;
use crate::limits::LOG;
use crate::outcome::{Answer, Got, Outcome};
use crate::record::{self, Call};
use crate::script::{run_record, run_script};
use crate::valid::check;

/// What the unwritten part of a log area holds before and after.
const UNTOUCHED: u8 = 0xA5;

/// Says what is wrong with the first record at which something is.
pub fn self_check(script: &[u8]) -> Result<(), String> {
    let mut kernel = Kernel::fresh();
    let mut ledger = Ledger::fresh();
    let mut out = Outcome::default();
    let mut whole = Vec::new();
    let mut words = kernel.to_words();
    let mut store = kernel.store().to_vec();
    let mut outbox = kernel.outbox().to_vec();
    let mut at = 0;
    while let Some((call, length)) = record::read(&script[at..]) {
        let fail = |what: &str| Err(format!("record at {at}, {call:?}: {what}"));
        let shown = match call {
            Call::RcvMbf { buffer, .. } => kernel.next_message(buffer).to_vec(),
            _ => Vec::new(),
        };
        if let Call::RcvMbf { buffer, .. } = call {
            if next_message(&words, &store, &outbox, buffer) != shown {
                return fail("another message was shown in the lent areas");
            }
        }
        kernel.run(&call, &mut out);
        let start = whole.len();
        out.write(&mut whole);

        let mut log = [UNTOUCHED; LOG];
        let (answer, written) = run_record(&mut words, &mut store, &mut outbox, &call, &mut log);
        if answer != out.answer || log[..written] != whole[start..] {
            return fail("the record's log on the lent state differs");
        }
        if log[written..].iter().any(|&byte| byte != UNTOUCHED) {
            return fail("more of the log area was written");
        }
        if words != kernel.to_words() || store != kernel.store() || outbox != kernel.outbox() {
            return fail("the lent state differs");
        }
        if !check(&words, &store, &outbox) {
            return fail("the state is not valid");
        }
        if let (Call::RcvMbf { .. }, Answer::Code(code @ 1..)) = (call, out.answer) {
            let Got::Message(message) = out.got else { return fail("no message came") };
            if shown.len() != code as usize || message[..shown.len()] != shown {
                return fail("another message was shown");
            }
        }
        ledger.enter(&call, &out);
        ledger.compare(&kernel).or_else(|difference| fail(&difference))?;
        at += length;
    }
    if script.len() <= crate::limits::SCRIPT && !run_script(script).starts_with(&whole) {
        return Err("the whole log differs".into());
    }
    Ok(())
}
