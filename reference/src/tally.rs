//! How often each answer, ended wait, refusal, tail of a send and change of a base occurred, so
//! that what is missing shows.

use std::collections::BTreeMap;
use std::fmt::Write;

use crate::base_tally::{is_in_circle, BaseTally};
use crate::kernel::{Kernel, Place};
use crate::limits::*;
use crate::number::TaskNo;
use crate::outcome::{Answer, Outcome};
use crate::record::{Call, KINDS};

#[derive(Default)]
pub struct Tally {
    scripts: BTreeMap<&'static str, u64>,
    records: u64,
    /// By call and answer.
    answers: BTreeMap<(usize, &'static str), u64>,
    /// By the wait, its code and the call that ended it.
    ended: BTreeMap<(&'static str, &'static str, usize), u64>,
    notes: BTreeMap<&'static str, u64>,
    /// Sends by their tail and the answer if it were clean.
    tails: BTreeMap<(&'static str, &'static str), u64>,
    /// Sends that were carried out, from msgsz 1 on.
    carried_out: [u64; MESSAGE],
    /// Dirty tails that were refused, from msgsz 1 on.
    dirty: [u64; MESSAGE - 1],
    bases: BaseTally,
}

/// Every pair of call and refusal that the table allows.
const REFUSALS: [(i32, &[&str]); 11] = [
    (
        E_CTX,
        &[
            "cre_tsk", "del_tsk", "sta_tsk", "ext_tsk", "ter_tsk", "chg_pri", "cre_mtx", "del_mtx",
            "loc_mtx", "unl_mtx", "cre_mbf", "del_mbf", "snd_mbf", "rcv_mbf", "cre_mpf", "del_mpf",
            "get_mpf", "rel_mpf",
        ],
    ),
    (E_RSATR, &["cre_mtx", "cre_mbf", "cre_mpf"]),
    (
        E_PAR,
        &[
            "cre_tsk", "chg_pri", "cre_mtx", "loc_mtx", "cre_mbf", "snd_mbf", "rcv_mbf", "cre_mpf",
            "get_mpf", "rel_mpf",
        ],
    ),
    (E_ID, &BY_NUMBER),
    (E_NOEXS, &BY_NUMBER),
    (E_OBJ, &["del_tsk", "sta_tsk", "ter_tsk"]),
    (E_ILUSE, &["chg_pri", "loc_mtx", "unl_mtx"]),
    (E_LIMIT, &["cre_tsk", "cre_mtx", "cre_mbf", "cre_mpf"]),
    (E_NOMEM, &["cre_mbf", "cre_mpf"]),
    (E_TMOUT, &["loc_mtx", "snd_mbf", "rcv_mbf", "get_mpf"]),
    // Never an answer, only the end of a wait.
    (E_DLT, &[]),
];

const BY_NUMBER: [&str; 13] = [
    "del_tsk", "sta_tsk", "ter_tsk", "chg_pri", "del_mtx", "loc_mtx", "unl_mtx", "del_mbf",
    "snd_mbf", "rcv_mbf", "del_mpf", "get_mpf", "rel_mpf",
];

/// Tails of sends, each with the answers that have to occur if it were clean. Where no task runs
/// sends have any bytes, so mostly several behind the message. The last two are clean: no byte is
/// behind 32 or more.
const TAILS: [(&str, &[&str]); 6] = [
    ("first byte behind alone", &["0", "waits", "E_ID", "E_NOEXS"]),
    ("last byte alone", &["0", "waits", "E_ID", "E_NOEXS"]),
    ("another byte alone", &["0", "waits", "E_ID", "E_NOEXS"]),
    ("several bytes", &["0", "waits", "E_CTX", "E_PAR", "E_ID", "E_NOEXS"]),
    ("none, the last of 32 nonzero", &["0", "waits"]),
    ("none, msgsz above 32", &["E_PAR", "E_ID", "E_NOEXS"]),
];

impl Tally {
    /// Counts a script by how it ends.
    pub fn script(&mut self, end: &'static str) {
        *self.scripts.entry(end).or_default() += 1;
    }

    /// Counts a record.
    pub fn record(&mut self, before: &Kernel, call: &Call, out: &Outcome, after: &Kernel) {
        let row = call.row();
        self.records += 1;
        *self.answers.entry((row, answer_name(out.answer))).or_default() += 1;
        self.tail(before, call, out.answer);
        self.bases.record(before, call, out, after);
        for ended in &out.ended {
            let wait = match before.task(ended.task).place {
                Place::Locking(_) => "loc_mtx",
                Place::Sending(_) => "snd_mbf",
                Place::Receiving(_) => "rcv_mbf",
                Place::Getting(_) => "get_mpf",
                _ => "no wait",
            };
            *self.ended.entry((wait, name(ended.code), row)).or_default() += 1;
            if ended.code >= 0 {
                self.served(before, ended.task);
            }
        }
        self.note("several waits ended in one call", out.ended.len() > 1);
        self.note("a wait queue of three or more stands", longest_wait(after) > 2);
        self.note("nobody runs", out.running.is_none());
        let moved = |up: bool| {
            TaskNo::all().any(|t| {
                let (old, new) = (before.task(t), after.task(t));
                let same = old.base == new.base && old.place == new.place;
                same && if up { new.current < old.current } else { new.current > old.current }
            })
        };
        self.note("a task raised by others", moved(true));
        self.note("a task lowered by others", moved(false));
        let circle = circle_members(after);
        self.note("a circle of waits stands", circle > 0);
        self.note("a circle of three or more stands", circle > 2);
        self.note("a circle begins", circle > 0 && circle_members(before) == 0);
        self.note("a circle ends", circle == 0 && circle_members(before) > 0);
    }

    /// Counts a send by the bytes behind its message.
    fn tail(&mut self, before: &Kernel, call: &Call, answer: Answer) {
        let Call::SndMbf { buffer, msgsz: msgsz @ 1.., timeout, mut bytes } = *call else { return };
        let length = msgsz as usize;
        if let Answer::Code(E_OK) | Answer::Waits = answer {
            self.carried_out[length - 1] += 1;
        }
        let Some(tail) = tail_name(length, &bytes) else { return };
        if let Some(count) = self.dirty.get_mut(length - 1) {
            // A dirty tail that was let pass does not count.
            let Answer::Code(E_PAR | E_CTX) = answer else { return };
            *count += 1;
        }
        bytes.iter_mut().skip(length).for_each(|byte| *byte = 0);
        let mut out = Outcome::default();
        before.clone().run(&Call::SndMbf { buffer, msgsz, timeout, bytes }, &mut out);
        *self.tails.entry((tail, answer_name(out.answer))).or_default() += 1;
    }

    /// Counts a waiter that was served for what brought it to the front of its queue.
    fn served(&mut self, before: &Kernel, task: TaskNo) {
        let waiter = before.task(task);
        let (past, raised) = match waiter.place {
            Place::Locking(_) => ("loc_mtx served past an earlier waiter", "loc_mtx served raised"),
            Place::Sending(_) => ("snd_mbf served past an earlier waiter", "snd_mbf served raised"),
            Place::Getting(_) => ("get_mpf served past an earlier waiter", "get_mpf served raised"),
            _ => return,
        };
        let is_past = TaskNo::all().any(|t| {
            let other = before.task(t);
            other.place == waiter.place && other.arrival < waiter.arrival
        });
        self.note(past, is_past);
        self.note(raised, waiter.is_raised());
    }

    fn note(&mut self, what: &'static str, happened: bool) {
        *self.notes.entry(what).or_default() += u64::from(happened);
    }

    /// The counts as text.
    pub fn report(&self) -> String {
        let mut text = String::new();
        let scripts: u64 = self.scripts.values().sum();
        let _ = writeln!(text, "{scripts} scripts, {} records", self.records);
        for (end, count) in &self.scripts {
            let _ = writeln!(text, "  script {end:<40} {count:>10}");
        }
        for (what, count) in &self.notes {
            let _ = writeln!(text, "  {what:<47} {count:>10}");
        }
        let _ = writeln!(text, "answers");
        for (row, (_, call, _)) in KINDS.iter().enumerate() {
            let _ = write!(text, "  {call}:");
            for ((_, answer), count) in self.answers.range((row, "")..(row + 1, "")) {
                let _ = write!(text, " {answer} {count}");
            }
            let _ = writeln!(text);
        }
        let _ = writeln!(text, "tails of sends: nonzero bytes, answers if they were zero");
        for (tail, _) in TAILS {
            let _ = write!(text, "  {tail}:");
            for ((_, answer), count) in self.tails.iter().filter(|(key, _)| key.0 == tail) {
                let _ = write!(text, " {answer} {count}");
            }
            let _ = writeln!(text);
        }
        let _ = writeln!(text, "  carried out, from msgsz 1 on: {:?}", self.carried_out);
        let _ = writeln!(text, "  dirty, from msgsz 1 on: {:?}", self.dirty);
        self.bases.report(&mut text);
        let _ = writeln!(text, "ended waits: wait, code, by which call");
        for ((wait, code, row), count) in &self.ended {
            let _ = writeln!(text, "  {wait} {code:<8} {:<8} {count:>10}", KINDS[*row].1);
        }
        let _ = writeln!(text, "refusals, tails and changes of bases that did not occur");
        for (code, calls) in REFUSALS {
            for call in calls {
                let row = KINDS.iter().position(|kind| kind.1 == *call).unwrap_or(0);
                if !self.answers.contains_key(&(row, name(code))) {
                    let _ = writeln!(text, "  {call} {}", name(code));
                }
            }
        }
        for (tail, answers) in TAILS {
            for answer in answers.iter().filter(|answer| !self.tails.contains_key(&(tail, answer)))
            {
                let _ = writeln!(text, "  tail {tail}: {answer}");
            }
        }
        for msgsz in (1..=MESSAGE).filter(|msgsz| self.carried_out[msgsz - 1] == 0) {
            let _ = writeln!(text, "  send of msgsz {msgsz} carried out");
        }
        for msgsz in (1..MESSAGE).filter(|msgsz| self.dirty[msgsz - 1] == 0) {
            let _ = writeln!(text, "  dirty tail of msgsz {msgsz}");
        }
        self.bases.report_missing(&mut text);
        text
    }
}

/// The length of the longest wait queue.
fn longest_wait(kernel: &Kernel) -> usize {
    let waits = |t: TaskNo| kernel.task(t).place;
    let queued = |place: Place| TaskNo::all().filter(|&t| waits(t) == place).count();
    TaskNo::all()
        .map(waits)
        .filter(|place| !matches!(place, Place::Absent | Place::Dormant | Place::Ready))
        .map(queued)
        .max()
        .unwrap_or(0)
}

/// How many tasks are members of a circle of waits for inheritance mutexes.
fn circle_members(kernel: &Kernel) -> usize {
    TaskNo::all().filter(|&t| is_in_circle(kernel, t)).count()
}

/// What stands behind the message, as [`TAILS`] has it; none if that is nothing special.
fn tail_name(length: usize, bytes: &[u8; MESSAGE]) -> Option<&'static str> {
    let nonzero: Vec<usize> = (length..MESSAGE).filter(|&at| bytes[at] != 0).collect();
    Some(match nonzero[..] {
        [at] if at == length => "first byte behind alone",
        [at] if at == MESSAGE - 1 => "last byte alone",
        [_] => "another byte alone",
        [_, ..] => "several bytes",
        [] if length == MESSAGE && bytes[MESSAGE - 1] != 0 => "none, the last of 32 nonzero",
        [] if length > MESSAGE && *bytes != [0; MESSAGE] => "none, msgsz above 32",
        [] => return None,
    })
}

fn answer_name(answer: Answer) -> &'static str {
    match answer {
        Answer::Code(code) => name(code),
        Answer::Waits => "waits",
        Answer::Exited => "exited",
    }
}

fn name(code: i32) -> &'static str {
    match code {
        E_OK => "0",
        1.. => "number",
        E_SYS => "E_SYS",
        E_RSATR => "E_RSATR",
        E_PAR => "E_PAR",
        E_ID => "E_ID",
        E_CTX => "E_CTX",
        E_ILUSE => "E_ILUSE",
        E_NOMEM => "E_NOMEM",
        E_LIMIT => "E_LIMIT",
        E_OBJ => "E_OBJ",
        E_NOEXS => "E_NOEXS",
        E_TMOUT => "E_TMOUT",
        E_DLT => "E_DLT",
        _ => "unnamed",
    }
}
