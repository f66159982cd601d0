//! Single calls and records on lent states, of any length and content.

use reference::lent_state::State;
use reference::limits::*;
use reference::random::Random;
use reference::record::{self, KINDS};
use reference::words::{at, WORDS};
use reference::{next_message, run_record, states, Answer, Kernel};
use shinepod::numbers::{ANSWERED, IN_OUTBOX, IN_STORE, NOWHERE, OVER, UNKNOWN_KIND};
use shinepod::raw::Shown;

use crate::board;
use crate::difference::{hex, same, same_all, Compared, Expected};
use crate::fields::{any_bytes, any_record, mostly_clean, split, unknown_kind};
use crate::library::{Came, Lent};
use crate::scripts::end_log;

/// Longest list of message bytes that is handed over.
const HANDED: usize = MESSAGE + 8;

/// Calls on a state that is not valid: few are enough, since all are answered alike.
const CALLS_NOT_VALID: usize = 3;

/// How often each field is extreme, in a hundred calls, in the calls of a kind on one valid state.
const EXTREME: [usize; 2] = [0, 25];

/// How many of each there were.
#[derive(Default)]
pub struct Counts {
    pub states: u64,
    pub valid: u64,
    pub calls: u64,
    pub well: u64,
    pub waits: u64,
    pub lengths: u64,
    pub wrong_bits: u64,
    pub shown: u64,
    /// Those of scripts, too.
    pub boards: board::Counts,
}

/// Lent state number `index` of a seed.
pub fn compare(seed: u64, index: u64, counts: &mut Counts) -> Compared {
    let (kind, state) = states::state(seed, index);
    let mut random = Random::new(seed ^ index.rotate_left(32));
    let log: Vec<u8> = (0..LOG).map(|_| random.word() as u8).collect();
    on_state(&state, &log, &mut random, counts)
        .map_err(|what| format!("state {index} of seed {seed}, made for {kind:?}: {what}"))
}

fn on_state(state: &State, log: &[u8], random: &mut Random, counts: &mut Counts) -> Compared {
    let lengths = random.percent(10);
    let mut case = Case { lent: Lent::new(state, log), state, log, random, counts };
    let valid = case.check()?;
    case.counts.states += 1;
    case.counts.valid += u64::from(valid);
    if valid {
        for row in 0..KINDS.len() {
            for extreme in EXTREME {
                case.one(row, extreme)?;
            }
        }
    } else {
        for _ in 0..CALLS_NOT_VALID {
            let row = case.random.below(KINDS.len());
            case.one(row, 10)?;
        }
    }
    case.unknown()?;
    case.over()?;
    if lengths {
        all_lengths(state, log, random, counts)?;
    }
    if valid && random.percent(10) {
        all_wrong_bits(state, log, random, counts)?;
    }
    Ok(())
}

/// A valid state with each bit of the bitmap flipped alone.
fn all_wrong_bits(state: &State, log: &[u8], random: &mut Random, counts: &mut Counts) -> Compared {
    (0..u32::BITS).try_for_each(|bit| {
        with_wrong_bit(state, log, bit, random, counts)
            .map_err(|what| format!("with bit {bit} of the bitmap flipped: {what}"))
    })
}

fn with_wrong_bit(
    state: &State,
    log: &[u8],
    bit: u32,
    random: &mut Random,
    counts: &mut Counts,
) -> Compared {
    let mut state = state.clone();
    state.words[at::BITMAP] ^= 1 << bit;
    let lent = Lent::new(&state, log);
    let mut case = Case { lent, state: &state, log, random, counts };
    case.counts.wrong_bits += 1;
    if case.check()? {
        return Err(case.report("", "both programs take a wrong bit for right".into()));
    }
    let row = case.random.below(KINDS.len());
    case.one(row, 10)
}

/// Every area with every length, the others as they are, and all with any.
fn all_lengths(state: &State, log: &[u8], random: &mut Random, counts: &mut Counts) -> Compared {
    for area in 0..4 {
        for choice in 0..LENGTHS {
            let mut choices = [0; 4];
            choices[area] = choice;
            of_lengths(state, log, choices, random, counts)?;
        }
    }
    for _ in 0..LENGTHS {
        let mut any = || if random.percent(50) { 0 } else { random.below(LENGTHS) };
        let choices = [any(), any(), any(), any()];
        of_lengths(state, log, choices, random, counts)?;
    }
    Ok(())
}

fn of_lengths(
    state: &State,
    log: &[u8],
    choices: [usize; 4],
    random: &mut Random,
    counts: &mut Counts,
) -> Compared {
    let (mut state, mut log) = (state.clone(), log.to_vec());
    resize(&mut state.words, choices[0], random);
    resize(&mut state.store, choices[1], random);
    resize(&mut state.outbox, choices[2], random);
    resize(&mut log, choices[3], random);
    let lent = Lent::new(&state, &log);
    let mut case = Case { lent, state: &state, log: &log, random, counts };
    case.counts.lengths += 1;
    case.check()?;
    let row = case.random.below(KINDS.len());
    case.one(row, 10)?;
    case.unknown()?;
    case.over()?;
    case.fresh()
}

const LENGTHS: usize = 5;

/// The length as it is, none, one less, one more, or twice that.
fn resize<T: Copy + From<u8>>(list: &mut Vec<T>, choice: usize, random: &mut Random) {
    let length = list.len();
    let new = match choice {
        0 => length,
        1 => 0,
        2 => length.saturating_sub(1),
        3 => length + 1,
        _ => 2 * length,
    };
    let fill = if random.percent(50) { 0 } else { random.word() as u8 };
    list.resize(new, T::from(fill));
}

/// What is lent, each time anew.
struct Case<'a> {
    lent: Lent,
    state: &'a State,
    log: &'a [u8],
    random: &'a mut Random,
    counts: &'a mut Counts,
}

impl Case<'_> {
    /// The check, the next message of every buffer and of none, and the status board. Gives whether the state is valid.
    fn check(&mut self) -> Result<bool, String> {
        let valid = self.state.is_valid();
        same("the check", self.lent.is_valid(), valid).map_err(|what| self.report("", what))?;
        let extremes = [i32::MIN, -1, 0, i32::MAX, 257, self.random.word() as i32];
        for buffer in (1..=BUFFERS as i32 + 1).chain(extremes) {
            let expected = shown(self.state, buffer);
            self.counts.shown += u64::from(expected.size > 0);
            same("the next message", self.lent.next_message(buffer), expected)
                .map_err(|what| self.report(&format!("buffer {buffer}"), what))?;
        }
        board::compare(&self.lent, self.state, self.random, &mut self.counts.boards)
            .map_err(|what| self.report("", what))?;
        self.unchanged().map_err(|what| self.report("what only looks", what))?;
        Ok(valid)
    }

    /// A record within a script, its call alone, and the same with other message bytes.
    fn one(&mut self, row: usize, extreme: usize) -> Compared {
        let record = any_record(row, extreme, self.random);
        self.counts.calls += 1;
        self.by_record(&record)
            .and_then(|()| self.by_call(&record, &record[record.len().min(13)..]))
            .and_then(|()| {
                let mut handed = any_bytes(HANDED, self.random);
                mostly_clean(&record, &mut handed, self.random);
                self.by_call(&record, &handed)
            })
            .map_err(|what| self.report(&hex(&record), what))
    }

    /// What the reference makes of a record.
    fn expected(&mut self, record: &[u8]) -> Result<(Answer, usize, State, Vec<u8>), String> {
        let (call, _) = record::read(record).ok_or("no record")?;
        let (mut state, mut log) = (self.state.clone(), self.log.to_vec());
        let (answer, written) =
            run_record(&mut state.words, &mut state.store, &mut state.outbox, &call, &mut log);
        Ok((answer, written, state, log))
    }

    fn by_record(&mut self, record: &[u8]) -> Compared {
        let (answer, written, state, log) = self.expected(record)?;
        self.counts.well += u64::from(matches!(answer, Answer::Code(0..) | Answer::Exited));
        self.counts.waits += u64::from(answer == Answer::Waits);
        let before = any_bytes(20, self.random);
        let script = [&before, record, &any_bytes(20, self.random)].concat();
        // With another log area nothing is done, and the script does not go on.
        let next = before.len() + if log.len() == LOG { record.len() } else { 0 };
        let expected = Expected { came: Came::of(answer, written, next), state: &state, log: &log };
        self.lent.set(self.state, self.log);
        let came = self.lent.run_record(&script, before.len());
        same_all(&self.lent, came, &expected).map_err(|what| format!("at {}: {what}", before.len()))
    }

    fn by_call(&mut self, record: &[u8], handed: &[u8]) -> Compared {
        let (kind, fields, message) = split(record);
        let mut bytes = handed.to_vec();
        bytes.resize(message.len(), 0);
        let as_sent = [&record[..record.len() - message.len()], &bytes].concat();
        let (answer, written, state, log) = self.expected(&as_sent)?;
        let expected = Expected { came: Came::of(answer, written, 0), state: &state, log: &log };
        self.lent.set(self.state, self.log);
        let came = self.lent.call(kind, fields, handed);
        same_all(&self.lent, came, &expected)
            .map_err(|what| format!("as a single call, with the message {}: {what}", hex(handed)))
    }

    /// A call of no kind.
    fn unknown(&mut self) -> Compared {
        let kind = unknown_kind(self.random);
        let fields = [self.random.word(), self.random.word(), self.random.word()];
        let came = Came { outcome: UNKNOWN_KIND, code: E_OK, written: 0, at: 0 };
        self.lent.set(self.state, self.log);
        let answered = self.lent.call(kind, fields.map(|field| field as i32), &[]);
        same_all(&self.lent, answered, &Expected { came, state: self.state, log: self.log })
            .map_err(|what| self.report(&format!("a call of kind {kind:02X}"), what))
    }

    /// A script that is over: at its end, far beyond it, where a record is cut or has no kind, or because it is too long.
    fn over(&mut self) -> Compared {
        let record = any_record(self.random.below(KINDS.len()), 10, self.random);
        let cut = record[..self.random.below(record.len())].to_vec();
        let (script, at) = match self.random.below(5) {
            0 => (record, usize::MAX),
            1 => (vec![unknown_kind(self.random); 3], self.random.below(5)),
            2 => ([vec![0; SCRIPT + 1 - record.len()], record].concat(), 0),
            3 => ([vec![0; SCRIPT - cut.len()], cut.clone()].concat(), SCRIPT - cut.len()),
            _ => (cut, 0),
        };
        let mut log = self.log.to_vec();
        let came = if log.len() == LOG {
            let end = end_log(&script, at);
            log[..end.len()].copy_from_slice(&end);
            Came { outcome: OVER, code: E_OK, written: end.len(), at }
        } else {
            Came { outcome: ANSWERED, code: E_SYS, written: 0, at }
        };
        self.lent.set(self.state, self.log);
        let answered = self.lent.run_record(&script, at);
        same_all(&self.lent, answered, &Expected { came, state: self.state, log: &log })
            .map_err(|what| self.report(&format!("a script of {}, at {at}", script.len()), what))
    }

    /// The fresh state, or nothing changed where a length is another.
    fn fresh(&mut self) -> Compared {
        let lengths = (self.state.words.len(), self.state.store.len(), self.state.outbox.len());
        let right = lengths == (WORDS, STORE, OUTBOX);
        let made = State::of(&Kernel::fresh());
        let (code, state) = if right { (E_OK, &made) } else { (E_SYS, self.state) };
        self.lent.set(self.state, self.log);
        let came = Came { outcome: ANSWERED, code: self.lent.fresh(), written: 0, at: 0 };
        let expected = Expected { came: Came { code, ..came }, state, log: self.log };
        same_all(&self.lent, came, &expected).map_err(|what| self.report("the fresh state", what))
    }

    /// What only looks changes nothing.
    fn unchanged(&self) -> Compared {
        let came = Came { outcome: ANSWERED, code: E_OK, written: 0, at: 0 };
        same_all(&self.lent, came, &Expected { came, state: self.state, log: self.log })
    }

    fn report(&self, done: &str, what: String) -> String {
        let frame = hex(&self.state.frame());
        format!(
            "{done}: {what}\nthe log area has {} bytes; the state's frame: {frame}",
            self.log.len()
        )
    }
}

/// Where the reference shows the next message of a buffer.
fn shown(state: &State, buffer: i32) -> Shown {
    let message = next_message(&state.words, &state.store, &state.outbox, buffer);
    let place = |area: u32, bytes: &[u8]| {
        let at = message.as_ptr() as usize - bytes.as_ptr() as usize;
        Shown { area, at, size: message.len() }
    };
    if message.is_empty() {
        Shown { area: NOWHERE, at: 0, size: 0 }
    } else if state.store.as_ptr_range().contains(&message.as_ptr()) {
        place(IN_STORE, &state.store)
    } else {
        place(IN_OUTBOX, &state.outbox)
    }
}
