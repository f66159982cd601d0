//! Generated scripts, record by record: through the records of a script, and as single calls.

use reference::generator::{generate, RECORDS};
use reference::lent_state::State;
use reference::limits::{E_OK, LOG, SCRIPT};
use reference::random::Random;
use reference::record;
use reference::tally::Tally;
use reference::{run_script, Kernel, Outcome};
use shinepod::numbers::{ANSWERED, OVER};

use crate::board;
use crate::difference::{hex, same, same_all, Compared, Expected};
use crate::fields::split;
use crate::library::{Came, Lent};

const TOO_LONG: u8 = 0x8D;
const STOPPED: u8 = 0x8E;

/// A long script now and then.
const LONG: usize = 10 * RECORDS;

/// The status board is looked at after one of so many records: it takes longer than a record.
const BOARDS: usize = 32;

/// Script number `index` of a seed. Gives how many records ran; the tally counts what happened.
pub fn compare(
    seed: u64,
    index: u64,
    tally: &mut Tally,
    boards: &mut board::Counts,
) -> Result<u64, String> {
    let records = match index % 16 {
        0 => LONG,
        _ => RECORDS,
    };
    let script = generate(seed, index, records, tally);
    let mut random = Random::new(seed ^ index);
    let mut log = [0; LOG];
    log.iter_mut().for_each(|byte| *byte = random.word() as u8);
    let some = |lent: &Lent, state: &State, random: &mut Random| match random.below(BOARDS) {
        0 => board::compare(lent, state, random, boards),
        _ => Ok(()),
    };
    match run(&script, &log, &mut random, some) {
        Ok(records) => Ok(records),
        Err(what) => {
            let short = shortened(&script, &log);
            let what = run(&short, &log, &mut Random::new(0), every_board).err().unwrap_or(what);
            Err(format!(
                "script {index} of seed {seed}: {what}\nthe script, shortened: {}",
                hex(&short)
            ))
        }
    }
}

/// The boards of a state with the same few tables whatever came before, so that a difference there stays when records are taken away.
fn every_board(lent: &Lent, state: &State, _: &mut Random) -> Compared {
    let (mut random, mut counts) = (Random::new(0), board::Counts::default());
    (0..6).try_for_each(|_| board::compare(lent, state, &mut random, &mut counts))
}

/// The same difference, or another one, with as few records as taking away single ones leads to.
fn shortened(script: &[u8], log: &[u8]) -> Vec<u8> {
    let differs =
        |records: &[&[u8]]| run(&records.concat(), log, &mut Random::new(0), every_board).is_err();
    let (mut records, mut at) = (Vec::new(), 0);
    while let Some((_, length)) = record::read(&script[at..]) {
        records.push(&script[at..at + length]);
        at += length;
    }
    records.push(&script[at..]);
    let mut before = records.len() + 1;
    while records.len() < before && differs(&records) {
        before = records.len();
        for i in (0..records.len()).rev() {
            let record = records.remove(i);
            if !differs(&records) {
                records.insert(i, record);
            }
        }
    }
    records.concat()
}

/// A script from the fresh state on, in both ways, and the boards that are looked at on the way.
fn run(
    script: &[u8],
    log: &[u8],
    random: &mut Random,
    mut boards: impl FnMut(&Lent, &State, &mut Random) -> Compared,
) -> Result<u64, String> {
    let mut kernel = Kernel::fresh();
    let mut lents = fresh(log, random)?;
    let (mut expected_log, mut whole_log) = (log.to_vec(), Vec::new());
    let (mut out, mut logged, mut at, mut records) = (Outcome::default(), Vec::new(), 0, 0);
    while script.len() <= SCRIPT {
        let Some((call, length)) = script.get(at..).and_then(record::read) else { break };
        kernel.run(&call, &mut out);
        logged.clear();
        out.write(&mut logged);
        expected_log[..logged.len()].copy_from_slice(&logged);
        whole_log.extend_from_slice(&logged);
        let state = State::of(&kernel);
        let came = Came::of(out.answer, logged.len(), at + length);
        let expected = Expected { came, state: &state, log: &expected_log };
        both(&mut lents, script, at, expected)
            .and_then(|()| boards(&lents.by_record, &state, random))
            .map_err(|what| format!("record {records}, at {at}, {call:?}: {what}"))?;
        at += length;
        records += 1;
    }
    let end = end_log(script, at);
    expected_log[..end.len()].copy_from_slice(&end);
    whole_log.extend_from_slice(&end);
    let came = Came { outcome: OVER, code: 0, written: end.len(), at };
    let expected = Expected { came, state: &State::of(&kernel), log: &expected_log };
    let came = lents.by_record.run_record(script, at);
    same_all(&lents.by_record, came, &expected)
        .map_err(|what| format!("the end, at {at}: {what}"))?;
    same("the whole log", whole_log, run_script(script))?;
    Ok(records)
}

/// What is lent for a script run through its records, and for the same calls one by one.
struct Lents {
    by_record: Lent,
    by_call: Lent,
}

/// Areas of any content become the fresh state.
fn fresh(log: &[u8], random: &mut Random) -> Result<Lents, String> {
    let state = State::of(&Kernel::fresh());
    let mut any = state.clone();
    any.words.iter_mut().for_each(|word| *word = random.word() as u32);
    any.store.iter_mut().chain(&mut any.outbox).for_each(|byte| *byte = random.word() as u8);
    let mut by_record = Lent::new(&any, log);
    let came = Came { outcome: ANSWERED, code: by_record.fresh(), written: 0, at: 0 };
    let expected = Expected { came: Came { code: E_OK, ..came }, state: &state, log };
    same_all(&by_record, came, &expected).map_err(|what| format!("the fresh state: {what}"))?;
    let by_call = by_record.clone();
    Ok(Lents { by_record, by_call })
}

/// The record as a part of the script, and its call alone.
fn both(lents: &mut Lents, script: &[u8], at: usize, mut expected: Expected) -> Compared {
    let came = lents.by_record.run_record(script, at);
    same_all(&lents.by_record, came, &expected)?;
    let (kind, fields, message) = split(&script[at..expected.came.at]);
    expected.came.at = 0;
    let came = lents.by_call.call(kind, fields, message);
    same_all(&lents.by_call, came, &expected).map_err(|what| format!("as a single call: {what}"))
}

/// What is logged where a script is over.
pub fn end_log(script: &[u8], at: usize) -> Vec<u8> {
    if script.len() > SCRIPT {
        vec![TOO_LONG]
    } else if at < script.len() {
        [&[STOPPED][..], &(at as u32).to_le_bytes()].concat()
    } else {
        Vec::new()
    }
}
