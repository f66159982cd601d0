//! The crate held against document 01: lengths, kinds, scripts, the place of a message, and the calls by their names.

use std::collections::BTreeSet;

use shinepod::log::{items, Item};
use shinepod::numbers::*;
use shinepod::{Kernel, Outcome};

/// The four areas, of any lengths.
#[derive(Clone, PartialEq, Debug)]
struct Areas {
    state: Vec<u32>,
    store: Vec<u8>,
    outbox: Vec<u8>,
    log: Vec<u8>,
}

impl Areas {
    fn fresh() -> Areas {
        let kernel = Kernel::new();
        Areas {
            state: kernel.state.to_vec(),
            store: kernel.store.to_vec(),
            outbox: kernel.outbox.to_vec(),
            log: vec![0xA5; LOG_BYTES],
        }
    }

    fn tick(&mut self) -> (Outcome, Vec<u8>) {
        let Areas { state, store, outbox, log } = self;
        let (outcome, told) = shinepod::call(state, store, outbox, log, TK_TICK, [0; 3], &[]);
        (outcome, told.to_vec())
    }

    fn run_record(&mut self, script: &[u8], at: &mut usize) -> (Outcome, Vec<u8>) {
        let Areas { state, store, outbox, log } = self;
        let (outcome, told) = shinepod::run_record(state, store, outbox, log, script, at);
        (outcome, told.to_vec())
    }

    fn make_fresh(&mut self) -> Result<(), i32> {
        shinepod::fresh(&mut self.state, &mut self.store, &mut self.outbox)
    }

    fn is_valid(&self) -> bool {
        shinepod::is_valid(&self.state, &self.store, &self.outbox)
    }

    fn next_message(&self, mbfid: i32) -> Option<&[u8]> {
        shinepod::next_message(&self.state, &self.store, &self.outbox, mbfid)
    }
}

fn lengths(right: usize) -> [usize; 4] {
    [0, right - 1, right + 1, 2 * right]
}

/// Document 01's log where order 1 applies.
const NOT_SOUND: [u8; 7] = [0x80, 0xFB, 0xFF, 0xFF, 0xFF, 0x8F, 0x00];

/// State, store or outbox of another length: nothing is changed but the front of the log area.
fn refused(mut areas: Areas) {
    let mut expected = areas.clone();
    assert!(!areas.is_valid());
    assert_eq!(areas.next_message(1), None);
    assert_eq!(areas.make_fresh(), Err(E_SYS));
    assert_eq!(areas, expected);
    assert_eq!(areas.tick(), (Outcome::Answered(E_SYS), NOT_SOUND.to_vec()));
    expected.log[..NOT_SOUND.len()].copy_from_slice(&NOT_SOUND);
    assert_eq!(areas, expected);
}

#[test]
fn areas_of_another_length_are_refused() {
    let right = Areas::fresh();
    assert!(right.is_valid());
    for length in lengths(STATE_WORDS) {
        let mut areas = right.clone();
        areas.state.resize(length, 0);
        refused(areas);
    }
    for length in lengths(STORE_BYTES) {
        let mut areas = right.clone();
        areas.store.resize(length, 0);
        refused(areas);
    }
    for length in lengths(OUTBOX_BYTES) {
        let mut areas = right.clone();
        areas.outbox.resize(length, 0);
        refused(areas);
    }
}

#[test]
fn with_a_log_area_of_another_length_nothing_is_done() {
    for length in lengths(LOG_BYTES) {
        let mut areas = Areas::fresh();
        areas.log.resize(length, 0);
        let (before, mut at) = (areas.clone(), 0);
        assert_eq!(areas.tick(), (Outcome::Answered(E_SYS), vec![]));
        let came = areas.run_record(&[TK_TICK], &mut at);
        assert_eq!((came, at), ((Outcome::Answered(E_SYS), vec![]), 0));
        assert_eq!(areas, before);
    }
}

#[test]
fn empty_areas_are_refused() {
    let mut none = Areas { state: vec![], store: vec![], outbox: vec![], log: vec![] };
    assert!(!none.is_valid());
    assert_eq!(none.next_message(1), None);
    assert_eq!(none.make_fresh(), Err(E_SYS));
    assert_eq!(none.tick(), (Outcome::Answered(E_SYS), vec![]));
    assert_eq!(none.run_record(&[], &mut 0), (Outcome::Answered(E_SYS), vec![]));
}

#[test]
fn a_call_of_an_unknown_kind_changes_nothing() {
    let mut kernel = Kernel::new();
    assert_eq!(kernel.tick(), Outcome::Answered(E_OK));
    let before = kernel.clone();
    assert_eq!(kernel.call(TK_TICK + 1, [1, 2, 3], b"what"), Outcome::UnknownKind);
    assert_eq!(kernel.log(), []);
    assert!(same(&kernel, &before));
}

/// A script from the fresh kernel on: its whole log, and where it is over.
fn run(script: &[u8]) -> (Vec<u8>, usize) {
    let (mut kernel, mut log, mut at) = (Kernel::new(), Vec::new(), 0);
    loop {
        let outcome = kernel.run_record(script, &mut at);
        log.extend_from_slice(kernel.log());
        if outcome == Outcome::Over {
            return (log, at);
        }
    }
}

#[test]
fn a_script_ends_as_document_01_says() {
    let example = [0x40, 0x32, 0x01, 0, 0, 0, 0, 0, 0, 0, 0x22];
    let log = [
        0x80, 0, 0, 0, 0, 0x8F, 0x01, 0x80, 0xD6, 0xFF, 0xFF, 0xFF, 0x8F, 0x01, 0x8E, 0x0A, 0, 0, 0,
    ];
    assert_eq!(run(&example), (log.to_vec(), 10));
    assert_eq!(run(&[]), (vec![], 0));
    assert_eq!(run(&vec![TK_TICK; SCRIPT_BYTES + 1]), (vec![LOG_TOO_LONG], 0));
    assert_eq!(run(&vec![TK_TICK; SCRIPT_BYTES]).1, SCRIPT_BYTES);
}

#[test]
fn a_script_that_is_over_stays_over() {
    let mut areas = Areas::fresh();
    let before = areas.clone();
    for place in [1, 2, usize::MAX] {
        let mut at = place;
        assert_eq!(areas.run_record(&[TK_TICK], &mut at), (Outcome::Over, vec![]));
        assert_eq!(at, place);
    }
    assert_eq!(areas, before);
}

/// The same state, store and outbox.
fn same(kernel: &Kernel, other: &Kernel) -> bool {
    (kernel.state, kernel.store, kernel.outbox) == (other.state, other.store, other.outbox)
}

#[test]
fn the_next_message_lies_in_the_store_or_in_the_outbox() {
    let mut kernel = Kernel::new();
    assert_eq!(kernel.cre_mbf(TA_TFIFO, 8, 4), Outcome::Answered(1));
    assert_eq!(kernel.cre_mbf(TA_TFIFO, 0, 4), Outcome::Answered(2));
    assert_eq!(kernel.next_message(1), None);
    assert_eq!(kernel.snd_mbf(1, b"kept", TMO_FEVR), Outcome::Answered(E_OK));
    assert_eq!(kernel.snd_mbf(2, b"bay", TMO_FEVR), Outcome::Waits);
    let (stored, sent) = (kernel.next_message(1), kernel.next_message(2));
    assert_eq!((stored, sent), (Some(&b"kept"[..]), Some(&b"bay"[..])));
    let starts = [stored, sent].map(|message| message.map(<[u8]>::as_ptr));
    assert_eq!(starts, [Some(kernel.store[4..].as_ptr()), Some(kernel.outbox.as_ptr())]);
    assert_eq!([0, 3, -1, i32::MAX].map(|mbfid| kernel.next_message(mbfid)), [None; 4]);
}

#[test]
fn a_received_message_stands_in_the_log() {
    let mut kernel = Kernel::new();
    assert_eq!(kernel.cre_mbf(TA_TPRI, 8, 4), Outcome::Answered(1));
    assert_eq!(kernel.snd_mbf(1, b"ear", TMO_POL), Outcome::Answered(E_OK));
    assert_eq!(kernel.rcv_mbf(1, TMO_POL), Outcome::Answered(3));
    let mut bytes = [0; MESSAGE_BYTES];
    bytes[..3].copy_from_slice(b"ear");
    let told = [Item::Answer(3), Item::Message { task: 1, bytes: &bytes }, Item::Runs(1)];
    assert!(kernel.items().eq(told));
    let cut = &kernel.log()[..kernel.log().len() - 1];
    let mut some = items(cut);
    assert_eq!(some.by_ref().count(), 2);
    assert_eq!(some.rest(), [LOG_RUNS]);
}

#[test]
fn a_block_stands_in_the_log() {
    let mut kernel = Kernel::new();
    assert_eq!(kernel.cre_mpf(TA_TFIFO, 1, BLOCK_BYTES as i32), Outcome::Answered(1));
    assert_eq!(kernel.get_mpf(1, TMO_POL), Outcome::Answered(E_OK));
    let told = [Item::Answer(E_OK), Item::Block { task: 1, block: 1 }, Item::Runs(1)];
    assert!(kernel.items().eq(told));
}

#[test]
fn after_the_last_exit_no_task_runs() {
    let mut kernel = Kernel::new();
    assert_eq!(kernel.ext_tsk(), Outcome::Exited);
    assert!(kernel.items().eq([Item::Exits, Item::Runs(0)]));
    assert_eq!(kernel.cre_tsk(1), Outcome::Answered(E_CTX));
    assert!(kernel.items().eq([Item::Answer(E_CTX), Item::Runs(0)]));
}

#[test]
fn a_message_of_any_length_may_be_sent() {
    let mut kernel = Kernel::new();
    assert_eq!(kernel.cre_mbf(TA_TFIFO, 256, 32), Outcome::Answered(1));
    assert_eq!(kernel.snd_mbf(1, &[], TMO_POL), Outcome::Answered(E_PAR));
    assert_eq!(kernel.snd_mbf(1, &[7; MESSAGE_BYTES + 1], TMO_POL), Outcome::Answered(E_PAR));
    assert_eq!(kernel.snd_mbf(1, &[7; MESSAGE_BYTES], TMO_POL), Outcome::Answered(E_OK));
    // Fewer bytes than the field says: zeros follow.
    assert_eq!(kernel.call(TK_SND_MBF, [1, 3, TMO_POL], &[]), Outcome::Answered(E_OK));
    assert_eq!(kernel.rcv_mbf(1, TMO_POL), Outcome::Answered(MESSAGE_BYTES as i32));
    assert_eq!(kernel.next_message(1), Some(&[0; 3][..]));
}

#[test]
fn behind_a_message_no_byte_but_zeros_may_be_handed_over() {
    let mut kernel = Kernel::new();
    assert_eq!(kernel.cre_mbf(TA_TFIFO, 256, 32), Outcome::Answered(1));
    let mut bytes = [0; MESSAGE_BYTES + 1];
    for at in 1..MESSAGE_BYTES {
        bytes[at] = 7;
        let before = kernel.clone();
        assert_eq!(kernel.call(TK_SND_MBF, [1, 1, TMO_POL], &bytes), Outcome::Answered(E_PAR));
        assert!(same(&kernel, &before));
        bytes[at] = 0;
    }
    // A byte behind the 32 is not looked at.
    bytes[MESSAGE_BYTES] = 7;
    assert_eq!(kernel.call(TK_SND_MBF, [1, 1, TMO_POL], &bytes), Outcome::Answered(E_OK));
}

/// A call by its name, and what its record has.
type Named = (fn(&mut Kernel) -> Outcome, u8, &'static [i32], &'static [u8]);

/// All nineteen, in an order in which each goes well, or waits or exits.
const NAMED: [Named; 24] = [
    (|k| k.cre_tsk(5), TK_CRE_TSK, &[5], b""),
    (|k| k.cre_tsk(9), TK_CRE_TSK, &[9], b""),
    (|k| k.chg_pri(3, 12), TK_CHG_PRI, &[3, 12], b""),
    (|k| k.sta_tsk(3), TK_STA_TSK, &[3], b""),
    (|k| k.cre_mtx(TA_CEILING, 2), TK_CRE_MTX, &[3, 2], b""),
    (|k| k.loc_mtx(1, 7), TK_LOC_MTX, &[1, 7], b""),
    (|k| k.unl_mtx(1), TK_UNL_MTX, &[1], b""),
    (|k| k.cre_mbf(TA_TPRI, 8, 4), TK_CRE_MBF, &[1, 8, 4], b""),
    (|k| k.snd_mbf(1, b"one", 9), TK_SND_MBF, &[1, 3, 9], b"one"),
    (|k| k.rcv_mbf(1, 5), TK_RCV_MBF, &[1, 5], b""),
    (|k| k.cre_mpf(TA_TPRI | TA_RNG2, 2, 10), TK_CRE_MPF, &[513, 2, 10], b""),
    (|k| k.get_mpf(1, 6), TK_GET_MPF, &[1, 6], b""),
    (|k| k.get_mpf(1, 6), TK_GET_MPF, &[1, 6], b""),
    (|k| k.rel_mpf(1, 2), TK_REL_MPF, &[1, 2], b""),
    (|k| k.rcv_mbf(1, 2), TK_RCV_MBF, &[1, 2], b""),
    (|k| k.tick(), TK_TICK, &[], b""),
    (|k| k.ext_tsk(), TK_EXT_TSK, &[], b""),
    (|k| k.tick(), TK_TICK, &[], b""),
    (|k| k.sta_tsk(3), TK_STA_TSK, &[3], b""),
    (|k| k.ter_tsk(3), TK_TER_TSK, &[3], b""),
    (|k| k.del_tsk(3), TK_DEL_TSK, &[3], b""),
    (|k| k.del_mtx(1), TK_DEL_MTX, &[1], b""),
    (|k| k.del_mbf(1), TK_DEL_MBF, &[1], b""),
    (|k| k.del_mpf(1), TK_DEL_MPF, &[1], b""),
];

#[test]
fn each_call_by_its_name_is_its_record() {
    let (mut kernel, mut other) = (Kernel::new(), Kernel::new());
    assert_eq!(NAMED.map(|named| named.1).into_iter().collect::<BTreeSet<u8>>().len(), 19);
    for (call, kind, fields, message) in NAMED {
        let mut record = vec![kind];
        record.extend(fields.iter().flat_map(|field| field.to_le_bytes()));
        if kind == TK_SND_MBF {
            record.extend_from_slice(message);
            record.resize(record.len() + MESSAGE_BYTES - message.len(), 0);
        }
        let mut at = 0;
        let outcome = call(&mut kernel);
        assert_eq!(outcome, other.run_record(&record, &mut at), "{record:?}");
        assert_eq!((kernel.log(), at), (other.log(), record.len()), "{record:?}");
        assert!(same(&kernel, &other), "{record:?}");
        assert!(outcome.code().unwrap_or(E_OK) >= E_OK && kernel.is_valid(), "{record:?}");
    }
}
