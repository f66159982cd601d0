//! A headset panel of a language lab. The teacher is task 1 and listens to a message buffer; a recorder and a student's line share a
//! tape, which a mutex guards. Each call is printed with what its log tells. `panel.out` is what this prints.

use shinepod::log::Item;
use shinepod::numbers::*;
use shinepod::{Kernel, Outcome};

fn item_text(item: Item) -> String {
    match item {
        Item::Answer(code) => format!("answer {code}"),
        Item::Waits => "waits".to_string(),
        Item::Exits => "exited".to_string(),
        Item::Ended { task, code } => format!(", task {task}'s wait ends with {code}"),
        Item::Message { task, bytes } => format!(", task {task} gets {:?}", text(bytes)),
        Item::Block { task, block } => format!(", task {task} gets block {block}"),
        Item::Runs(0) => "; no task runs".to_string(),
        Item::Runs(task) => format!("; task {task} runs"),
        Item::Stops(offset) => format!("stops at {offset}"),
        Item::TooLong => "too long".to_string(),
    }
}

/// A message without the zeros behind it.
fn text(bytes: &[u8]) -> String {
    String::from_utf8_lossy(bytes).trim_end_matches('\0').to_string()
}

fn line(what: &str, told: &str) {
    println!("{what:<46} {told}");
}

fn title(what: &str) {
    println!("\n{what}");
}

/// Makes a call, prints what its log tells, and gives its code, 0 where there is none.
fn show(kernel: &mut Kernel, what: &str, call: impl FnOnce(&mut Kernel) -> Outcome) -> i32 {
    let outcome = call(kernel);
    line(what, &kernel.items().map(item_text).collect::<String>());
    outcome.code().unwrap_or(E_OK)
}

fn show_next(kernel: &Kernel, mbfid: i32) {
    let shown = |bytes| format!("{:?}", text(bytes));
    line("the next message", &kernel.next_message(mbfid).map_or("none".to_string(), shown));
}

/// The numbers of what the panel is made of.
struct Panel {
    line: i32,
    recorder: i32,
    tape: i32,
    calls: i32,
}

fn set_up(k: &mut Kernel) -> Panel {
    println!("The panel is set up");
    Panel {
        line: show(k, "the line, of priority 4", |k| k.cre_tsk(4)),
        recorder: show(k, "the recorder, of priority 12", |k| k.cre_tsk(12)),
        tape: show(k, "a mutex for the tape, whose holder inherits", |k| k.cre_mtx(TA_INHERIT, 0)),
        calls: show(k, "a buffer for calls, of 32 bytes", |k| k.cre_mbf(TA_TFIFO, 32, 16)),
    }
}

/// The line's wait ends at a tick, and with it the recorder's urgency.
fn tape(k: &mut Kernel, p: &Panel) {
    title("The tape");
    show(k, "the teacher starts the recorder", |k| k.sta_tsk(p.recorder));
    show(k, "the teacher listens", |k| k.rcv_mbf(p.calls, TMO_FEVR));
    show(k, "the recorder takes the tape", |k| k.loc_mtx(p.tape, TMO_POL));
    show(k, "the recorder starts the line", |k| k.sta_tsk(p.line));
    show(k, "the line wants the tape within 2 ms", |k| k.loc_mtx(p.tape, 2));
    show(k, "the recorder, as urgent as the line, calls", |k| {
        k.snd_mbf(p.calls, b"the tape ends", TMO_POL)
    });
    show(k, "a millisecond", Kernel::tick);
    show(k, "another one", Kernel::tick);
    show(k, "the line exits", Kernel::ext_tsk);
}

/// Two messages are stored; the third waits until one is received.
fn calls(k: &mut Kernel, p: &Panel) {
    title("The calls");
    show_next(k, p.calls);
    show(k, "the teacher notes line 7", |k| k.snd_mbf(p.calls, b"line 7 asks", TMO_FEVR));
    show(k, "and line 2", |k| k.snd_mbf(p.calls, b"line 2 asks", TMO_FEVR));
    show(k, "and line 4, for which there is no room", |k| {
        k.snd_mbf(p.calls, b"line 4 asks", TMO_FEVR)
    });
    show_next(k, p.calls);
    show(k, "the recorder receives", |k| k.rcv_mbf(p.calls, TMO_POL));
    show_next(k, p.calls);
}

fn refusals(k: &mut Kernel, p: &Panel) {
    title("Refusals");
    show(k, "a timeout of -2", |k| k.loc_mtx(p.tape, -2));
    show(k, "a message without a byte", |k| k.snd_mbf(p.calls, b"", TMO_POL));
    show(k, "a task behind the last", |k| k.sta_tsk(TASKS + 1));
    show(k, "the tape, which the recorder holds", |k| k.unl_mtx(p.tape));
    show(k, "the recorder, which is not dormant", |k| k.del_tsk(p.recorder));
    let outcome = k.call(0, [0; 3], &[]);
    line("a call of kind 0", &format!("{outcome:?}, {} bytes of log", k.log().len()));
}

/// There is no buffer with the last number, so that the last byte of the store is nobody's.
fn check(k: &mut Kernel) {
    let show_valid =
        |k: &Kernel, what| line(what, if k.is_valid() { "valid" } else { "not valid" });
    title("The check");
    show_valid(k, "as the calls left it");
    k.store[STORE_BYTES - 1] = 1;
    show_valid(k, "with a byte where no message lies");
    show(k, "a millisecond", Kernel::tick);
    k.store[STORE_BYTES - 1] = 0;
    show_valid(k, "with that byte gone");
}

/// The records of a script, on the fresh kernel.
fn script() {
    let script = [TK_TICK, TK_GET_MPF, 1, 0, 0, 0, 0, 0, 0, 0, TK_SND_MBF];
    let (mut kernel, mut at, mut outcome) = (Kernel::new(), 0, Outcome::Waits);
    title("A script");
    while outcome != Outcome::Over {
        show(&mut kernel, &format!("the record at {at}"), |k| {
            outcome = k.run_record(&script, &mut at);
            outcome
        });
    }
}

fn main() {
    let mut kernel = Kernel::new();
    let panel = set_up(&mut kernel);
    tape(&mut kernel, &panel);
    calls(&mut kernel, &panel);
    refusals(&mut kernel, &panel);
    check(&mut kernel);
    script();
}
