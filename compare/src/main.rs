//! `compare [--seed N] [--records N] [--states N] [--seconds N] [--tally]`: the static libraries held
//! against the reference, until as many records and lent states are done, or for so many seconds.
//! With `--tally` it says at the end what happened in the scripts, as the generator counts it.

mod board;
mod calls;
mod difference;
mod fields;
mod library;
mod scripts;

use std::process::ExitCode;
use std::time::{Duration, Instant};

use calls::Counts;
use reference::tally::Tally;

/// A line of progress comes so often.
const PROGRESS: Duration = Duration::from_secs(30);

struct Options {
    seed: u64,
    records: u64,
    states: u64,
    time: Duration,
    tally: bool,
}

/// What has run so far.
#[derive(Default)]
struct Done {
    scripts: u64,
    records: u64,
    tally: Tally,
    counts: Counts,
}

fn options() -> Result<Options, String> {
    let (records, states, time) = (u64::MAX, u64::MAX, Duration::MAX);
    let mut options = Options { seed: 1, records, states, time, tally: false };
    let mut words = std::env::args().skip(1);
    let mut bounded = false;
    while let Some(name) = words.next() {
        if name == "--tally" {
            options.tally = true;
            continue;
        }
        let number: u64 =
            words.next().and_then(|word| word.parse().ok()).ok_or(format!("{name}: no number"))?;
        bounded |= name != "--seed";
        match name.as_str() {
            "--seed" => options.seed = number,
            "--records" => options.records = number,
            "--states" => options.states = number,
            "--seconds" => options.time = Duration::from_secs(number),
            _ => return Err(format!("{name}: unknown")),
        }
    }
    if bounded {
        Ok(options)
    } else {
        Err("compare [--seed N] and --records N, --states N or --seconds N".to_string())
    }
}

fn line(done: &Done, start: Instant) -> String {
    let counts = &done.counts;
    let boards = &counts.boards;
    format!(
        "{} s: {} scripts, {} records; {} lent states, {} valid; {} calls on them, {} went well, {} wait; \
         {} times other lengths, {} times a wrong bit; {} messages shown; {} boards, {} written with {} rows, {} refused with -5, {} with -17",
        start.elapsed().as_secs(),
        done.scripts,
        done.records,
        counts.states,
        counts.valid,
        counts.calls,
        counts.well,
        counts.waits,
        counts.lengths,
        counts.wrong_bits,
        counts.shown,
        boards.boards,
        boards.written,
        boards.rows,
        boards.not_valid,
        boards.too_few
    )
}

fn run(options: &Options) -> Result<(), String> {
    let start = Instant::now();
    let mut next_line = PROGRESS;
    let mut done = Done::default();
    let time_left = || start.elapsed() < options.time;
    // Without a count for one of them, the other and the time decide.
    let of = |count: u64, other: u64| {
        if count == u64::MAX && other != u64::MAX && options.time == Duration::MAX {
            0
        } else {
            count
        }
    };
    let (records, states) =
        (of(options.records, options.states), of(options.states, options.records));
    while (done.records < records || done.counts.states < states) && time_left() {
        if done.records < records {
            let boards = &mut done.counts.boards;
            done.records += scripts::compare(options.seed, done.scripts, &mut done.tally, boards)?;
            done.scripts += 1;
        }
        if done.counts.states < states {
            calls::compare(options.seed, done.counts.states, &mut done.counts)?;
        }
        if start.elapsed() > next_line {
            println!("{}", line(&done, start));
            next_line += PROGRESS;
        }
    }
    println!("{}", line(&done, start));
    if options.tally {
        print!("{}", done.tally.report());
    }
    Ok(())
}

fn main() -> ExitCode {
    let result = options().and_then(|options| {
        println!("seed {}", options.seed);
        run(&options)
    });
    match result {
        Ok(()) => {
            println!("no difference");
            ExitCode::SUCCESS
        }
        Err(what) => {
            println!("{what}");
            ExitCode::FAILURE
        }
    }
}
