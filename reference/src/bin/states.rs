//! Writes lent states and whether they are valid; the counts go to standard error.

use std::collections::BTreeMap;
use std::fs::File;
use std::io::{self, BufWriter, Write};
use std::process::ExitCode;

use reference::boundary::BOUNDARIES;
use reference::clauses::{Clause, CLAUSES};
use reference::lent_state::State;
use reference::states::{
    state, state_at_boundary, state_failing, state_with_wrong_bit, wrong_bits, Kind,
};

const USAGE: &str = "usage: states SEED COUNT FILE_IN FILE_OUT [--each-clause N]
  SEED, COUNT       the states 0 to COUNT - 1 of that seed
  FILE_IN           gets a frame for each state
  FILE_OUT          gets a line for each state: 1 if it is valid, else 0
  --each-clause N   puts in front, for each clause of validity, N states that fail it alone, for
                    each boundary of a range N valid states at it, and for each bit of the bitmap
                    that can be wrong a state at which it alone is";

struct Options {
    seed: u64,
    count: u64,
    file_in: String,
    file_out: String,
    each_clause: u64,
}

fn options() -> Option<Options> {
    let mut positional = Vec::new();
    let mut each_clause = 0;
    let mut arguments = std::env::args().skip(1);
    while let Some(argument) = arguments.next() {
        match argument.as_str() {
            "--each-clause" => each_clause = arguments.next()?.parse().ok()?,
            _ => positional.push(argument),
        }
    }
    let [seed, count, file_in, file_out] = positional.try_into().ok()?;
    let (seed, count) = (seed.parse().ok()?, count.parse().ok()?);
    Some(Options { seed, count, file_in, file_out, each_clause })
}

fn main() -> ExitCode {
    let Some(options) = options() else {
        eprintln!("{USAGE}");
        return ExitCode::from(2);
    };
    match run(&options) {
        Ok(()) => ExitCode::SUCCESS,
        Err(error) => {
            eprintln!("states: {error}");
            ExitCode::FAILURE
        }
    }
}

struct Writer {
    frames: BufWriter<File>,
    verdicts: BufWriter<File>,
    /// States and valid states of each kind.
    counts: BTreeMap<Kind, (u64, u64)>,
}

impl Writer {
    fn write(&mut self, kind: Kind, state: &State) -> io::Result<()> {
        let valid = state.is_valid();
        // The clauses one by one have to say the same.
        if valid != state.failing().is_empty() {
            return Err(io::Error::other(format!("{kind:?}: check and clauses differ: {state:?}")));
        }
        let (states, valid_states) = self.counts.entry(kind).or_default();
        *states += 1;
        *valid_states += u64::from(valid);
        self.frames.write_all(&state.frame())?;
        self.verdicts.write_all(if valid { b"1\n" } else { b"0\n" })
    }
}

fn run(options: &Options) -> io::Result<()> {
    let mut writer = Writer {
        frames: BufWriter::new(File::create(&options.file_in)?),
        verdicts: BufWriter::new(File::create(&options.file_out)?),
        counts: BTreeMap::new(),
    };
    for clause in CLAUSES {
        for index in 0..options.each_clause {
            let state = state_failing(clause, options.seed, index);
            writer.write(Kind::Fails(clause), &state)?;
        }
    }
    for boundary in BOUNDARIES {
        for index in 0..options.each_clause {
            let state = state_at_boundary(boundary, options.seed, index);
            writer.write(Kind::AtBoundary(boundary), &state)?;
        }
    }
    if options.each_clause > 0 {
        for wrong in wrong_bits() {
            let state = state_with_wrong_bit(wrong, options.seed, 0);
            writer.write(Kind::Fails(Clause::Bitmap), &state)?;
        }
    }
    for index in 0..options.count {
        let (kind, state) = state(options.seed, index);
        writer.write(kind, &state)?;
    }
    writer.frames.flush()?;
    writer.verdicts.flush()?;
    for (kind, (states, valid)) in &writer.counts {
        eprintln!("{kind:?}: {states} states, {valid} valid");
    }
    Ok(())
}
