//! Writes random scripts and their logs; the counts go to standard error.

use std::fs::{self, File};
use std::io::{self, BufWriter, Write};
use std::path::Path;
use std::process::ExitCode;

use reference::generator::{generate, RECORDS};
use reference::run_script;
use reference::selfcheck::self_check;
use reference::tally::Tally;

const USAGE: &str = "usage: generate SEED COUNT DIR [--each] [--records N] [--check]
  SEED, COUNT   the scripts 0 to COUNT - 1 of that seed
  DIR           gets the files `scripts` and `logs`; `-` writes nothing
  --each        writes 0.script, 0.log, 1.script, ... instead
  --records N   at most N records in a script
  --check       holds every record against the validity check and the ledger";

struct Options {
    seed: u64,
    count: u64,
    dir: Option<String>,
    each: bool,
    records: usize,
    check: bool,
}

fn options() -> Option<Options> {
    let mut positional = Vec::new();
    let (mut each, mut records, mut check) = (false, RECORDS, false);
    let mut arguments = std::env::args().skip(1);
    while let Some(argument) = arguments.next() {
        match argument.as_str() {
            "--each" => each = true,
            "--check" => check = true,
            "--records" => records = arguments.next()?.parse().ok()?,
            _ => positional.push(argument),
        }
    }
    let [seed, count, dir] = positional.try_into().ok()?;
    Some(Options {
        seed: seed.parse().ok()?,
        count: count.parse().ok()?,
        dir: (dir != "-").then_some(dir),
        each,
        records,
        check,
    })
}

fn main() -> ExitCode {
    let Some(options) = options() else {
        eprintln!("{USAGE}");
        return ExitCode::from(2);
    };
    match run(&options) {
        Ok(()) => ExitCode::SUCCESS,
        Err(error) => {
            eprintln!("generate: {error}");
            ExitCode::FAILURE
        }
    }
}

fn run(options: &Options) -> io::Result<()> {
    let mut tally = Tally::default();
    let mut frames = match &options.dir {
        Some(dir) => {
            fs::create_dir_all(dir)?;
            if options.each {
                None
            } else {
                let file = |name| File::create(Path::new(dir).join(name)).map(BufWriter::new);
                Some((file("scripts")?, file("logs")?))
            }
        }
        None => None,
    };
    for index in 0..options.count {
        let script = generate(options.seed, index, options.records, &mut tally);
        if options.check {
            self_check(&script)
                .map_err(|what| io::Error::other(format!("script {index}: {what}")))?;
        }
        let Some(dir) = &options.dir else { continue };
        let log = run_script(&script);
        match &mut frames {
            Some((scripts, logs)) => {
                write_frame(scripts, &script)?;
                write_frame(logs, &log)?;
            }
            None => {
                fs::write(Path::new(dir).join(format!("{index}.script")), &script)?;
                fs::write(Path::new(dir).join(format!("{index}.log")), &log)?;
            }
        }
    }
    if let Some((scripts, logs)) = &mut frames {
        scripts.flush()?;
        logs.flush()?;
    }
    eprint!("{}", tally.report());
    Ok(())
}

fn write_frame(file: &mut impl Write, bytes: &[u8]) -> io::Result<()> {
    file.write_all(&(bytes.len() as u32).to_le_bytes())?;
    file.write_all(bytes)
}
