//! Programs from a script on standard input to what it gives on standard output. With `--framed`,
//! any number of scripts, each behind its length (4 bytes, least byte first), and what they give in
//! the same frames.

use std::io::{self, BufRead, Read, Write};
use std::process::ExitCode;

use crate::limits::SCRIPT;

/// A whole program: its arguments, its input and its output. The names are for its messages.
pub fn filter(program: &str, output: &str, run: impl Fn(&[u8]) -> Vec<u8>) -> ExitCode {
    let arguments: Vec<String> = std::env::args().skip(1).collect();
    let arguments: Vec<&str> = arguments.iter().map(String::as_str).collect();
    let result = match arguments[..] {
        [] => single(run),
        ["--framed"] => framed(run),
        _ => {
            eprintln!("usage: {program} [--framed] < script > {output}");
            return ExitCode::from(2);
        }
    };
    match result {
        Ok(()) => ExitCode::SUCCESS,
        Err(error) => {
            eprintln!("{program}: {error}");
            ExitCode::FAILURE
        }
    }
}

fn single(run: impl Fn(&[u8]) -> Vec<u8>) -> io::Result<()> {
    let mut script = Vec::new();
    // One byte more than the longest script is enough to see that it is too long.
    io::stdin().lock().take(SCRIPT as u64 + 1).read_to_end(&mut script)?;
    io::stdout().lock().write_all(&run(&script))
}

fn framed(run: impl Fn(&[u8]) -> Vec<u8>) -> io::Result<()> {
    let mut input = io::BufReader::new(io::stdin().lock());
    let mut output = io::BufWriter::new(io::stdout().lock());
    let mut script = Vec::new();
    while !input.fill_buf()?.is_empty() {
        let mut length = [0; 4];
        input.read_exact(&mut length)?;
        let length = u64::from(u32::from_le_bytes(length));
        script.clear();
        if input.by_ref().take(length).read_to_end(&mut script)? as u64 != length {
            return Err(io::ErrorKind::UnexpectedEof.into());
        }
        let given = run(&script);
        output.write_all(&(given.len() as u32).to_le_bytes())?;
        output.write_all(&given)?;
    }
    output.flush()
}
