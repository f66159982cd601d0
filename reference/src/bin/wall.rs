//! A script on standard input, what the wall display shows after it on standard output; with
//! `--framed`, any number of them.

use std::process::ExitCode;

use reference::filter::filter;
use reference::wall::wall;

fn main() -> ExitCode {
    filter("wall", "text", |script| wall(script).into_bytes())
}
