//! A script on standard input, its log on standard output; with `--framed`, any number of them.

use std::process::ExitCode;

use reference::filter::filter;
use reference::run_script;

fn main() -> ExitCode {
    filter("reference", "log", run_script)
}
