//! The console program: the script on standard input, the answers on standard output.

use std::io;
use std::process::ExitCode;

fn main() -> ExitCode {
    match reference::console::run(io::stdin().lock(), io::stdout().lock()) {
        Ok(()) => ExitCode::SUCCESS,
        Err(_) => ExitCode::FAILURE,
    }
}
