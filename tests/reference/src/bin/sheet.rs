//! The sheet program: an image on standard input, its sheet on standard output.

use std::io::{self, Read, Write};
use std::process::ExitCode;

fn main() -> ExitCode {
    let mut image = Vec::new();
    let done = io::stdin()
        .read_to_end(&mut image)
        .and_then(|_| io::stdout().write_all(reference::sheet::sheet_of_image(&image).as_bytes()));
    match done {
        Ok(()) => ExitCode::SUCCESS,
        Err(_) => ExitCode::FAILURE,
    }
}
