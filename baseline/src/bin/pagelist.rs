//! Lists the records of the page on standard input.

use std::io;
use std::process::ExitCode;

fn main() -> ExitCode {
    match baseline::listing::list(io::stdin().lock(), io::stdout().lock()) {
        Ok(()) => ExitCode::SUCCESS,
        Err(error) => {
            eprintln!("pagelist: {error}");
            ExitCode::FAILURE
        }
    }
}
