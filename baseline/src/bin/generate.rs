//! Writes one generated page to standard output: `generate SEED NUMBER`.

use std::io::{self, Write};
use std::process::ExitCode;

fn main() -> ExitCode {
    let mut arguments = std::env::args().skip(1).map(|text| text.parse::<u64>());
    let (Some(Ok(seed)), Some(Ok(number)), None) =
        (arguments.next(), arguments.next(), arguments.next())
    else {
        eprintln!("use: generate SEED NUMBER");
        return ExitCode::from(2);
    };
    let page = baseline::generator::page(seed, number);
    match io::stdout().write_all(&page) {
        Ok(()) => ExitCode::SUCCESS,
        Err(error) => {
            eprintln!("generate: {error}");
            ExitCode::FAILURE
        }
    }
}
