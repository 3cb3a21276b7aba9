//! Writes a benchmark page to standard output: `kinds KIND SIZE`.

use std::io::{self, Write};
use std::process::ExitCode;

use baseline::kinds::{page, KINDS};

fn main() -> ExitCode {
    let arguments: Vec<String> = std::env::args().skip(1).collect();
    let [name, size] = arguments.as_slice() else {
        return usage();
    };
    let kind = KINDS.iter().find(|(known, _)| known == name);
    let (Some(&(_, kind)), Ok(size)) = (kind, size.parse()) else {
        return usage();
    };
    match io::stdout().write_all(&page(kind, size)) {
        Ok(()) => ExitCode::SUCCESS,
        Err(error) => {
            eprintln!("kinds: {error}");
            ExitCode::FAILURE
        }
    }
}

fn usage() -> ExitCode {
    let names = KINDS.map(|(name, _)| name).join(" | ");
    eprintln!("use: kinds KIND BYTES, KIND one of {names}");
    ExitCode::from(2)
}
