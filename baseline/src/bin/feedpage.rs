//! Reads the page on standard input without listing it, for measurements:
//! `feedpage [ROUNDS]` prints `end`, the number of the end call and the steps,
//! then a byte of the output, so that the compiler cannot leave the records out.
//!
//! It does what the proved program of this name does: pieces of 64 KiB, an
//! output of 4,096 records that are dropped. Standard input has to be a file
//! for more than one round.

use std::error::Error;
use std::fs::File;
use std::io::{self, Read, Seek};
use std::os::fd::AsFd;
use std::process::ExitCode;

use baseline::listing::GREATEST_BUDGET;
use baseline::{end, feed, open, Number, Session, RECORD, STORE};

const PIECE: usize = 1 << 16;
const RECORDS: usize = 1 << 12;

fn main() -> ExitCode {
    match run() {
        Ok(()) => ExitCode::SUCCESS,
        Err(error) => {
            eprintln!("feedpage: {error}");
            ExitCode::FAILURE
        }
    }
}

fn run() -> Result<(), Box<dyn Error>> {
    let rounds = std::env::args().nth(1).map_or(Ok(1), |text| text.parse())?;
    // Without the buffer of `io::stdin`.
    let mut input = File::from(io::stdin().as_fd().try_clone_to_owned()?);
    let mut store = vec![0; STORE];
    let mut piece = vec![0; PIECE];
    let mut output = vec![0; RECORDS * RECORD];
    let mut last = read_page(&mut input, &mut store, &mut piece, &mut output)?;
    for _ in 1..rounds {
        input.rewind()?;
        last = read_page(&mut input, &mut store, &mut piece, &mut output)?;
    }
    let (number, steps) = last;
    println!("end {} {steps}", number as u8);
    print!("{}", output.get(steps as usize).unwrap_or(&0));
    Ok(())
}

/// Reads a page to its end or its refusal: the number of end, and the steps.
fn read_page(
    input: &mut File,
    store: &mut [u8],
    piece: &mut [u8],
    output: &mut [u8],
) -> io::Result<(Number, u32)> {
    let (mut session, _) = open(store, GREATEST_BUDGET);
    loop {
        let length = input.read(piece)?;
        if length == 0 || !feed_piece(&mut session, store, &piece[..length], output) {
            break;
        }
    }
    let answer = end(&mut session, store, output);
    Ok((answer.number, session.steps()))
}

/// Feeds a whole piece; answers whether all of it was accepted.
fn feed_piece(
    session: &mut Session,
    store: &mut [u8],
    mut piece: &[u8],
    output: &mut [u8],
) -> bool {
    loop {
        let answer = feed(session, store, piece, output);
        piece = answer.rest(piece);
        if answer.number != Number::Full {
            return answer.number == Number::Done;
        }
    }
}
