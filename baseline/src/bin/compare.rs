//! Compares our listing of generated pages with another pagelist's:
//! `compare OTHER SEED FIRST COUNT`.

use std::error::Error;
use std::io::{self, Read, Write};
use std::path::Path;
use std::process::{ChildStdin, Command, ExitCode, Stdio};
use std::{env, fs, thread};

use baseline::generator;
use baseline::listing::listing;
use baseline::random::Random;

const PROGRESS: u64 = 1_000;
const DIFFERENCE: &str = "difference";

fn main() -> ExitCode {
    let arguments: Vec<String> = env::args().skip(1).collect();
    let [other, numbers @ ..] = arguments.as_slice() else {
        return usage();
    };
    let numbers: Result<Vec<u64>, _> = numbers.iter().map(|text| text.parse()).collect();
    let Ok(&[seed, first, count]) = numbers.as_deref() else {
        return usage();
    };
    match compare(Path::new(other), seed, first, count) {
        Ok(true) => ExitCode::SUCCESS,
        Ok(false) => ExitCode::FAILURE,
        Err(error) => {
            eprintln!("compare: {error}");
            ExitCode::from(2)
        }
    }
}

fn usage() -> ExitCode {
    eprintln!("use: compare OTHER SEED FIRST COUNT");
    ExitCode::from(2)
}

/// Compares page after page; answers whether all were alike.
fn compare(other: &Path, seed: u64, first: u64, count: u64) -> Result<bool, Box<dyn Error>> {
    for done in 0..count {
        let number = first + done;
        let page = generator::page(seed, number);
        // The cuts are drawn apart from the page.
        let mut cuts = Random::new(!seed, number);
        let theirs = listing_of(other, &page, &mut cuts)?;
        let ours = listing(&page);
        if ours != theirs {
            save(&page, &ours, &theirs)?;
            println!("page {number} of seed {seed} differs:");
            print_first_difference(&ours, &theirs);
            println!("{DIFFERENCE}/page is the page, {DIFFERENCE}/baseline and {DIFFERENCE}/other its listings");
            return Ok(false);
        }
        if (done + 1) % PROGRESS == 0 {
            println!("{} pages", done + 1);
        }
    }
    println!("{count} pages of seed {seed}, from page {first} on: no difference");
    Ok(true)
}

/// What another program lists for a page on its standard input.
fn listing_of(other: &Path, page: &[u8], cuts: &mut Random) -> io::Result<Vec<u8>> {
    let mut child = Command::new(other)
        .stdin(Stdio::piped())
        .stdout(Stdio::piped())
        .spawn()?;
    let input = child.stdin.take().expect("a pipe was asked for");
    let mut output = child.stdout.take().expect("a pipe was asked for");
    let mut text = Vec::new();
    // Written beside the reading: either pipe can fill up.
    let (written, read) = thread::scope(|scope| {
        let writer = scope.spawn(|| write_in_pieces(input, page, cuts));
        let read = output.read_to_end(&mut text);
        (writer.join().expect("the writer does not panic"), read)
    });
    child.wait()?;
    written?;
    read?;
    Ok(text)
}

fn write_in_pieces(mut input: ChildStdin, page: &[u8], cuts: &mut Random) -> io::Result<()> {
    let mut rest = page;
    let longest = cuts.pick(&[1 + page.len() / 3, 2 + page.len() / 8, 1 + page.len()]);
    while !rest.is_empty() {
        let length = cuts.range(1, longest).min(rest.len());
        let (piece, after) = rest.split_at(length);
        match input.write_all(piece) {
            Ok(()) => rest = after,
            // The reader may stop at a refusal.
            Err(error) if error.kind() == io::ErrorKind::BrokenPipe => return Ok(()),
            Err(error) => return Err(error),
        }
    }
    Ok(())
}

fn print_first_difference(ours: &[u8], theirs: &[u8]) {
    let ours = String::from_utf8_lossy(ours);
    let theirs = String::from_utf8_lossy(theirs);
    let (mut ours, mut theirs) = (ours.lines(), theirs.lines());
    for line in 1.. {
        let (our, their) = (ours.next(), theirs.next());
        if our != their || our.is_none() {
            println!("  line {line} of the baseline: {}", our.unwrap_or("none"));
            println!("  line {line} of the other:    {}", their.unwrap_or("none"));
            return;
        }
    }
}

fn save(page: &[u8], ours: &[u8], theirs: &[u8]) -> io::Result<()> {
    let folder = Path::new(DIFFERENCE);
    fs::create_dir_all(folder)?;
    fs::write(folder.join("page"), page)?;
    fs::write(folder.join("baseline"), ours)?;
    fs::write(folder.join("other"), theirs)
}
