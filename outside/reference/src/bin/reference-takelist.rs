//! takelist as document 01's "Bench table" has it, from the reference.

use std::fs;
use std::io::{self, BufReader, BufWriter};
use std::process::ExitCode;

use reference::takelist::{Listing, JOB, TRACK};

/// Large blocks, so that a long capture takes few calls.
const BLOCK: usize = 1 << 16;

fn main() -> ExitCode {
    let job = fs::read(JOB).ok();
    let Some(mut listing) = Listing::open(job.as_deref()) else {
        println!("no stream");
        return ExitCode::SUCCESS;
    };
    let mut input = BufReader::with_capacity(BLOCK, io::stdin().lock());
    let mut lines = BufWriter::with_capacity(BLOCK, io::stdout().lock());
    let told = listing.hear_all(&mut input, &mut lines);
    let written = fs::write(TRACK, &listing.track);
    let mut status = ExitCode::SUCCESS;
    for (what, outcome) in [("the lines or the capture", told), (TRACK, written)] {
        if let Err(error) = outcome {
            eprintln!("{what}: {error}");
            status = ExitCode::FAILURE;
        }
    }
    status
}
