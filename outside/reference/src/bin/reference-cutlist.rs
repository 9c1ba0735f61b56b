//! cutlist as document 01's "Bench table" has it, from the reference.

use std::fs;
use std::io::{self, Read};
use std::process::ExitCode;

use reference::cutlist::{Job, CAPTURE, JOB, LONGEST};

/// The track, and at most one byte past the longest, which is enough to know a longer one.
fn track() -> io::Result<Vec<u8>> {
    let mut track = Vec::new();
    let most = u64::try_from(LONGEST).map_or(u64::MAX, |most| most + 1);
    io::stdin().lock().take(most).read_to_end(&mut track)?;
    Ok(track)
}

fn main() -> ExitCode {
    let job = fs::read(JOB).ok();
    let Some(job) = Job::of(job.as_deref()) else {
        println!("no header");
        return ExitCode::SUCCESS;
    };
    let written = track().and_then(|track| match job.capture(&track) {
        Ok(capture) => fs::write(CAPTURE, capture),
        Err(refusal) => {
            println!("{}", refusal.number());
            Ok(())
        }
    });
    match written {
        Ok(()) => ExitCode::SUCCESS,
        Err(error) => {
            eprintln!("{CAPTURE}: {error}");
            ExitCode::FAILURE
        }
    }
}
