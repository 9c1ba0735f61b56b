//! Document 01, "Bench table": the program takelist.

use std::io::{self, Read, Write};

use crate::capture::{follow_record, RECORD};
use crate::refusal::number_of;
use crate::take::{open, Take, Tally};
use crate::track;

/// Records of the track that the program keeps.
pub const RECORDS: usize = 2_048;

/// The job file and the track file of the program.
pub const JOB: &str = "wanted.bin";
pub const TRACK: &str = "track.bin";

/// A take with its track, its tally and the index of the next capture record.
pub struct Listing {
    pub take: Take,
    pub track: Vec<u8>,
    pub tally: Tally,
    index: u64,
}

impl Listing {
    /// Opens the take of `wanted.bin`; none where it is missing, not 20 bytes or badly named.
    pub fn open(job: Option<&[u8]>) -> Option<Self> {
        let job: &[u8; 20] = job?.try_into().ok()?;
        let (address, name) = (job.first_chunk()?, job.last_chunk()?);
        let mut track = vec![0; RECORDS * track::RECORD];
        let take = open(name, *address, &mut track).ok()?;
        Some(Listing { take, track, tally: Tally::default(), index: 0 })
    }

    /// Follows one capture record and gives its line.
    pub fn hear(&mut self, record: &[u8; RECORD]) -> String {
        let answer = follow_record(&mut self.take, &mut self.track, &mut self.tally, record);
        let (number, laid) = (number_of(&answer), answer.unwrap_or_default());
        let line =
            format!("{} {number} {} {} {}\n", self.index, laid.place, laid.frames, laid.skipped);
        self.index += 1;
        line
    }

    /// Hears a whole capture; lines that can't be printed don't keep it from the track.
    pub fn hear_all(&mut self, input: &mut impl Read, lines: &mut impl Write) -> io::Result<()> {
        let mut told = Ok(());
        loop {
            let mut record = [0; RECORD];
            let (got, ended) = filled(input, &mut record);
            if got == RECORD {
                let line = self.hear(&record);
                told = told.and_then(|()| lines.write_all(line.as_bytes()));
            } else if got > 0 {
                told = told.and_then(|()| lines.write_all(b"cut\n"));
            }
            if got < RECORD {
                return told.and_then(|()| lines.flush()).and(ended);
            }
        }
    }
}

/// Fills a record as far as the input reaches; an input that fails ends there, and says so.
fn filled(input: &mut impl Read, record: &mut [u8]) -> (usize, io::Result<()>) {
    let mut got = 0;
    while got < record.len() {
        match input.read(&mut record[got..]) {
            Ok(0) => break,
            Ok(more) => got += more,
            Err(error) if error.kind() == io::ErrorKind::Interrupted => {}
            Err(error) => return (got, Err(error)),
        }
    }
    (got, Ok(()))
}
