//! Document 01, "Bench table": the program cutlist.

use crate::capture;
use crate::cut::{cut, packets};
use crate::header::{self, Header, HEADER, MOST};
use crate::take::Address;
use crate::track;
use crate::Refusal;

/// The longest track that the program takes, in records and in bytes.
pub const RECORDS: usize = 2_048;
pub const LONGEST: usize = RECORDS * track::RECORD;

/// The job file and the capture file of the program.
pub const JOB: &str = "cut.bin";
pub const CAPTURE: &str = "cut.cap";

/// A cut's address and header, as `cut.bin` gives them.
#[derive(Clone, Copy, Debug, PartialEq, Eq)]
pub struct Job {
    pub address: Address,
    pub header: Header,
}

impl Job {
    /// Reads `cut.bin`; none where it is missing, not 32 bytes, or rows 3, 4 or 6 to 10 refuse it.
    pub fn of(job: Option<&[u8]>) -> Option<Self> {
        let job: &[u8; 4 + HEADER] = job?.try_into().ok()?;
        let (address, bytes) = (job.first_chunk()?, job.last_chunk()?);
        let name = header::named(bytes).ok()?;
        let header = header::described(bytes, name).ok()?;
        Some(Job { address: *address, header })
    }

    /// The whole capture of a track; a longer track than the program's is 24 before all checks.
    pub fn capture(&self, track: &[u8]) -> Result<Vec<u8>, Refusal> {
        crate::refusal::check(track.len() <= LONGEST, Refusal::Number)?;
        let all = packets(track::records(track), self.header.frames).max(1);
        let mut whole = Vec::new();
        for k in 0..all {
            let mut out = [0; MOST];
            let length = cut(&self.header, track, k, &mut out)?;
            whole.extend(capture::record(self.address, &out[..length]).ok_or(Refusal::Room)?);
        }
        Ok(whole)
    }
}
