//! How often the reference answers each number over the cases.

use std::collections::BTreeMap;
use std::fmt;

use crate::case::Case;
use reference::capture::{follow_record, RECORD};
use reference::cut::cut;
use reference::cutlist::{self, Job};
use reference::header::{Header, MOST, MOST_DATA};
use reference::refusal::number_of;
use reference::take::{Take, Tally};
use reference::takelist::{self, Listing};
use reference::write::write;

/// Counts by what was answered, and by what no program can come to but the library can.
#[derive(Default)]
pub struct Counts {
    programs: BTreeMap<String, u64>,
    library: BTreeMap<String, u64>,
}

impl Counts {
    fn add(&mut self, what: impl ToString, times: u64) {
        *self.programs.entry(what.to_string()).or_default() += times;
    }

    fn add_library(&mut self, number: u8) {
        *self.library.entry(number.to_string()).or_default() += 1;
    }

    /// Counts what takelist answers to a case.
    pub fn takelist(&mut self, case: &Case) {
        let job = case.file(takelist::JOB);
        let Some(mut listing) = Listing::open(job) else {
            self.add("no stream", 1);
            self.all_zero(case);
            return;
        };
        let mut lines = Vec::new();
        let heard = listing.hear_all(&mut &case.input[..], &mut lines);
        self.add("cut", u64::from(lines.ends_with(b"cut\n")));
        self.add("unreadable", u64::from(heard.is_err()));
        for (number, &count) in listing.tally.0.iter().enumerate() {
            self.add(number, count.into());
        }
    }

    /// A refused opening gives the all-zero take, and following with that is 16.
    fn all_zero(&mut self, case: &Case) {
        let (mut take, mut tally) = (Take::default(), Tally::default());
        for record in case.input.chunks_exact(RECORD).filter_map(|record| record.try_into().ok()) {
            let answer = follow_record(&mut take, &mut [], &mut tally, record);
            self.add_library(number_of(&answer));
        }
    }

    /// Counts what cutlist answers to a case.
    pub fn cutlist(&mut self, case: &Case) {
        let Some(job) = Job::of(case.file(cutlist::JOB)) else {
            self.add("no header", 1);
            return;
        };
        let outcome = job.capture(&case.input);
        self.add(number_of(&outcome), 1);
        if outcome.is_ok() {
            self.no_room(&job.header, &case.input);
        }
    }

    /// The program's room is always enough and its N never too big, so these ask the library.
    fn no_room(&mut self, header: &Header, track: &[u8]) {
        let mut out = [0; MOST];
        let length = cut(header, track, 0, &mut out).unwrap_or(1);
        self.add_library(number_of(&cut(header, track, 0, &mut out[..length - 1])));
        let big = Header { frames: 256, channels: 8, ..*header };
        self.add_library(number_of(&write(&big, &[0; MOST_DATA], &mut out)));
    }

    /// The numbers of a range that neither a program nor the library answered.
    pub fn never(&self, numbers: impl IntoIterator<Item = u8>) -> Vec<u8> {
        let count = |counts: &BTreeMap<String, u64>, number: u8| {
            counts.get(&number.to_string()).copied().unwrap_or(0)
        };
        let unseen =
            |number: &u8| count(&self.programs, *number) == 0 && count(&self.library, *number) == 0;
        numbers.into_iter().filter(unseen).collect()
    }
}

impl fmt::Display for Counts {
    fn fmt(&self, f: &mut fmt::Formatter<'_>) -> fmt::Result {
        for (counts, whose) in [(&self.programs, ""), (&self.library, " (library only)")] {
            let mut rows: Vec<_> = counts.iter().filter(|(_, &times)| times > 0).collect();
            rows.sort_by_key(|(what, _)| (what.parse().unwrap_or(u8::MAX), what.to_string()));
            for (what, times) in rows {
                writeln!(f, "{what}: {times}{whose}")?;
            }
        }
        Ok(())
    }
}
