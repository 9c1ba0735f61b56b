//! Hostile packets, names, counters and samples, for the generator and for other tests.

pub mod flaws;
pub mod packet;
pub mod random;
pub mod samples;
