//! An independent reference of the recorder box, written from document 01 alone.
//!
//! It shares nothing with the proved crates, so that a slip in one shows as a difference.

pub mod capture;
pub mod convert;
pub mod cut;
pub mod cutlist;
pub mod header;
pub mod hostile;
pub mod names;
pub mod read;
pub mod refusal;
pub mod take;
pub mod takelist;
pub mod track;
pub mod write;

pub use refusal::Refusal;
