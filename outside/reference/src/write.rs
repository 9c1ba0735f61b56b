//! Document 01, "Numbers the bench sees": writing one packet.

use crate::convert::Format;
use crate::header::{self, Header, HEADER, MOST_DATA};
use crate::names;
use crate::refusal::check;
use crate::Refusal;

/// Check 20 of the writer, which the cutter makes too; gives the data type.
pub fn form(header: &Header) -> Result<&'static Format, Refusal> {
    check(header.rate <= 20, Refusal::Form)?;
    let format = Format::of(header.data_type).ok_or(Refusal::Form)?;
    check((1..=256).contains(&header.frames), Refusal::Form)?;
    check((1..=256).contains(&header.channels), Refusal::Form)?;
    check(names::good(&header.name), Refusal::Form)?;
    Ok(format)
}

/// Writes one packet at the start of `out` and gives its length; output past it stays.
pub fn write(header: &Header, data: &[u8], out: &mut [u8]) -> Result<usize, Refusal> {
    let format = form(header)?;
    let data_bytes = usize::from(header.frames) * usize::from(header.channels) * format.size;
    check(data_bytes <= MOST_DATA, Refusal::Big)?;
    check(data.len() == data_bytes, Refusal::Data)?;
    let length = HEADER + data_bytes;
    check(out.len() >= length, Refusal::Room)?;
    let bytes = header::joined(header).ok_or(Refusal::Form)?;
    out[..HEADER].copy_from_slice(&bytes);
    out[HEADER..length].copy_from_slice(data);
    Ok(length)
}
