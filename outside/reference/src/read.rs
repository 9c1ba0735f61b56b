//! Document 01, "Numbers the bench sees": reading, rows 1 to 11 but those marked T.

use crate::convert::Format;
use crate::header::{self, Header, HEADER, MOST};
use crate::names::Field;
use crate::refusal::check;
use crate::Refusal;

/// What reading alone gives: the header's fields and the number of data bytes, from byte 28 on.
#[derive(Clone, Copy, Debug, PartialEq, Eq)]
pub struct Heard {
    pub header: Header,
    pub data_bytes: usize,
}

/// Rows 1 to 4: what is asked of a datagram before its stream.
pub fn front(datagram: &[u8]) -> Result<([u8; HEADER], Field), Refusal> {
    let bytes = *datagram.first_chunk::<HEADER>().ok_or(Refusal::Short)?;
    check(datagram.len() <= MOST, Refusal::Long)?;
    let name = header::named(&bytes)?;
    Ok((bytes, name))
}

/// Rows 6 to 11: what is asked of it after its stream.
pub fn audio(datagram: &[u8], bytes: &[u8; HEADER], name: Field) -> Result<Heard, Refusal> {
    let header = header::described(bytes, name)?;
    let format = Format::of(header.data_type).ok_or(Refusal::DataType)?;
    let data_bytes = usize::from(header.frames) * usize::from(header.channels) * format.size;
    check(datagram.len() == HEADER + data_bytes, Refusal::Length)?;
    Ok(Heard { header, data_bytes })
}

/// Reading alone.
pub fn read(datagram: &[u8]) -> Result<Heard, Refusal> {
    let (bytes, name) = front(datagram)?;
    audio(datagram, &bytes, name)
}
