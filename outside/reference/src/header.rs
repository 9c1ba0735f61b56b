//! Document 01, "The 28 bytes": the header's bytes taken apart and put together.

use crate::names::{self, Field};
use crate::refusal::check;
use crate::Refusal;

/// Bytes of a header, and the most that data and a whole datagram may have.
pub const HEADER: usize = 28;
pub const MOST_DATA: usize = 1_436;
pub const MOST: usize = HEADER + MOST_DATA;

/// What every VBAN datagram starts with.
pub const MARK: [u8; 4] = [0x56, 0x42, 0x41, 0x4E];

/// Rates in Hz by index.
pub const RATES: [u32; 21] = [
    6_000, 12_000, 24_000, 48_000, 96_000, 192_000, 384_000, 8_000, 16_000, 32_000, 64_000,
    128_000, 256_000, 512_000, 11_025, 22_050, 44_100, 88_200, 176_400, 352_800, 705_600,
];

/// A header's fields as counts; sub protocol and codec are 0 whenever a header is read.
#[derive(Clone, Copy, Debug, Default, PartialEq, Eq)]
pub struct Header {
    pub rate: u8,
    pub frames: u16,
    pub channels: u16,
    pub data_type: u8,
    pub name: Field,
    pub counter: u32,
}

/// The rate in Hz; indexes 21 to 31 are undefined and refused as the reader refuses them.
pub fn rate_of(index: u8) -> Result<u32, Refusal> {
    RATES.get(usize::from(index)).copied().ok_or(Refusal::Rate)
}

/// Rows 3 and 4: the mark and the name, which come before the stream is asked for.
pub fn named(bytes: &[u8; HEADER]) -> Result<Field, Refusal> {
    check(bytes[..4] == MARK, Refusal::Foreign)?;
    let mut field = [0; 16];
    field.copy_from_slice(&bytes[8..24]);
    check(names::good(&field), Refusal::Name)?;
    Ok(names::filled(&field))
}

/// Rows 6 to 10, and then the fields; the name is the one that rows 3 and 4 gave.
pub fn described(bytes: &[u8; HEADER], name: Field) -> Result<Header, Refusal> {
    let (rate, sub_protocol) = (bytes[4] % 32, bytes[4] / 32);
    let (data_type, reserved, codec) = (bytes[7] % 8, bytes[7] / 8 % 2, bytes[7] / 16);
    check(sub_protocol == 0, Refusal::SubProtocol)?;
    check(codec == 0, Refusal::Codec)?;
    check(reserved == 0, Refusal::Reserved)?;
    check(rate <= 20, Refusal::Rate)?;
    check(data_type <= 3, Refusal::DataType)?;
    Ok(Header {
        rate,
        frames: u16::from(bytes[5]) + 1,
        channels: u16::from(bytes[6]) + 1,
        data_type,
        name,
        counter: u32::from_le_bytes([bytes[24], bytes[25], bytes[26], bytes[27]]),
    })
}

/// The 28 bytes of a header that the writer has checked; none where a field has no place in them.
pub fn joined(header: &Header) -> Option<[u8; HEADER]> {
    let mut bytes = [0; HEADER];
    bytes[..4].copy_from_slice(&MARK);
    bytes[4] = header.rate;
    bytes[5] = u8::try_from(header.frames.checked_sub(1)?).ok()?;
    bytes[6] = u8::try_from(header.channels.checked_sub(1)?).ok()?;
    bytes[7] = header.data_type;
    bytes[8..24].copy_from_slice(&names::filled(&header.name));
    bytes[24..].copy_from_slice(&header.counter.to_le_bytes());
    Some(bytes)
}
