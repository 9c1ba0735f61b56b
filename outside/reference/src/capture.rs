//! Document 01, "Track and capture": the records of a capture.

use crate::header::MOST;
use crate::take::{follow, Address, Laid, Take, Tally};
use crate::Refusal;

/// Bytes of a capture record: address, length, datagram and padding.
pub const RECORD: usize = 8 + MOST;

/// Any datagram over 1,464 bytes is answered alike, so this one stands for them all.
const OVERLONG: [u8; MOST + 1] = [0; MOST + 1];

/// The sender's address of a record.
pub fn address(record: &[u8; RECORD]) -> Address {
    [record[0], record[1], record[2], record[3]]
}

/// The datagram of a record; a stated length over 1,464 counts as a datagram that long.
pub fn datagram(record: &[u8; RECORD]) -> &[u8] {
    let length = u32::from_le_bytes([record[4], record[5], record[6], record[7]]);
    let held = &record[8..];
    usize::try_from(length).ok().and_then(|length| held.get(..length)).unwrap_or(&OVERLONG)
}

/// Follows the datagram of one record.
pub fn follow_record(
    take: &mut Take,
    track: &mut [u8],
    tally: &mut Tally,
    record: &[u8; RECORD],
) -> Result<Laid, Refusal> {
    follow(take, track, tally, address(record), datagram(record))
}

/// A record of our own, whose padding is zero; none for a datagram it has no room for.
pub fn record(address: Address, datagram: &[u8]) -> Option<[u8; RECORD]> {
    let mut record = [0; RECORD];
    record[..4].copy_from_slice(&address);
    record[4..8].copy_from_slice(&u32::try_from(datagram.len()).ok()?.to_le_bytes());
    record[8..].get_mut(..datagram.len())?.copy_from_slice(datagram);
    Some(record)
}
