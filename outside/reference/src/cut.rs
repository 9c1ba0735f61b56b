//! Document 01, "Numbers the bench sees": cutting a track into packets.

use crate::convert::Format;
use crate::header::{Header, MOST_DATA};
use crate::refusal::check;
use crate::track::{self, RECORD};
use crate::write::{self, write};
use crate::Refusal;

/// More packets than half the counters would make the first look newer than the last.
pub const MOST_PACKETS: u64 = 1 << 31;

/// The largest N: the lesser of 256 and what 1,436 data bytes have room for.
pub fn largest(data_type: u8, channels: u16) -> Result<u16, Refusal> {
    let format = Format::of(data_type).ok_or(Refusal::Form)?;
    check((1..=256).contains(&channels), Refusal::Form)?;
    let fit = MOST_DATA / (usize::from(channels) * format.size);
    Ok(u16::try_from(fit).map_or(256, |fit| fit.min(256)))
}

/// How many packets of N frames a track gives, the last with what is left.
pub fn packets(frames: usize, n: u16) -> u64 {
    u64::try_from(frames.div_ceil(usize::from(n))).unwrap_or(u64::MAX)
}

/// Check 20 of the cutter: the writer's, then channels and N.
fn form(cut: &Header) -> Result<&'static Format, Refusal> {
    let format = write::form(cut)?;
    check((1..=8).contains(&cut.channels), Refusal::Form)?;
    check(cut.frames <= largest(cut.data_type, cut.channels)?, Refusal::Form)?;
    Ok(format)
}

/// Check 24: there are packets, at most 2^31 of them, and k is one; gives k as a counter's step.
pub fn numbered(frames: usize, n: u16, k: u64) -> Result<u32, Refusal> {
    let all = packets(frames, n);
    check(all != 0 && all <= MOST_PACKETS && k < all, Refusal::Number)?;
    u32::try_from(k).map_err(|_| Refusal::Number)
}

/// Packet k of a track at the start of `out`; the header's frames are N, its counter the start.
pub fn cut(cut: &Header, track: &[u8], k: u64, out: &mut [u8]) -> Result<usize, Refusal> {
    let format = form(cut)?;
    check(track.len() % RECORD == 0, Refusal::Data)?;
    let k = numbered(track::records(track), cut.frames, k)?;
    let packet = track
        .chunks(usize::from(cut.frames) * RECORD)
        .nth(usize::try_from(k).map_err(|_| Refusal::Number)?)
        .ok_or(Refusal::Number)?;
    let header = Header {
        frames: u16::try_from(packet.len() / RECORD).map_err(|_| Refusal::Form)?,
        counter: cut.counter.wrapping_add(k),
        ..*cut
    };
    write(&header, &track::sent(packet, usize::from(cut.channels), format), out)
}
