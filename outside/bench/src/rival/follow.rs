//! Following a take.

use tashmirok::Laid;

use super::{lay, name};

#[derive(Clone, Copy, Default)]
pub struct Take {
    name: [u8; 16],
    place: u64,
    address: u32,
    newest: u32,
    frames: u16,
    channels: u16,
    rate: u8,
    format: u8,
    begun: bool,
}

pub type Tally = [u32; 17];

/// The fields of a packet that was not refused, and where it goes.
struct Accepted {
    rate: u8,
    format: u8,
    channels: u16,
    frames: u16,
    counter: u32,
    place: u64,
    skipped: u32,
}

pub fn open(field: &[u8; 16], address: u32, track: &mut [u8]) -> (u8, Take) {
    let Some(kept) = name::kept(field) else {
        return (4, Take::default());
    };
    let whole = track.len() / 24 * 24;
    track[..whole].fill(0);
    (0, Take { name: kept.to_le_bytes(), address, ..Take::default() })
}

/// Row 16; gives the take's name as a number.
#[inline]
fn state(take: &Take) -> Result<u128, u8> {
    let good = !take.begun
        || (1..=8).contains(&take.channels)
            && (1..=256).contains(&take.frames)
            && take.rate <= 20
            && take.format <= 3;
    name::kept(&take.name).filter(|_| good).ok_or(16)
}

/// Rows 6 to 10, once one of them is known to refuse.
#[cold]
fn described(four: u8, seven: u8) -> u8 {
    match (four >> 5, seven >> 4, seven >> 3 & 1, four & 31, seven & 7) {
        (1.., ..) => 6,
        (_, 1.., ..) => 7,
        (_, _, 1, ..) => 8,
        (_, _, _, 21.., _) => 9,
        _ => 10,
    }
}

/// Rows 1 to 5.
#[inline]
fn front<'a>(take: &Take, ours: u128, address: u32, datagram: &'a [u8]) -> Result<&'a [u8; 28], u8> {
    let header: &[u8; 28] = datagram.first_chunk().ok_or(1)?;
    if datagram.len() > 1464 {
        return Err(2);
    }
    if header[..4] != *b"VBAN" {
        return Err(3);
    }
    let field: &[u8; 16] = header[8..24].try_into().expect("sixteen bytes");
    // The same sixteen bytes are the same name; only others have to be looked at.
    if *field != take.name && name::kept(field).ok_or(4)? != ours || address != take.address {
        return Err(5);
    }
    Ok(header)
}

/// Rows 13 and 14, and then d.
#[inline]
fn newer(take: &Take, packet: &Accepted) -> Result<u32, u8> {
    let kind = (packet.rate, packet.channels, packet.format);
    if kind != (take.rate, take.channels, take.format) || packet.frames > take.frames {
        return Err(13);
    }
    let d = packet.counter.wrapping_sub(take.newest);
    if d.wrapping_sub(1) >= 0x7FFF_FFFF {
        return Err(14);
    }
    Ok(d)
}

/// All rows in order.
#[inline]
fn judge(take: &Take, address: u32, datagram: &[u8], held: u64) -> Result<Accepted, u8> {
    let ours = state(take)?;
    let header = front(take, ours, address, datagram)?;
    let (rate, format) = (header[4], header[7]);
    if rate > 20 || format > 3 {
        return Err(described(rate, format));
    }
    let (frames, channels) = (u16::from(header[5]) + 1, u16::from(header[6]) + 1);
    if datagram.len() != 28 + usize::from(frames) * usize::from(channels) * (usize::from(format) + 1) {
        return Err(11);
    }
    if channels > 8 {
        return Err(12);
    }
    let counter = u32::from_le_bytes(*header.last_chunk().expect("four bytes"));
    let mut packet = Accepted { rate, format, channels, frames, counter, place: 0, skipped: 0 };
    if take.begun {
        let d = newer(take, &packet)?;
        packet.skipped = d - 1;
        packet.place = take.place.checked_add(u64::from(d) * u64::from(take.frames)).ok_or(15)?;
    }
    if held < u64::from(frames) || packet.place > held - u64::from(frames) {
        return Err(15);
    }
    Ok(packet)
}

/// Follows one datagram.
#[inline(never)]
pub fn follow(
    take: &mut Take,
    tally: &mut Tally,
    address: u32,
    datagram: &[u8],
    track: &mut [u8],
    laid: &mut Laid,
) -> u8 {
    let held = track.len() / 24;
    let packet = match judge(take, address, datagram, held as u64) {
        Ok(packet) => packet,
        Err(refusal) => {
            tally[usize::from(refusal)] = tally[usize::from(refusal)].saturating_add(1);
            *laid = Laid::default();
            return refusal;
        }
    };
    if !take.begun {
        (take.rate, take.channels, take.format) = (packet.rate, packet.channels, packet.format);
        (take.frames, take.begun) = (packet.frames, true);
    }
    (take.newest, take.place) = (packet.counter, packet.place);
    tally[0] = tally[0].saturating_add(1);
    *laid = Laid {
        place: packet.place,
        frames: packet.frames.into(),
        skipped: packet.skipped.into(),
        spare: [0; 5],
    };
    // The records come last, when nothing is left to be kept meanwhile.
    let from = packet.place as usize * 24;
    let records = &mut track[from..from + usize::from(packet.frames) * 24];
    lay::lay(packet.format, packet.channels, &datagram[28..], records);
    0
}
