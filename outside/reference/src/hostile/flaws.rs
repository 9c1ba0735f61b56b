//! What can be wrong with a packet: one flaw a function call, several flaws a packet.

use crate::header::{Header, MOST};
use crate::hostile::packet::Packet;
use crate::hostile::random::Random;
use crate::hostile::samples;

/// Lengths at the edges of document 01's rows 1 and 2, and of 16, 31 and 32-bit numbers.
pub const LENGTHS: [u32; 21] = [
    0,
    1,
    4,
    26,
    27,
    28,
    29,
    1_435,
    1_436,
    1_463,
    1_464,
    1_465,
    1_472,
    1_473,
    65_535,
    65_536,
    65_564,
    0x7FFF_FFFF,
    0x8000_0000,
    0xFFFF_FFE4,
    u32::MAX,
];

/// Spoils one thing about a packet.
pub fn spoil(random: &mut Random, packet: &mut Packet) {
    match random.between(0, 16) {
        0 => packet.sub_protocol = random.byte_between(1, 7),
        1 => packet.codec = random.byte_between(1, 15),
        2 => packet.reserved = 1,
        3 => packet.header.rate = random.byte_between(21, 31),
        4 => packet.header.rate = random.byte_between(0, 20),
        5 => packet.header.data_type = random.byte_between(4, 7),
        6 => packet.header.data_type = random.byte_between(0, 3),
        7 => packet.header.channels = random.pick(&[1, 2, 3, 4, 5, 6, 7, 8]),
        8 => packet.header.channels = random.pick(&[9, 9, 10, 16, 64, 128, 255, 256]),
        9 => packet.header.frames = random.pick(&[1, 2, 3, 64, 128, 255, 256]),
        10 => packet.change = random.pick(&[-1, 1, -1, 1, -2, 2, -4, 4, -2_000, 40]),
        11 => spoil_length(random, packet),
        12 => spoil_mark(random, packet),
        13 => packet.header.name = samples::bad_name(random, packet.header.name),
        14 => packet.header.name = samples::neighbour(random, packet.header.name),
        15 => spoil_address(random, packet),
        _ => spoil_all(random, packet),
    }
    fit(random, packet);
}

/// Keeps the data within a datagram, but for some that are to be over-long.
fn fit(random: &mut Random, packet: &mut Packet) {
    if !random.chance(10) {
        packet.header.frames = packet.header.frames.min(packet.most_frames());
    }
}

/// States another length than the datagram's.
fn spoil_length(random: &mut Random, packet: &mut Packet) {
    let any = u32::try_from(random.between(0, u32::MAX.into())).unwrap_or(0);
    let small = u32::try_from(random.between(0, 1_500)).unwrap_or(0);
    let edge = random.pick(&LENGTHS);
    packet.stated = Some(random.pick(&[edge, edge, edge, any, small]));
}

/// Changes one bit of one byte of the mark.
fn spoil_mark(random: &mut Random, packet: &mut Packet) {
    let at = random.count_between(0, 3);
    packet.mark[at] ^= random.pick(&[1, 2, 4, 8, 16, 32, 64, 128]);
}

/// Changes one byte of the sender's address.
fn spoil_address(random: &mut Random, packet: &mut Packet) {
    let at = random.count_between(0, 3);
    packet.address[at] ^= random.pick(&[1, 2, 128, 255]);
}

/// Any bytes of any length, or any header of our name.
fn spoil_all(random: &mut Random, packet: &mut Packet) {
    if random.chance(50) {
        let length = random.pick(&[0, 1, 5, 27, 28, 29, 60, MOST - 1, MOST, MOST + 1, MOST + 9]);
        packet.noise = Some(random.bytes(length));
    } else {
        let field = |byte: u64| u16::try_from(byte % 256).map_or(1, |byte| byte + 1);
        packet.header = Header {
            rate: random.byte_between(0, 31),
            frames: field(random.next()),
            channels: field(random.next()),
            data_type: random.byte_between(0, 7),
            ..packet.header
        };
        packet.codec = random.pick(&[0, 0, 0, 5]);
        packet.sub_protocol = random.pick(&[0, 0, 0, 7]);
    }
}
