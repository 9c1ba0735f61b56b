//! Hostile jobs for cutlist.

use crate::case::Case;
use reference::convert::SLOT;
use reference::cut::largest;
use reference::cutlist::{CAPTURE, JOB, LONGEST, RECORDS};
use reference::header::Header;
use reference::hostile::packet::Packet;
use reference::hostile::random::Random;
use reference::hostile::samples::{self, STEP_24_TO_16, STEP_24_TO_8};
use reference::track::{RECORD, SLOT_BYTES};

/// How many cases the sweeps are.
pub const SWEEPS: usize = 135;

/// A cut of any form that the cutter takes.
fn form(random: &mut Random) -> Packet {
    let (data_type, channels) =
        (random.byte_between(0, 3), random.pick(&[1, 2, 2, 3, 4, 5, 6, 7, 8]));
    let most = largest(data_type, channels).unwrap_or(1);
    let any = u16::try_from(random.between(1, most.into())).unwrap_or(1);
    let header = Header {
        rate: random.byte_between(0, 20),
        frames: random.pick(&[any % 8 + 1, any, any, most]).min(most),
        channels,
        data_type,
        name: samples::name(random),
        counter: samples::counter(random),
    };
    let bytes = random.next().to_le_bytes();
    Packet::new([bytes[0], bytes[1], bytes[2], bytes[3]], header)
}

/// The 32 bytes of `cut.bin`.
fn job(packet: &Packet) -> Vec<u8> {
    [&packet.address[..], &packet.header_bytes()].concat()
}

/// So many records, all slots filled, since those past the channels are not to be looked at.
fn track(random: &mut Random, records: usize, data_type: u8) -> Vec<u8> {
    let step = if data_type == 0 { STEP_24_TO_8 } else { STEP_24_TO_16 };
    let mut track = vec![0; records * RECORD];
    for slot in track.chunks_exact_mut(SLOT_BYTES) {
        SLOT.put(samples::number(random, SLOT, step), slot);
    }
    track
}

/// How many records: mostly few, now and then none, the most, or one more than that.
fn records(random: &mut Random, n: u16) -> usize {
    match random.between(0, 49) {
        0..=2 => 0,
        3..=10 => usize::from(n) * random.pick(&[1, 1, 2, 3]),
        11..=15 => usize::from(n) + 1,
        16..=18 => usize::from(n) - 1,
        19..=40 => random.count_between(1, 40),
        41..=47 => random.count_between(41, 300),
        48 => random.count_between(301, RECORDS),
        _ => random.pick(&[RECORDS - 1, RECORDS, RECORDS + 1]),
    }
}

/// Makes the header one that rows 3, 4 or 6 to 10 refuse, or that the cutter does.
fn spoil(random: &mut Random, packet: &mut Packet) {
    let header = &mut packet.header;
    match random.between(0, 11) {
        0 => packet.mark[random.count_between(0, 3)] ^= 1,
        1 => header.name = samples::bad_name(random, header.name),
        2 => packet.sub_protocol = random.byte_between(1, 7),
        3 => packet.codec = random.byte_between(1, 15),
        4 => packet.reserved = 1,
        5 => header.rate = random.byte_between(21, 31),
        6 => header.data_type = random.byte_between(4, 7),
        7 | 8 => header.channels = random.pick(&[9, 9, 10, 16, 100, 255, 256]),
        _ => {
            let most = largest(header.data_type, header.channels).unwrap_or(256);
            header.frames = random.pick(&[most + 1, most + 1, 255, 256]).min(256);
        }
    }
}

/// Puts the job file, or something else in its place.
fn put_job(random: &mut Random, packet: &Packet, case: &mut Case) {
    let mut job = job(packet);
    match random.between(0, 99) {
        0 | 1 => {}
        2 => case.block(JOB),
        3 => case.put(JOB, random.bytes(32)),
        4..=6 => {
            job.resize(random.pick(&[0, 1, 4, 20, 28, 31, 33, 60, 64, 1_472]), 0);
            case.put(JOB, job);
        }
        _ => case.put(JOB, job),
    }
}

/// A case of any kind.
pub fn any(mut random: Random) -> Case {
    let mut packet = form(&mut random);
    let mut count = records(&mut random, packet.header.frames);
    if random.chance(20) {
        spoil(&mut random, &mut packet);
        count = count.min(60);
    }
    if random.chance(20) {
        packet.header.name = samples::garbage_after(&mut random, packet.header.name);
    }
    if count > 300 {
        packet.header.frames = packet.header.frames.max(32).min(packet.most_frames());
    }
    finish(random, packet, count)
}

/// A case of packets about the borders of cutlist's blocks, which have 44.
pub fn long(mut random: Random) -> Case {
    let mut packet = form(&mut random);
    packet.header.frames = packet.header.frames.min(6);
    let count = usize::from(packet.header.frames) * random.pick(&[44, 45, 88, 89, 133]);
    if random.chance(20) {
        packet.header.name = samples::garbage_after(&mut random, packet.header.name);
    }
    finish(random, packet, count)
}

/// The case of a track of so many records, with its job file, and now and then an older capture.
fn finish(mut random: Random, packet: Packet, count: usize) -> Case {
    let mut input = track(&mut random, count, packet.header.data_type);
    if random.chance(12) {
        let more = random.count_between(1, RECORD - 1);
        input.extend(random.bytes(more));
    }
    let mut case = Case { input, ..Case::default() };
    put_job(&mut random, &packet, &mut case);
    match random.between(0, 49) {
        0 => case.block(CAPTURE),
        1..=5 => case.put(CAPTURE, random.bytes(40)),
        6..=8 => case.put(CAPTURE, random.bytes(20_000)),
        _ => {}
    }
    case
}

/// The sweep of that index.
pub fn sweep(index: usize, mut random: Random) -> Case {
    match index {
        0 => packet_a(random),
        1..=4 => ties_to_16(&mut random, index - 1),
        5..=7 => ties_to_8(&mut random, [-1, 0, 1][index - 5]),
        8..=71 => at_the_largest(&mut random, index - 8),
        72..=109 => refused_header(&mut random, index - 72),
        _ => length(&mut random, index - 110),
    }
}

fn case_of(packet: &Packet, input: Vec<u8>) -> Case {
    let mut case = Case { input, ..Case::default() };
    case.put(JOB, job(packet));
    case
}

/// The track that gives packet A of document 01's "Bench table".
fn packet_a(random: Random) -> Case {
    let name = *b"Hall4\0\0\0\0\0\0\0\0\0\0\0";
    let header = Header { rate: 3, frames: 1, channels: 2, data_type: 1, name, counter: 7 };
    let mut input = vec![0, 1, 0, 0, 0xFE, 0xFF];
    input.extend({ random }.bytes(RECORD - 6));
    case_of(&Packet::new([0x0A, 0, 0, 5], header), input)
}

/// A full track of given numbers, eight channels of a type.
fn numbers(random: &mut Random, data_type: u8, numbers: impl Iterator<Item = i64>) -> Case {
    let mut packet = form(random);
    let header = &mut packet.header;
    (header.data_type, header.channels) = (data_type, 8);
    header.frames = largest(data_type, 8).unwrap_or(1);
    let mut input = Vec::new();
    for number in numbers {
        let mut slot = [0; SLOT_BYTES];
        SLOT.put(number.clamp(SLOT.lowest, SLOT.highest), &mut slot);
        input.extend(slot);
    }
    case_of(&packet, input)
}

/// A quarter of the 65,536 ties of 24 bits to 16; the four cases have every one.
fn ties_to_16(random: &mut Random, quarter: usize) -> Case {
    let first = -32_768 + 16_384 * i64::try_from(quarter).unwrap_or(0);
    let ties = (first..first + 16_384).map(|below| below * STEP_24_TO_16 + STEP_24_TO_16 / 2);
    numbers(random, 1, ties)
}

/// Every tie of 24 bits to 8, or every number beside one.
fn ties_to_8(random: &mut Random, beside: i64) -> Case {
    let ties = (-128..128).map(|below| below * STEP_24_TO_8 + STEP_24_TO_8 / 2 + beside);
    numbers(random, 0, ties)
}

/// The largest N, and one more, of each type and channel count.
fn at_the_largest(random: &mut Random, index: usize) -> Case {
    let mut packet = form(random);
    let header = &mut packet.header;
    header.data_type = u8::try_from(index / 2 % 4).unwrap_or(0);
    header.channels = u16::try_from(index / 8 + 1).unwrap_or(1);
    let most = largest(header.data_type, header.channels).unwrap_or(1);
    header.frames = (most + u16::try_from(index % 2).unwrap_or(0)).min(256);
    let input = track(random, usize::from(most) + 2, packet.header.data_type);
    case_of(&packet, input)
}

/// Each sub protocol, codec, rate and type that is refused, and the reserved bit.
fn refused_header(random: &mut Random, index: usize) -> Case {
    let mut packet = form(random);
    let value = u8::try_from(index).unwrap_or(0);
    match value {
        0..=6 => packet.sub_protocol = value + 1,
        7..=21 => packet.codec = value - 6,
        22 => packet.reserved = 1,
        23..=33 => packet.header.rate = value - 2,
        _ => packet.header.data_type = value - 30,
    }
    let input = track(random, 3, 1);
    case_of(&packet, input)
}

/// Tracks about the shortest and the longest, in bytes, for a cut that is taken or is 20.
fn length(random: &mut Random, index: usize) -> Case {
    const LENGTHS: [usize; 12] =
        [0, 1, 23, 24, 25, 47, 48, LONGEST - 24, LONGEST - 1, LONGEST, LONGEST + 1, LONGEST + 24];
    let mut packet = form(random);
    packet.header.frames = packet.most_frames();
    if index >= 2 * LENGTHS.len() {
        packet.header.name = samples::garbage_after(random, packet.header.name);
    } else if index >= LENGTHS.len() {
        packet.header.channels = 9;
    }
    let bytes = LENGTHS[index % LENGTHS.len()];
    let mut input = track(random, bytes / RECORD + 1, packet.header.data_type);
    input.truncate(bytes);
    case_of(&packet, input)
}
