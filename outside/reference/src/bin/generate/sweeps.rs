//! Cases for takelist that go through a whole range: fields, lengths, name bytes, ties.

use crate::case::Case;
use crate::takes::{cut_last, Scene};
use reference::header::Header;
use reference::hostile::flaws::LENGTHS;
use reference::hostile::packet::Packet;
use reference::hostile::random::Random;

/// How many cases the sweeps are.
pub const COUNT: usize = 44;

/// Lengths of a capture's cut last record.
const LEFT: [usize; 8] = [1, 3, 4, 7, 8, 36, 40, 1_471];

/// Distances about the wrap and about half the range.
const JUMPS: [u32; 12] =
    [1, 0, u32::MAX, 0x7FFF_FFFF, 0x8000_0000, 0x8000_0001, 1, 0x7FFF_FFFE, 0xFFFF_FFFE, 2, 1, 0];

fn header(name: &[u8; 16], frames: u16, channels: u16, data_type: u8, counter: u32) -> Header {
    Header { rate: 3, frames, channels, data_type, name: *name, counter }
}

/// Packet A's stream, of document 01's "Bench table".
fn hall4(random: Random, counter: u32) -> Scene {
    let header = header(b"Hall4\0\0\0\0\0\0\0\0\0\0\0", 1, 2, 1, counter);
    Scene::of(random, Packet::new([0x0A, 0, 0, 5], header))
}

/// The sweep of that index.
pub fn case(index: usize, random: Random) -> Case {
    match index {
        0 => listing(random),
        1 => rates(random),
        2 => protocols_and_codecs(random),
        3 => types(random),
        4 => lengths(random),
        5..=7 => jumps(random, [0xFFFF_FFFE, 5, 0x8000_0000][index - 5]),
        8..=15 => name_bytes(random, (index - 8) * 32),
        16..=23 => cut_at(random, LEFT[index - 16]),
        24 => bytes(random),
        25..=32 => ties(random, i64::try_from(index - 25).unwrap_or(0)),
        33..=40 => many_channels(random, index - 33),
        41 => just_fits(random, 256),
        42 => just_fits(random, 255),
        _ => just_fits(random, 1),
    }
}

/// The worked listing: counters 7, 9, 8, and 10 from next door.
fn listing(random: Random) -> Case {
    let mut scene = hall4(random, 7);
    for counter in [7, 9, 8] {
        scene.hear(&scene.packet(counter, 1));
    }
    let mut packet = scene.packet(10, 1);
    packet.address[3] = 6;
    scene.hear(&packet);
    scene.case()
}

/// Every rate index, in the middle of a take.
fn rates(random: Random) -> Case {
    let mut scene = hall4(random, 0);
    scene.hear(&scene.wanted.clone());
    for rate in 0..32 {
        let mut packet = scene.packet(1 + u32::from(rate), 1);
        packet.header.rate = rate;
        scene.hear(&packet);
    }
    scene.case()
}

/// Every sub protocol, then every codec, with the reserved bit clear and set.
fn protocols_and_codecs(random: Random) -> Case {
    let mut scene = hall4(random, 0);
    for value in 0..24_u8 {
        let mut packet = scene.packet(value.into(), 1);
        packet.sub_protocol = if value < 8 { value } else { 0 };
        packet.codec = value.saturating_sub(8);
        packet.reserved = value % 3 / 2;
        scene.hear(&packet);
    }
    scene.case()
}

/// Every data type, with the reserved bit clear and set.
fn types(random: Random) -> Case {
    let mut scene = hall4(random, 0);
    for value in 0..16_u8 {
        let mut packet = scene.packet(value.into(), 1);
        packet.header.data_type = value % 8;
        packet.reserved = value / 8;
        scene.hear(&packet);
    }
    scene.case()
}

/// The edges of stated lengths, and lengths off by one.
fn lengths(random: Random) -> Case {
    let mut scene = hall4(random, 0);
    for (stated, counter) in LENGTHS.into_iter().chain([31, 33, 32]).zip(0..) {
        let mut packet = scene.packet(counter, 1);
        packet.stated = Some(stated);
        scene.hear(&packet);
    }
    scene.case()
}

/// Jumps of each kind from the newest accepted, starting where the counter wraps.
fn jumps(random: Random, start: u32) -> Case {
    let mut scene = hall4(random, start);
    scene.hear(&scene.wanted.clone());
    for d in JUMPS {
        let newest = scene.begun().map_or(start, |begun| begun.newest);
        scene.hear(&scene.packet(newest.wrapping_add(d), 1));
    }
    scene.case()
}

/// 32 values of one byte of the name, the take's name being Hall4 or all 16 characters.
fn name_bytes(mut random: Random, first: usize) -> Case {
    let at = random.count_between(0, 15);
    let mut scene = hall4(random, 0);
    if at > 4 {
        let header = Header { name: *b"Sixteen letters!", ..scene.wanted.header };
        scene = Scene::of(scene.random, Packet::new(scene.wanted.address, header));
    }
    for value in first..first + 32 {
        let mut packet = scene.packet(u32::try_from(value).unwrap_or(0), 1);
        packet.header.name[at] = u8::try_from(value).unwrap_or(0);
        scene.hear(&packet);
    }
    scene.case()
}

/// Two records and so many bytes of a third.
fn cut_at(random: Random, left: usize) -> Case {
    let mut scene = hall4(random, u32::MAX);
    scene.hear(&scene.wanted.clone());
    scene.hear(&scene.packet(0, 1));
    cut_last(&mut scene, left);
    scene.case()
}

/// A packet whose data are given, in place of any.
fn given(packet: &Packet, data: &[u8]) -> Packet {
    let noise = Some([&packet.header_bytes()[..], data].concat());
    Packet { noise, ..packet.clone() }
}

/// All 256 bytes of type 0, as one packet.
fn bytes(random: Random) -> Case {
    let header = header(b"Bytes\0\0\0\0\0\0\0\0\0\0\0", 256, 1, 0, 9);
    let mut scene = Scene::of(random, Packet::new([1, 2, 3, 4], header));
    let data: Vec<u8> = (0..=255).collect();
    scene.hear(&given(&scene.wanted, &data));
    scene.case()
}

/// 2,048 ties of 32 bits to 24, each in its own stretch of the range, and the numbers by the ends.
fn ties(mut random: Random, part: i64) -> Case {
    let header = header(b"Ties\0\0\0\0\0\0\0\0\0\0\0\0", 256, 1, 3, 0xFFFF_FFFC);
    let mut number = |stretch: i64| {
        let low = -8_388_608 + (stretch * 8 + part) * 1_024;
        let tie = random.between(low, low + 1_023) * 256 + 128;
        i32::try_from(tie).unwrap_or(i32::MAX)
    };
    let tied: Vec<i32> = (0..2_048).map(&mut number).collect();
    let mut scene = Scene::of(random, Packet::new([1, 2, 3, 4], header));
    for (chunk, k) in tied.chunks(256).zip(0..) {
        let mut data: Vec<u8> = chunk.iter().flat_map(|tie| tie.to_le_bytes()).collect();
        if k == 0 {
            let ends = [i32::MAX, i32::MIN, 2_147_483_520, 2_147_483_519, -2_147_483_520, -128];
            let ends = ends.iter().flat_map(|end| end.to_le_bytes());
            data.splice(..24, ends);
        }
        let counter = 0xFFFF_FFFC_u32.wrapping_add(k);
        scene.hear(&given(&scene.packet(counter, 256), &data));
    }
    scene.case()
}

/// Each channel count from 8 up to 256 by doublings, of each type, as first packets.
fn many_channels(random: Random, index: usize) -> Case {
    let data_type = u8::try_from(index % 4).unwrap_or(0);
    let header = header(b"Many\0\0\0\0\0\0\0\0\0\0\0\0", 1, 8, data_type, 1);
    let mut scene = Scene::of(random, Packet::new([1, 2, 3, 4], header));
    let channels = if index < 4 { [9, 16, 32, 8] } else { [255, 256, 10, 8] };
    for (channels, counter) in channels.into_iter().zip(1..) {
        let mut packet = scene.packet(counter, 1);
        packet.header.channels = channels;
        scene.hear(&packet);
    }
    scene.case()
}

/// Packets that end at the last record, one past it, and at it again with fewer frames.
fn just_fits(random: Random, n: u16) -> Case {
    let header = header(b"Fits\0\0\0\0\0\0\0\0\0\0\0\0", n, 1, 0, u32::MAX);
    let mut scene = Scene::of(random, Packet::new([1, 2, 3, 4], header));
    scene.hear(&scene.wanted.clone());
    let n = u32::from(n);
    let whole = 2_048 / n;
    for (k, frames) in [(whole, n), (whole, n.min(9)), (whole, 8), (whole - 1, n), (whole, 1)] {
        let frames = u16::try_from(frames.min(n)).unwrap_or(1);
        scene.hear(&scene.packet(u32::MAX.wrapping_add(k), frames));
    }
    scene.case()
}
