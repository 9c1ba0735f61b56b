//! Packet A of document 01's "Bench table", byte by byte, and small helpers.
#![allow(dead_code)]

use reference::capture;
use reference::header::Header;
use reference::take::{open, Take, Tally};

pub const HALL4: [u8; 16] = *b"Hall4\0\0\0\0\0\0\0\0\0\0\0";
pub const DESK: [u8; 4] = [0x0A, 0, 0, 5];
pub const NEXT_DOOR: [u8; 4] = [0x0A, 0, 0, 6];

/// Packet A as the paper prints it.
pub const A: [u8; 32] = [
    0x56, 0x42, 0x41, 0x4E, 0x03, 0x00, 0x01, 0x01, 0x48, 0x61, 0x6C, 0x6C, 0x34, 0, 0, 0, 0, 0, 0,
    0, 0, 0, 0, 0, 0x07, 0, 0, 0, 0x01, 0x00, 0xFE, 0xFF,
];

/// The record of packet A as the paper prints it.
pub const A_RECORD: [u8; 24] =
    [0x00, 0x01, 0x00, 0x00, 0xFE, 0xFF, 0, 0, 0, 0, 0, 0, 0, 0, 0, 0, 0, 0, 0, 0, 0, 0, 0, 0];

/// The header of packet A.
pub const A_HEADER: Header =
    Header { rate: 3, frames: 1, channels: 2, data_type: 1, name: HALL4, counter: 7 };

/// Packet A with another counter.
pub fn a_with(counter: u32) -> Vec<u8> {
    let mut packet = A.to_vec();
    packet[24..28].copy_from_slice(&counter.to_le_bytes());
    packet
}

/// Packet A with one byte changed.
pub fn a_but(index: usize, byte: u8) -> Vec<u8> {
    let mut packet = A.to_vec();
    packet[index] = byte;
    packet
}

/// A take of Hall4 with a track of that many records, opened and cleared.
pub fn opened(records: usize) -> (Take, Vec<u8>, Tally) {
    let mut track = vec![0xEE; records * 24];
    let take = open(&HALL4, DESK, &mut track).expect("Hall4 is a good name");
    (take, track, Tally::default())
}

/// A capture of datagrams, each with its sender's address.
pub fn captured(heard: &[([u8; 4], Vec<u8>)]) -> Vec<u8> {
    let record = |(address, datagram): &([u8; 4], Vec<u8>)| capture::record(*address, datagram);
    heard.iter().flat_map(|one| record(one).expect("it has room")).collect()
}
