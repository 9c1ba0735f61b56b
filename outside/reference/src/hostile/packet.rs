//! A datagram as its fields, each of which a case may spoil before the bytes are made.

use crate::capture::RECORD;
use crate::header::{Header, HEADER, MARK, MOST, MOST_DATA};
use crate::hostile::random::Random;
use crate::hostile::samples;

#[derive(Clone)]
pub struct Packet {
    pub address: [u8; 4],
    pub mark: [u8; 4],
    pub sub_protocol: u8,
    pub codec: u8,
    pub reserved: u8,
    pub header: Header,
    /// Bytes added to the data, or taken from the end of the datagram.
    pub change: isize,
    /// A length to state in place of the datagram's own.
    pub stated: Option<u32>,
    /// Other bytes in place of the whole datagram.
    pub noise: Option<Vec<u8>>,
}

impl Packet {
    pub fn new(address: [u8; 4], header: Header) -> Self {
        let (sub_protocol, codec, reserved) = (0, 0, 0);
        let (change, stated, noise) = (0, None, None);
        Packet { address, mark: MARK, sub_protocol, codec, reserved, header, change, stated, noise }
    }

    /// The most frames that the packet's data has room for.
    pub fn most_frames(&self) -> u16 {
        let size = [1, 2, 3, 4, 4, 8, 2, 2][usize::from(self.header.data_type % 8)];
        let fit = MOST_DATA / (usize::from(self.header.channels.max(1)) * size);
        u16::try_from(fit).map_or(256, |fit| fit.clamp(1, 256))
    }

    /// The 28 bytes, raw, since a spoilt header is not one that the writer makes.
    pub fn header_bytes(&self) -> [u8; HEADER] {
        let header = &self.header;
        let mut bytes = [0; HEADER];
        bytes[..4].copy_from_slice(&self.mark);
        bytes[4] = self.sub_protocol * 32 + header.rate;
        bytes[5] = u8::try_from(header.frames - 1).unwrap_or(255);
        bytes[6] = u8::try_from(header.channels - 1).unwrap_or(255);
        bytes[7] = self.codec * 16 + self.reserved * 8 + header.data_type;
        bytes[8..24].copy_from_slice(&header.name);
        bytes[24..].copy_from_slice(&header.counter.to_le_bytes());
        bytes
    }

    /// The datagram's bytes, the change of length included.
    pub fn bytes(&self, random: &mut Random) -> Vec<u8> {
        if let Some(noise) = &self.noise {
            return noise.clone();
        }
        let numbers = usize::from(self.header.frames) * usize::from(self.header.channels);
        let data = samples::data(random, self.header.data_type, numbers);
        let mut bytes = [&self.header_bytes()[..], &data].concat();
        let length = bytes.len().saturating_add_signed(self.change);
        bytes.resize(length, 0x5A);
        bytes
    }

    /// The capture record; its padding is zero or noise, since padding isn't looked at.
    pub fn record(&self, random: &mut Random) -> [u8; RECORD] {
        let bytes = self.bytes(random);
        let length = self.stated.unwrap_or(u32::try_from(bytes.len()).unwrap_or(u32::MAX));
        let held = bytes.len().min(MOST);
        let mut record = [0; RECORD];
        if random.chance(30) {
            record.fill_with(|| random.byte_between(0, 255));
        }
        record[..4].copy_from_slice(&self.address);
        record[4..8].copy_from_slice(&length.to_le_bytes());
        record[8..8 + held].copy_from_slice(&bytes[..held]);
        record
    }
}
