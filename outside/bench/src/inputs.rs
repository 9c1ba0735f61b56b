//! What both sides are handed: a shape, its packets, and a track of which every slot is filled.

use tashmirok::Form;

use crate::sides::NAME;

pub const RECORD: usize = 24;
/// A track that stays in a processor's first cache, so that the code is timed and not the memory.
pub const RECORDS: usize = 1024;

/// A data type, a number of channels and a number of frames.
#[derive(Clone, Copy)]
pub struct Shape {
    pub format: u8,
    pub channels: u16,
    pub frames: u16,
}

impl Shape {
    /// With the largest N.
    pub fn largest(format: u8, channels: u16) -> Self {
        let mut frames = 0;
        assert_eq!(tashmirok::largest(format, channels, &mut frames), 0);
        Shape { format, channels, frames }
    }

    pub fn data(&self) -> usize {
        usize::from(self.frames) * usize::from(self.channels) * (usize::from(self.format) + 1)
    }

    /// How many whole packets fit the track.
    pub fn packets(&self) -> u32 {
        (RECORDS / usize::from(self.frames)) as u32
    }

    pub fn form(&self) -> Form<'static> {
        Form {
            rate: 3,
            frames: self.frames,
            channels: self.channels,
            format: self.format,
            name: NAME,
            counter: 7,
        }
    }

    /// A packet of bytes among which are ends and ties of every narrowing.
    pub fn datagram(&self) -> Vec<u8> {
        let mut packet = vec![0; 28 + self.data()];
        let (form, data, mut written) = (self.form(), bytes(self.data()), 0);
        assert_eq!(tashmirok::write(&form, &data, &mut packet, &mut written), 0);
        packet
    }
}

/// Any bytes, every fourth word of them an end or a tie.
pub fn bytes(length: usize) -> Vec<u8> {
    let mut state = 0x9E37_79B9_7F4A_7C15_u64;
    let mut bytes = Vec::with_capacity(length + 12);
    while bytes.len() < length {
        state = state.wrapping_mul(0xD128_9B8F_0F73_3B5D).wrapping_add(1);
        let [a, b, c, d, e, f, g, h] = state.to_le_bytes();
        bytes.extend([h, a, d, b, f, c, g, e]);
        bytes.extend(match a % 4 {
            0 => [0x80, b & 1, c, d],
            1 => [0x7C + b % 8, 0xFF, 0xFF, 0x7F],
            2 => [0x00, 0x80, b & 3, d],
            _ => [0xFF, 0xFF, 0x7F, 0x80],
        });
    }
    bytes.truncate(length);
    bytes
}
