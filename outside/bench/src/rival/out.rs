//! Taking frames out of a track: a slot by one load of four bytes, and samples stored as words.

use std::array;

use super::near;

/// A slot in the top 24 bits of a number. Its load takes the byte after it too; the last one's takes the byte before it.
#[inline(always)]
fn slot(record: &[u8], slot: usize) -> i32 {
    let part = |at: usize| u32::from_le_bytes(record[at..at + 4].try_into().expect("four bytes"));
    match slot {
        7 => (part(20) & 0xFFFF_FF00) as i32,
        _ => (part(3 * slot) << 8) as i32,
    }
}

/// A frame a turn.
#[inline(always)]
fn frames<const SIZE: usize, const CHANNELS: usize>(
    records: &[u8],
    data: &mut [u8],
    sample: impl Fn(i32) -> [u8; SIZE],
) {
    for (record, frame) in records.chunks_exact(24).zip(data.chunks_exact_mut(SIZE * CHANNELS)) {
        for (at, to) in frame.chunks_exact_mut(SIZE).enumerate() {
            to.copy_from_slice(&sample(slot(record, at)));
        }
    }
}

/// As many frames a turn as make whole words of four bytes, each word by one store, and then the frames that are left.
#[inline(always)]
fn words<const BLOCK: usize, const WORDS: usize, const SIZE: usize, const CHANNELS: usize>(
    records: &[u8],
    data: &mut [u8],
    word: impl Fn(&[u8; BLOCK], usize) -> u32,
    sample: impl Fn(i32) -> [u8; SIZE],
) {
    let (blocks, last) = records.as_chunks::<BLOCK>();
    let (stored, left) = data.split_at_mut(blocks.len() * WORDS * 4);
    for (to, block) in stored.chunks_exact_mut(WORDS * 4).zip(blocks) {
        for (at, to) in to.chunks_exact_mut(4).enumerate() {
            to.copy_from_slice(&word(block, at).to_le_bytes());
        }
    }
    frames::<SIZE, CHANNELS>(last, left, sample);
}

/// The nearest 8 bits, the even ones at a tie.
#[inline(always)]
fn to8(slot: i32) -> [u8; 1] {
    [((near(slot, 24) >> 24) as u8) ^ 0x80]
}

#[inline(always)]
fn to16(slot: i32) -> [u8; 2] {
    ((near(slot, 16) >> 16) as i16).to_le_bytes()
}

#[inline(always)]
fn to32(slot: i32) -> [u8; 4] {
    slot.to_le_bytes()
}

/// Four samples of 8 bits in a word.
#[inline(always)]
fn four8(slots: [i32; 4]) -> u32 {
    let [a, b, c, d] = slots.map(|slot| u32::from(to8(slot)[0]));
    a | b << 8 | c << 16 | d << 24
}

/// Two of 16 bits: the second stands where it is stored.
#[inline(always)]
fn two16([a, b]: [i32; 2]) -> u32 {
    near(a, 16) as u32 >> 16 | near(b, 16) as u32 & 0xFFFF_0000
}

/// A frame's bytes of 24 bits are the first of its record. Of a block of eight frames each is stored longer than it is: the next one goes
/// over what is too much, and the first of the next block over what the last leaves.
#[inline(always)]
fn out24<const BYTES: usize, const STORED: usize, const BLOCK: usize>(records: &[u8], data: &mut [u8]) {
    let (mut records, mut data) = (records, data);
    while let (Some((block, after)), Some(to)) =
        (records.split_first_chunk::<192>(), data.first_chunk_mut::<BLOCK>())
    {
        for (at, record) in block.chunks_exact(24).enumerate() {
            to[BYTES * at..BYTES * at + STORED].copy_from_slice(&record[..STORED]);
        }
        (records, data) = (after, &mut data[8 * BYTES..]);
    }
    bytes24::<BYTES>(records, data);
}

#[inline(always)]
fn bytes24<const BYTES: usize>(records: &[u8], data: &mut [u8]) {
    for (record, frame) in records.chunks_exact(24).zip(data.chunks_exact_mut(BYTES)) {
        frame.copy_from_slice(&record[..BYTES]);
    }
}

/// The two slots in a word's lowest six bytes, as samples of 32 bits in a word.
#[inline(always)]
fn low(word: &[u8]) -> [u8; 8] {
    let word = u64::from_le_bytes(word.try_into().expect("eight bytes"));
    (word << 8 & 0xFFFF_FF00 | word << 16 & 0xFFFF_FF00_0000_0000).to_le_bytes()
}

/// Those in its highest six, of which one needs no shift.
#[inline(always)]
fn high(word: &[u8]) -> [u8; 8] {
    let word = u64::from_le_bytes(word.try_into().expect("eight bytes"));
    (word >> 8 & 0xFFFF_FF00 | word & 0xFFFF_FF00_0000_0000).to_le_bytes()
}

#[inline(always)]
fn two32(records: &[u8], data: &mut [u8]) {
    for (to, record) in data.chunks_exact_mut(8).zip(records.chunks_exact(24)) {
        to.copy_from_slice(&low(&record[..8]));
    }
}

/// Eight channels are pairs side by side through all records; only before the first are no bytes.
#[inline(always)]
fn eight32(records: &[u8], data: &mut [u8]) {
    if let Some((to, rest)) = data.split_first_chunk_mut() {
        *to = low(&records[..8]);
        for (to, word) in rest.chunks_exact_mut(8).zip(records[4..].windows(8).step_by(6)) {
            to.copy_from_slice(&high(word));
        }
    }
}

/// One loop for each number of channels.
macro_rules! by_channels {
    ($channels:expr, $records:expr, $data:expr, $size:literal, $sample:expr) => {
        match $channels {
            1 => frames::<$size, 1>($records, $data, $sample),
            2 => frames::<$size, 2>($records, $data, $sample),
            3 => frames::<$size, 3>($records, $data, $sample),
            4 => frames::<$size, 4>($records, $data, $sample),
            5 => frames::<$size, 5>($records, $data, $sample),
            6 => frames::<$size, 6>($records, $data, $sample),
            7 => frames::<$size, 7>($records, $data, $sample),
            _ => frames::<$size, 8>($records, $data, $sample),
        }
    };
}

pub fn take_out(format: u8, channels: u16, records: &[u8], data: &mut [u8]) {
    match (format, channels) {
        (0, 1) => words::<96, 1, 1, 1>(
            records,
            data,
            |block, _| four8(array::from_fn(|at| slot(&block[24 * at..], 0))),
            to8,
        ),
        (0, 2) => words::<48, 1, 1, 2>(
            records,
            data,
            |block, _| four8(array::from_fn(|at| slot(&block[24 * (at / 2)..], at % 2))),
            to8,
        ),
        (0, 8) => words::<24, 2, 1, 8>(
            records,
            data,
            |record, word| four8(array::from_fn(|at| slot(record, 4 * word + at))),
            to8,
        ),
        (0, _) => by_channels!(channels, records, data, 1, to8),
        (1, 1) => words::<48, 1, 2, 1>(
            records,
            data,
            |block, _| two16(array::from_fn(|at| slot(&block[24 * at..], 0))),
            to16,
        ),
        (1, 2) => {
            words::<24, 1, 2, 2>(records, data, |record, _| two16([slot(record, 0), slot(record, 1)]), to16)
        }
        (1, 8) => words::<24, 4, 2, 8>(
            records,
            data,
            |record, word| two16([slot(record, 2 * word), slot(record, 2 * word + 1)]),
            to16,
        ),
        (1, _) => by_channels!(channels, records, data, 2, to16),
        (2, 1) => out24::<3, 4, 25>(records, data),
        (2, 2) => out24::<6, 8, 50>(records, data),
        (2, 3) => bytes24::<9>(records, data),
        (2, 4) => bytes24::<12>(records, data),
        (2, 5) => bytes24::<15>(records, data),
        (2, 6) => bytes24::<18>(records, data),
        (2, 7) => bytes24::<21>(records, data),
        (2, _) => data.copy_from_slice(records),
        (_, 2) => two32(records, data),
        (_, 8) => eight32(records, data),
        _ => by_channels!(channels, records, data, 4, to32),
    }
}
