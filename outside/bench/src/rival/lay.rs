//! Laying a packet's frames: eight numbers below 2^24 are three words of a record.

/// Numbers narrowed at a time, so that the compiler can narrow several with one instruction.
const BLOCK: usize = 128;

#[inline(always)]
fn put(words: [u64; 3], record: &mut [u8]) {
    for (to, word) in record.chunks_exact_mut(8).zip(words) {
        to.copy_from_slice(&word.to_le_bytes());
    }
}

#[inline(always)]
fn pack([a, b, c, d, e, f, g, h]: [u64; 8]) -> [u64; 3] {
    [a | b << 24 | c << 48, c >> 16 | d << 8 | e << 32 | f << 56, f >> 8 | g << 16 | h << 40]
}

/// A frame a turn, by a function of the frame's bytes.
#[inline(always)]
fn frames<const BYTES: usize>(data: &[u8], records: &mut [u8], words: impl Fn(&[u8; BYTES]) -> [u64; 3]) {
    for (record, frame) in records.chunks_exact_mut(24).zip(data.chunks_exact(BYTES)) {
        put(words(frame.try_into().expect("a frame's bytes")), record);
    }
}

/// Two frames a turn, and the one that may be left: not every compiler unrolls so small a loop.
#[inline(always)]
fn pairs<const BYTES: usize>(data: &[u8], records: &mut [u8], words: impl Fn(&[u8; BYTES]) -> [u64; 3]) {
    let (mut two, mut both) = (records.chunks_exact_mut(48), data.chunks_exact(2 * BYTES));
    for (records, frames) in two.by_ref().zip(both.by_ref()) {
        let (first, second) = frames.split_at(BYTES);
        put(words(first.try_into().expect("a frame's bytes")), &mut records[..24]);
        put(words(second.try_into().expect("a frame's bytes")), &mut records[24..]);
    }
    frames(both.remainder(), two.into_remainder(), words);
}

/// The slots of a frame, by a function of one sample's bytes.
#[inline(always)]
fn slots<const BYTES: usize, const SIZE: usize>(
    frame: &[u8; BYTES],
    slot: impl Fn([u8; SIZE]) -> u64,
) -> [u64; 3] {
    let mut slots = [0; 8];
    for (to, sample) in slots.iter_mut().zip(frame.chunks_exact(SIZE)) {
        *to = slot(sample.try_into().expect("a sample's bytes"));
    }
    pack(slots)
}

/// A sample's byte is the highest of its slot, so no two words share one.
#[inline(always)]
fn eight8(frame: &[u8; 8]) -> [u64; 3] {
    let all = u64::from_le_bytes(*frame) ^ 0x8080_8080_8080_8080;
    let byte = |at: u32| all >> (8 * at) & 0xFF;
    [
        byte(0) << 16 | byte(1) << 40,
        byte(2) | byte(3) << 24 | byte(4) << 48,
        byte(5) << 8 | byte(6) << 32 | byte(7) << 56,
    ]
}

fn lay8(channels: u16, data: &[u8], records: &mut [u8]) {
    let from8 = |[byte]: [u8; 1]| u64::from(byte) << 16 ^ 0x80_0000;
    match channels {
        1 => pairs::<1>(data, records, |frame| slots(frame, from8)),
        2 => frames::<2>(data, records, |frame| slots(frame, from8)),
        3 => frames::<3>(data, records, |frame| slots(frame, from8)),
        4 => frames::<4>(data, records, |frame| slots(frame, from8)),
        5 => frames::<5>(data, records, |frame| slots(frame, from8)),
        6 => frames::<6>(data, records, |frame| slots(frame, from8)),
        7 => frames::<7>(data, records, |frame| slots(frame, from8)),
        _ => frames::<8>(data, records, eight8),
    }
}

/// Eight channels: every slot has a sample, so four samples in a row become three words of four bytes.
fn halves(data: &[u8], records: &mut [u8]) {
    for (half, samples) in records.chunks_exact_mut(12).zip(data.chunks_exact(8)) {
        let word = |at: usize| u32::from_le_bytes(samples[at..at + 4].try_into().expect("two samples"));
        let (a, b) = (word(0), word(4));
        let words = [(a & 0xFFFF) << 8, a >> 16 | b << 24, b >> 8 & 0xFF | b & 0xFFFF_0000];
        for (to, word) in half.chunks_exact_mut(4).zip(words) {
            to.copy_from_slice(&word.to_le_bytes());
        }
    }
}

fn lay16(channels: u16, data: &[u8], records: &mut [u8]) {
    let from16 = |bytes: [u8; 2]| u64::from(u16::from_le_bytes(bytes)) << 8;
    match channels {
        1 => pairs::<2>(data, records, |frame| slots(frame, from16)),
        2 => pairs::<4>(data, records, |frame| slots(frame, from16)),
        3 => frames::<6>(data, records, |frame| slots(frame, from16)),
        4 => frames::<8>(data, records, |frame| slots(frame, from16)),
        5 => frames::<10>(data, records, |frame| slots(frame, from16)),
        6 => frames::<12>(data, records, |frame| slots(frame, from16)),
        7 => frames::<14>(data, records, |frame| slots(frame, from16)),
        _ => halves(data, records),
    }
}

fn two24(&[a, b, c, d, e, f]: &[u8; 6]) -> [u64; 3] {
    let (low, high) = (u32::from_le_bytes([a, b, c, d]), u16::from_le_bytes([e, f]));
    [u64::from(low) | u64::from(high) << 32, 0, 0]
}

fn lay24(channels: u16, data: &[u8], records: &mut [u8]) {
    let from24 = |[a, b, c]: [u8; 3]| u64::from(u32::from_le_bytes([a, b, c, 0]));
    match channels {
        1 => frames::<3>(data, records, |frame| slots(frame, from24)),
        2 => frames::<6>(data, records, two24),
        3 => frames::<9>(data, records, |frame| slots(frame, from24)),
        4 => frames::<12>(data, records, |frame| slots(frame, from24)),
        5 => frames::<15>(data, records, |frame| slots(frame, from24)),
        6 => frames::<18>(data, records, |frame| slots(frame, from24)),
        7 => frames::<21>(data, records, |frame| slots(frame, from24)),
        _ => records.copy_from_slice(data),
    }
}

/// The nearest 24 bits, the even ones at a tie.
#[inline(always)]
fn from32(bytes: &[u8]) -> u32 {
    super::near(i32::from_le_bytes(bytes.try_into().expect("a sample's bytes")), 8) as u32 >> 8
}

/// A block of samples narrowed, and then its frames laid.
#[inline(always)]
fn lay32<const CHANNELS: usize>(data: &[u8], records: &mut [u8]) {
    let (mut block, most) = ([0; BLOCK], BLOCK / CHANNELS);
    for (data, records) in data.chunks(most * CHANNELS * 4).zip(records.chunks_mut(most * 24)) {
        for (to, sample) in block.iter_mut().zip(data.chunks_exact(4)) {
            *to = from32(sample);
        }
        for (record, frame) in records.chunks_exact_mut(24).zip(block.chunks_exact(CHANNELS)) {
            let mut slots = [0; 8];
            for (to, &slot) in slots.iter_mut().zip(frame) {
                *to = u64::from(slot);
            }
            put(pack(slots), record);
        }
    }
}

pub fn lay(format: u8, channels: u16, data: &[u8], records: &mut [u8]) {
    match (format, channels) {
        (0, _) => lay8(channels, data, records),
        (1, _) => lay16(channels, data, records),
        (2, _) => lay24(channels, data, records),
        (_, 1) => lay32::<1>(data, records),
        (_, 2) => lay32::<2>(data, records),
        (_, 3) => lay32::<3>(data, records),
        (_, 4) => lay32::<4>(data, records),
        (_, 5) => lay32::<5>(data, records),
        (_, 6) => lay32::<6>(data, records),
        (_, 7) => lay32::<7>(data, records),
        _ => lay32::<8>(data, records),
    }
}
