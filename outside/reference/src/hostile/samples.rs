//! Hostile sample numbers, names and counters, for packets and for tracks.

use crate::convert::Format;
use crate::hostile::random::Random;

/// How many of a wide type's numbers one step of a narrower type spans.
pub const STEP_32_TO_24: i64 = 256;
pub const STEP_24_TO_16: i64 = 256;
pub const STEP_24_TO_8: i64 = 65_536;

/// A number of a type: its ends, a tie of a step, one beside a tie, near silence, or any.
pub fn number(random: &mut Random, format: &Format, step: i64) -> i64 {
    let (lowest, highest, zero) = (format.lowest, format.highest, format.zero);
    let tie = zero + random.between(lowest / step, highest / step) * step + step / 2;
    let number = match random.between(0, 9) {
        0 => random.pick(&[lowest, highest]),
        1 => random.pick(&[highest - step / 2, highest - step / 2 + 1, lowest + step / 2]),
        2..=4 => tie,
        5 => tie + random.pick(&[-1, 1]),
        6 => zero + random.between(-2 * step, 2 * step),
        7 => zero + random.pick(&[-1, 0, 1]),
        _ => random.between(lowest, highest),
    };
    number.clamp(lowest, highest)
}

/// Packet data of so many numbers of a type, 0 to 3, or any bytes for the types refused.
pub fn data(random: &mut Random, data_type: u8, numbers: usize) -> Vec<u8> {
    let Some(format) = Format::of(data_type) else {
        let size = [4, 8, 2, 2][usize::from(data_type % 4)];
        return random.bytes(numbers * size);
    };
    let step = if data_type == 3 { STEP_32_TO_24 } else { 2 };
    let mut bytes = vec![0; numbers * format.size];
    for sample in bytes.chunks_exact_mut(format.size) {
        format.put(number(random, format, step), sample);
    }
    bytes
}

/// A good name of 1 to 16 characters, zeros after it, or garbage after its first zero.
pub fn name(random: &mut Random) -> [u8; 16] {
    let length = random.pick(&[1, 1, 4, 5, 8, 15, 16, 16]);
    let mut field = [0; 16];
    field[..length].fill_with(|| random.pick(b" Hal4Main~!z"));
    if random.chance(20) {
        field[..length].fill_with(|| random.byte_between(0x20, 0x7E));
    }
    field
}

/// The same name with garbage after its first zero, where it has one.
pub fn garbage_after(random: &mut Random, mut field: [u8; 16]) -> [u8; 16] {
    let end = crate::names::characters(&field).len();
    if let Some(rest) = field.get_mut(end + 1..) {
        rest.fill_with(|| random.byte_between(0, 255));
    }
    field
}

/// Another good name that is close to this one: longer, shorter, or one character off.
pub fn neighbour(random: &mut Random, field: [u8; 16]) -> [u8; 16] {
    let end = crate::names::characters(&field).len();
    let mut other = field;
    match random.between(0, 2) {
        0 if end < 16 => {
            other[end] = random.pick(b" 2x");
            other[(end + 1).min(16)..].fill(0);
        }
        1 if end > 1 => other[end - 1] = 0,
        _ => {
            let at = random.count_between(0, end.saturating_sub(1));
            other[at] = if field[at] == b'~' { b' ' } else { field[at].wrapping_add(1) };
        }
    }
    other
}

/// A name that breaks the rule: empty, or with a byte outside 20 to 7E before its first zero.
pub fn bad_name(random: &mut Random, mut field: [u8; 16]) -> [u8; 16] {
    let end = crate::names::characters(&field).len();
    if random.chance(30) {
        field[0] = 0;
    } else {
        let at = random.count_between(0, end.saturating_sub(1));
        field[at] = random.pick(&[0x01, 0x0A, 0x1F, 0x7F, 0x80, 0xA0, 0xC8, 0xFF]);
    }
    field
}

/// A starting counter, often close to the wrap or to half the range.
pub fn counter(random: &mut Random) -> u32 {
    let near = random.pick(&[0, 0, 0x7FFF_FFFF, 0x8000_0000, u32::MAX]);
    let step = u32::try_from(random.between(0, 12)).unwrap_or(0);
    match random.between(0, 3) {
        0 => near.wrapping_add(step),
        1 | 2 => near.wrapping_sub(step),
        _ => u32::try_from(random.between(0, u32::MAX.into())).unwrap_or(0),
    }
}

/// A counter of a begun take: next, lost, repeated, late, or a jump of about half the range.
pub fn counter_after(random: &mut Random, newest: u32) -> u32 {
    let few = u32::try_from(random.between(2, 6)).unwrap_or(2);
    let half = 0x8000_0000_u32;
    let d = match random.between(0, 11) {
        0..=4 => 1,
        5 | 6 => few,
        7 => 0,
        8 | 9 => few.wrapping_neg() + 1,
        10 => random.pick(&[half - 2, half - 1, half, half + 1]),
        _ => u32::try_from(random.between(0, u32::MAX.into())).unwrap_or(0),
    };
    newest.wrapping_add(d)
}
