//! Document 01, "Sample numbers": exact values, and the nearest number a type has.

use crate::refusal::check;
use crate::Refusal;

/// One data type: its size in bytes, its lowest and highest number, and its number for silence.
#[derive(Debug)]
pub struct Format {
    pub size: usize,
    pub lowest: i64,
    pub highest: i64,
    pub zero: i64,
}

/// Types 0 to 3: unsigned 8-bit, signed 16, 24 and 32-bit.
const FORMATS: [Format; 4] = [
    Format { size: 1, lowest: 0, highest: 255, zero: 128 },
    Format { size: 2, lowest: -32_768, highest: 32_767, zero: 0 },
    Format { size: 3, lowest: -8_388_608, highest: 8_388_607, zero: 0 },
    Format { size: 4, lowest: -2_147_483_648, highest: 2_147_483_647, zero: 0 },
];

/// A track's slots are signed 24-bit numbers.
pub const SLOT: &Format = &FORMATS[2];

impl Format {
    /// The type of that number, if it is one of the four handled.
    pub fn of(data_type: u8) -> Option<&'static Format> {
        FORMATS.get(usize::from(data_type))
    }

    pub fn has(&self, number: i64) -> bool {
        (self.lowest..=self.highest).contains(&number)
    }

    /// What a number is over, to give the value it stands for: 2^(w-1), or 128.
    fn whole(&self) -> i128 {
        i128::from(self.highest - self.zero) + 1
    }

    /// The number in little-endian bytes; past the highest the top bit is set, so it is negative.
    pub fn number(&self, bytes: &[u8]) -> i64 {
        let raw = bytes.iter().rev().fold(0, |sum, &byte| sum * 256 + i64::from(byte));
        if raw > self.highest {
            raw - (self.highest - self.lowest + 1)
        } else {
            raw
        }
    }

    /// Puts the number's little-endian bytes, one for each byte of its size.
    pub fn put(&self, number: i64, bytes: &mut [u8]) {
        bytes.copy_from_slice(&number.to_le_bytes()[..self.size]);
    }
}

/// The whole number nearest to p / q, the even one at a tie; q is over 0.
fn nearest(p: i128, q: i128) -> i128 {
    let (below, over) = (p.div_euclid(q), p.rem_euclid(q));
    let up = match (2 * over).cmp(&q) {
        std::cmp::Ordering::Less => false,
        std::cmp::Ordering::Equal => below.rem_euclid(2) == 1,
        std::cmp::Ordering::Greater => true,
    };
    below + i128::from(up)
}

/// The number of `to` nearest to what `number` of `from` stands for, past an end that end.
pub fn carried(from: &Format, to: &Format, number: i64) -> i64 {
    let exact = i128::from(number - from.zero) * to.whole();
    let rounded = nearest(exact, from.whole()) + i128::from(to.zero);
    let clipped = rounded.clamp(i128::from(to.lowest), i128::from(to.highest));
    i64::try_from(clipped).expect("a type's ends are 64-bit numbers")
}

/// Converting one number: 20 for a type over 3, then 26 for a number its type doesn't have.
pub fn convert(from: u8, to: u8, number: i64) -> Result<i64, Refusal> {
    let from = Format::of(from).ok_or(Refusal::Form)?;
    let to = Format::of(to).ok_or(Refusal::Form)?;
    check(from.has(number), Refusal::Sample)?;
    Ok(carried(from, to, number))
}
