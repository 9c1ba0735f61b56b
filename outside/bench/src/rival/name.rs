//! Names, sixteen bytes at a time.

const ONES: u128 = u128::MAX / 255;
const TOPS: u128 = ONES << 7;

/// The characters of a name with zeros after them, as one number; none where the name breaks the rule.
#[inline]
pub fn kept(field: &[u8; 16]) -> Option<u128> {
    let name = u128::from_le_bytes(*field);
    // The lowest bit of `ends` is the top bit of the first zero byte; without one, all bytes count.
    let ends = name.wrapping_sub(ONES) & !name & TOPS;
    let before = ((ends & ends.wrapping_neg()) >> 7).wrapping_sub(1);
    let low = name & !TOPS;
    let bad = (name | !(low + ONES * 0x60) | (low + ONES)) & TOPS & before;
    (bad == 0 && before != 0).then_some(name & before)
}
