//! Bytes lent to a call, with others around them that it may not touch.

const AROUND: usize = 32;
const UNUSED: u8 = 0x5A;

/// Lent bytes; they start where nothing is aligned to.
pub struct Lent {
    room: Vec<u8>,
    length: usize,
}

impl Lent {
    pub fn new(bytes: &[u8]) -> Self {
        let mut room = vec![UNUSED; AROUND + bytes.len() + AROUND];
        // One byte past a place that the allocator aligns.
        room[AROUND + 1..][..bytes.len()].copy_from_slice(bytes);
        Lent { room, length: bytes.len() }
    }

    pub fn garbage(length: usize) -> Self {
        Lent::new(&vec![0xA5; length])
    }

    pub fn bytes(&self) -> &[u8] {
        &self.room[AROUND + 1..][..self.length]
    }

    pub fn bytes_mut(&mut self) -> &mut [u8] {
        &mut self.room[AROUND + 1..][..self.length]
    }

    /// Whether nothing before or after them was written.
    pub fn kept_around(&self) -> bool {
        let (before, rest) = self.room.split_at(AROUND + 1);
        before.iter().chain(&rest[self.length..]).all(|&byte| byte == UNUSED)
    }
}

/// A tally's words between two more.
pub struct Words(Vec<u32>);

impl Words {
    pub fn new() -> Self {
        Words(vec![u32::from_le_bytes([UNUSED; 4]); tashmirok::tally_words() + 2])
    }

    pub fn words(&self) -> &[u32] {
        &self.0[1..self.0.len() - 1]
    }

    pub fn words_mut(&mut self) -> &mut [u32] {
        let end = self.0.len() - 1;
        &mut self.0[1..end]
    }

    pub fn kept_around(&self) -> bool {
        [self.0[0], self.0[self.0.len() - 1]] == [u32::from_le_bytes([UNUSED; 4]); 2]
    }
}
