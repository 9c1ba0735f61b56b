//! tashmirok.h as it stands; what the caller owes is written there.

/// A take, of so many bytes as `tashmirok_take_size` says.
pub enum Take {}

/// A tally, of so many bytes as `tashmirok_tally_size` says, aligned to 4.
pub enum Tally {}

/// What following tells of a packet that is accepted; a refusal's is all zeros.
#[repr(C)]
#[derive(Clone, Copy, Debug, Default, PartialEq, Eq)]
pub struct Laid {
    pub place: u64,
    pub frames: u64,
    pub skipped: u64,
    pub spare: [u64; 5],
}

extern "C" {
    pub fn tashmirok_take_size() -> usize;
    pub fn tashmirok_tally_size() -> usize;
    pub fn tashmirok_open(
        take: *mut Take,
        name: *const u8,
        address: u32,
        track: *mut u8,
        track_length: usize,
    ) -> u8;
    pub fn tashmirok_follow(
        take: *mut Take,
        tally: *mut Tally,
        address: u32,
        datagram: *const u8,
        length: usize,
        track: *mut u8,
        track_length: usize,
        laid: *mut Laid,
    ) -> u8;
    pub fn tashmirok_clear_tally(tally: *mut Tally);
    pub fn tashmirok_count(tally: *const Tally, number: u8) -> u32;
    pub fn tashmirok_read(
        datagram: *const u8,
        length: usize,
        fields: *mut u32,
        name: *mut u8,
        size: *mut usize,
    ) -> u8;
    pub fn tashmirok_write(
        rate: u8,
        frames: u16,
        channels: u16,
        format: u8,
        name: *const u8,
        counter: u32,
        samples: *const u8,
        samples_length: usize,
        out: *mut u8,
        out_length: usize,
        written: *mut usize,
    ) -> u8;
    pub fn tashmirok_cut(
        rate: u8,
        frames: u16,
        channels: u16,
        format: u8,
        name: *const u8,
        start: u32,
        track: *const u8,
        track_length: usize,
        k: u32,
        out: *mut u8,
        out_length: usize,
        written: *mut usize,
    ) -> u8;
    pub fn tashmirok_largest(format: u8, channels: u16, frames: *mut u16) -> u8;
    pub fn tashmirok_rate(index: u8, hertz: *mut u32) -> u8;
    pub fn tashmirok_convert(from: u8, to: u8, number: i64, converted: *mut i64) -> u8;
    pub fn tashmirok_shape(take: *const Take, shape: *mut u32) -> u8;
}
