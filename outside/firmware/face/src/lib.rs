//! The firmware's functions with slices in place of pointers and lengths. Each gives its answer's number.
//!
//! Takes and tallies are slices of the caller's, so that a test can see every byte of them.

pub mod raw;

pub use raw::Laid;

/// What a packet says of itself, as writing and cutting take it; a cut's counter is its start.
#[derive(Clone, Copy, Debug)]
pub struct Form<'a> {
    pub rate: u8,
    pub frames: u16,
    pub channels: u16,
    pub format: u8,
    pub name: &'a [u8; 16],
    pub counter: u32,
}

/// Bytes of a take.
pub fn take_size() -> usize {
    // SAFETY: it takes nothing.
    unsafe { raw::tashmirok_take_size() }
}

/// Words of four bytes that a tally has room in.
pub fn tally_words() -> usize {
    // SAFETY: it takes nothing.
    unsafe { raw::tashmirok_tally_size() }.div_ceil(4)
}

pub fn open(take: &mut [u8], name: &[u8; 16], address: u32, track: &mut [u8]) -> u8 {
    assert!(take.len() >= take_size());
    let (take, lent) = (take.as_mut_ptr().cast(), track.as_mut_ptr());
    // SAFETY: the take has its size, and borrows are good and apart.
    unsafe { raw::tashmirok_open(take, name.as_ptr(), address, lent, track.len()) }
}

pub fn follow(
    take: &mut [u8],
    tally: &mut [u32],
    address: u32,
    datagram: &[u8],
    track: &mut [u8],
    laid: &mut Laid,
) -> u8 {
    assert!(take.len() >= take_size() && tally.len() >= tally_words());
    // SAFETY: take and tally have their sizes, words are aligned to 4, and borrows are good and apart.
    unsafe {
        raw::tashmirok_follow(
            take.as_mut_ptr().cast(),
            tally.as_mut_ptr().cast(),
            address,
            datagram.as_ptr(),
            datagram.len(),
            track.as_mut_ptr(),
            track.len(),
            laid,
        )
    }
}

pub fn clear_tally(tally: &mut [u32]) {
    assert!(tally.len() >= tally_words());
    // SAFETY: the tally has its size, and words are aligned to 4.
    unsafe { raw::tashmirok_clear_tally(tally.as_mut_ptr().cast()) }
}

pub fn count(tally: &[u32], number: u8) -> u32 {
    assert!(tally.len() >= tally_words());
    // SAFETY: the tally has its size, and words are aligned to 4.
    unsafe { raw::tashmirok_count(tally.as_ptr().cast(), number) }
}

pub fn read(datagram: &[u8], fields: &mut [u32; 5], name: &mut [u8; 16], size: &mut usize) -> u8 {
    let (heard, length) = (datagram.as_ptr(), datagram.len());
    // SAFETY: arrays have their lengths, and borrows are good and apart.
    unsafe { raw::tashmirok_read(heard, length, fields.as_mut_ptr(), name.as_mut_ptr(), size) }
}

pub fn write(form: &Form, samples: &[u8], out: &mut [u8], written: &mut usize) -> u8 {
    // SAFETY: the name has 16 bytes, and borrows are good and apart.
    unsafe {
        raw::tashmirok_write(
            form.rate,
            form.frames,
            form.channels,
            form.format,
            form.name.as_ptr(),
            form.counter,
            samples.as_ptr(),
            samples.len(),
            out.as_mut_ptr(),
            out.len(),
            written,
        )
    }
}

pub fn cut(form: &Form, track: &[u8], k: u32, out: &mut [u8], written: &mut usize) -> u8 {
    // SAFETY: the name has 16 bytes, and borrows are good and apart.
    unsafe {
        raw::tashmirok_cut(
            form.rate,
            form.frames,
            form.channels,
            form.format,
            form.name.as_ptr(),
            form.counter,
            track.as_ptr(),
            track.len(),
            k,
            out.as_mut_ptr(),
            out.len(),
            written,
        )
    }
}

pub fn largest(format: u8, channels: u16, frames: &mut u16) -> u8 {
    // SAFETY: borrows are good.
    unsafe { raw::tashmirok_largest(format, channels, frames) }
}

pub fn rate(index: u8, hertz: &mut u32) -> u8 {
    // SAFETY: borrows are good.
    unsafe { raw::tashmirok_rate(index, hertz) }
}

pub fn convert(from: u8, to: u8, number: i64, converted: &mut i64) -> u8 {
    // SAFETY: borrows are good.
    unsafe { raw::tashmirok_convert(from, to, number, converted) }
}

pub fn shape(take: &[u8], shape: &mut [u32; 4]) -> u8 {
    assert!(take.len() >= take_size());
    // SAFETY: the take has its size, the array its length, and borrows are good and apart.
    unsafe { raw::tashmirok_shape(take.as_ptr().cast(), shape.as_mut_ptr()) }
}
