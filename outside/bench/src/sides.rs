//! Both implementations behind one face, so that they are handed the same.

use tashmirok::{raw, Form, Laid};

use crate::rival;

pub const NAME: &[u8; 16] = b"Hall4\0\0\0\0\0\0\0\0\0\0\0";
pub const DESK: u32 = 0x0A00_0005;

pub trait Side: 'static {
    /// A take opened on a track, and a cleared tally.
    fn open(track: &mut [u8]) -> Self;
    /// The take as it was just opened; the track stays.
    fn reopen(&mut self);
    fn follow(&mut self, address: u32, datagram: &[u8], track: &mut [u8], laid: &mut Laid) -> u8;
    fn cut(form: &Form, track: &[u8], k: u32, out: &mut [u8], written: &mut usize) -> u8;
    fn count(&self, number: u8) -> u32;
}

/// The firmware's archive.
pub struct Proved {
    take: Vec<u8>,
    opened: Vec<u8>,
    tally: Vec<u32>,
}

impl Side for Proved {
    fn open(track: &mut [u8]) -> Self {
        let (mut take, mut tally) = (vec![0; tashmirok::take_size()], vec![0; tashmirok::tally_words()]);
        assert_eq!(tashmirok::open(&mut take, NAME, DESK, track), 0);
        tashmirok::clear_tally(&mut tally);
        Proved { opened: take.clone(), take, tally }
    }

    fn reopen(&mut self) {
        self.take.copy_from_slice(&self.opened);
    }

    #[inline]
    fn follow(&mut self, address: u32, datagram: &[u8], track: &mut [u8], laid: &mut Laid) -> u8 {
        let (take, tally) = (self.take.as_mut_ptr().cast(), self.tally.as_mut_ptr().cast());
        let (heard, lent) = (datagram.as_ptr(), track.as_mut_ptr());
        // SAFETY: take and tally have the sizes that the archive asks for, and borrows are good and apart.
        unsafe { raw::tashmirok_follow(take, tally, address, heard, datagram.len(), lent, track.len(), laid) }
    }

    #[inline]
    fn cut(form: &Form, track: &[u8], k: u32, out: &mut [u8], written: &mut usize) -> u8 {
        tashmirok::cut(form, track, k, out, written)
    }

    fn count(&self, number: u8) -> u32 {
        tashmirok::count(&self.tally, number)
    }
}

/// The implementation beside it.
pub struct Rival {
    take: rival::Take,
    opened: rival::Take,
    tally: rival::Tally,
}

impl Side for Rival {
    fn open(track: &mut [u8]) -> Self {
        let (answer, take) = rival::open(NAME, DESK, track);
        assert_eq!(answer, 0);
        Rival { take, opened: take, tally: [0; 17] }
    }

    fn reopen(&mut self) {
        self.take = self.opened;
    }

    #[inline]
    fn follow(&mut self, address: u32, datagram: &[u8], track: &mut [u8], laid: &mut Laid) -> u8 {
        rival::follow(&mut self.take, &mut self.tally, address, datagram, track, laid)
    }

    #[inline]
    fn cut(form: &Form, track: &[u8], k: u32, out: &mut [u8], written: &mut usize) -> u8 {
        let Form { rate, frames, channels, format, name, counter } = *form;
        rival::cut(rate, frames, channels, format, name, counter, track, k, out, written)
    }

    fn count(&self, number: u8) -> u32 {
        self.tally.get(usize::from(number)).copied().unwrap_or(0)
    }
}
