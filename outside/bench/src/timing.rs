//! Rounds of calls by the clock.

use std::hint::black_box;
use std::time::Instant;

use tashmirok::Laid;

use crate::inputs::{bytes, Shape, RECORD, RECORDS};
use crate::sides::{Side, DESK};

const ROUNDS: usize = 40;
const NANOSECONDS: f64 = 200_000.0;

/// A load whose place in its page is that of a byte just stored has to wait, so every pass lends bytes at another place of a page:
/// those of a run are spread over the page, and other runs have the places between.
const PAGE: usize = 4096;
const PASS_STEP: usize = 816;
const RUN_STEP: usize = 272;

/// What every side is lent: the same bytes at the same places.
pub struct Lent {
    track: Vec<u8>,
    out: Vec<u8>,
    datagram: Vec<u8>,
    at: usize,
}

impl Lent {
    /// A filled track, for cutting, and a datagram, for following.
    pub fn new(datagram: Vec<u8>) -> Self {
        Lent { track: bytes(RECORDS * RECORD + PAGE), out: vec![0; 1464 + PAGE], datagram, at: 0 }
    }

    /// The track, the output and the datagram. The compiler is told nothing of them, and that once a sweep: at each call a slice's
    /// pointer and length would be stored one by one and loaded as one, which takes longer than some of the calls.
    fn parts(&mut self) -> (&mut [u8], &mut [u8], &mut [u8]) {
        let at = self.at;
        black_box((
            &mut self.track[at..at + RECORDS * RECORD],
            &mut self.out[at..at + 1464],
            &mut self.datagram[..],
        ))
    }
}

/// One of the things timed beside each other: makes so many sweeps and gives the calls made.
pub type Sweep = Box<dyn FnMut(usize, &mut Lent) -> usize>;

/// Nanoseconds a call of some sweeps.
fn clock(sweep: &mut Sweep, sweeps: usize, lent: &mut Lent) -> f64 {
    let began = Instant::now();
    let calls = sweep(sweeps, lent);
    began.elapsed().as_nanos() as f64 / calls as f64
}

/// How many sweeps last a round.
fn sweeps_of(sweep: &mut Sweep, lent: &mut Lent) -> usize {
    let mut sweeps = 1;
    loop {
        let began = Instant::now();
        sweep(sweeps, lent);
        let took = began.elapsed().as_nanos() as f64;
        if took > NANOSECONDS / 4.0 {
            return ((NANOSECONDS / took * sweeps as f64) as usize).max(1);
        }
        sweeps *= 2;
    }
}

/// Things that are timed beside each other.
pub struct Race {
    sweeps: Vec<Sweep>,
    counts: Vec<usize>,
    times: Vec<Vec<f64>>,
    lent: Lent,
}

impl Race {
    pub fn new(mut sweeps: Vec<Sweep>, mut lent: Lent) -> Self {
        let counts = sweeps.iter_mut().map(|sweep| sweeps_of(sweep, &mut lent)).collect();
        Race { times: vec![Vec::new(); sweeps.len()], sweeps, counts, lent }
    }

    /// Some rounds in which all take turns.
    pub fn run(&mut self, pass: usize, run: usize) {
        self.lent.at = (pass * PASS_STEP + run * RUN_STEP) % PAGE;
        for _ in 0..ROUNDS {
            for ((sweep, &count), times) in self.sweeps.iter_mut().zip(&self.counts).zip(&mut self.times) {
                times.push(clock(sweep, count, &mut self.lent));
            }
        }
    }

    /// The first one's time to another's, the middle of all rounds: what else the machine does tells on both sides of a round.
    pub fn ratio(&self, other: usize) -> Option<f64> {
        let mut ratios: Vec<f64> =
            self.times[0].iter().zip(self.times.get(other)?).map(|(a, b)| a / b).collect();
        ratios.sort_by(f64::total_cmp);
        Some(ratios[ratios.len() / 2])
    }

    /// Nanoseconds a call: a time that one round in twenty stays under, as what else the machine does can only add to a round.
    pub fn times(mut self) -> Vec<f64> {
        self.times.iter_mut().for_each(|times| times.sort_by(f64::total_cmp));
        self.times.iter().map(|times| times[times.len() / 20]).collect()
    }
}

/// Follows a track full of accepted packets from a fresh take, again and again.
pub fn accepted<S: Side>(shape: Shape) -> Sweep {
    let mut side = S::open(&mut []);
    Box::new(move |sweeps, lent| {
        let (track, _, datagram) = lent.parts();
        let (mut answers, mut laid) = (0, Laid::default());
        for _ in 0..sweeps {
            side.reopen();
            for counter in 0..shape.packets() {
                datagram[24..28].copy_from_slice(&counter.to_le_bytes());
                answers |= side.follow(DESK, datagram, track, &mut laid);
            }
        }
        assert_eq!(answers, 0);
        sweeps * shape.packets() as usize
    })
}

/// Follows one datagram that is refused, on a take that was begun.
pub fn refused<S: Side>(address: u32, due: u8) -> Sweep {
    const CALLS: usize = 64;
    let (mut first, begin) = (vec![0; RECORDS * RECORD], Shape::largest(1, 2).datagram());
    let mut side = S::open(&mut first);
    assert_eq!(side.follow(DESK, &begin, &mut first, &mut Laid::default()), 0);
    Box::new(move |sweeps, lent| {
        let (track, _, datagram) = lent.parts();
        let (mut same, mut laid) = (true, Laid::default());
        for _ in 0..sweeps * CALLS {
            same &= side.follow(address, datagram, track, &mut laid) == due;
        }
        assert!(same);
        sweeps * CALLS
    })
}

/// Cuts every whole packet of a track.
pub fn cut<S: Side>(shape: Shape) -> Sweep {
    Box::new(move |sweeps, lent| {
        let (track, out, _) = lent.parts();
        let (mut answers, mut written, form) = (0, 0, black_box(shape.form()));
        for _ in 0..sweeps {
            for k in 0..shape.packets() {
                answers |= S::cut(&form, track, k, out, &mut written);
            }
        }
        assert_eq!(answers, 0);
        sweeps * shape.packets() as usize
    })
}

/// Clears by plain stores, which on some processors are faster than the system's way.
fn clear(bytes: &mut [u8]) {
    let zero = black_box(0_u64);
    for word in bytes.chunks_exact_mut(8) {
        word.copy_from_slice(&zero.to_le_bytes());
    }
    black_box(bytes.as_mut_ptr());
}

/// The least that following does: as many bytes cleared as are written, at the same places.
pub fn cleared(shape: Shape) -> Sweep {
    let part = usize::from(shape.frames) * RECORD;
    Box::new(move |sweeps, lent| {
        let (track, _, _) = lent.parts();
        for _ in 0..sweeps {
            for k in 0..shape.packets() as usize {
                clear(&mut track[k * part..(k + 1) * part]);
            }
        }
        sweeps * shape.packets() as usize
    })
}

/// The least that cutting does: as many bytes copied as are written, from the same places.
pub fn copied(shape: Shape) -> Sweep {
    let (length, part) = (28 + shape.data(), usize::from(shape.frames) * RECORD);
    Box::new(move |sweeps, lent| {
        let (track, out, _) = lent.parts();
        for _ in 0..sweeps {
            for k in 0..shape.packets() as usize {
                let from = (k * part).min(track.len() - length);
                out[..length].copy_from_slice(&track[from..from + length]);
                black_box(out.as_mut_ptr());
            }
        }
        sweeps * shape.packets() as usize
    })
}
