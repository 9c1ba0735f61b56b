//! Both sides have to give the same before anything is timed.

use tashmirok::Laid;

use crate::inputs::{bytes, Shape, RECORD, RECORDS};
use crate::sides::{Proved, Rival, Side, DESK};

/// Everything that one side gives: answers, fields, counts and lent bytes.
#[derive(PartialEq)]
struct Given {
    answers: Vec<(u8, Vec<u64>)>,
    counts: Vec<u32>,
    lent: Vec<u8>,
}

/// Datagrams heard one after another, from a track of garbage on.
fn followed<S: Side>(heard: &[(u32, Vec<u8>)], records: usize) -> Given {
    let mut lent = bytes(records * RECORD + 5);
    let mut side = S::open(&mut lent);
    let follow = |(address, datagram): &(u32, Vec<u8>)| {
        let mut laid = Laid { place: 9, frames: 9, skipped: 9, spare: [9; 5] };
        let answer = side.follow(*address, datagram, &mut lent, &mut laid);
        (answer, [&[laid.place, laid.frames, laid.skipped], &laid.spare[..]].concat())
    };
    let answers = heard.iter().map(follow).collect();
    let counts = (0..17).map(|number| side.count(number)).collect();
    Given { answers, counts, lent }
}

/// Every packet of a track, and one more, each into an output of garbage.
fn cut<S: Side>(shape: &Shape, track: &[u8]) -> Given {
    let (mut answers, mut lent) = (Vec::new(), Vec::new());
    let all = (track.len() / RECORD).div_ceil(usize::from(shape.frames)) as u32;
    for k in 0..=all {
        let (mut out, mut written) = (vec![0xA5; 1470], 9);
        let answer = S::cut(&shape.form(), track, k, &mut out, &mut written);
        answers.push((answer, vec![written as u64]));
        lent.extend(out);
    }
    Given { answers, counts: Vec::new(), lent }
}

fn check(what: &str, shape: &Shape, same: bool) {
    let Shape { format, channels, frames } = shape;
    assert!(same, "the two sides differ in {what}: type {format}, {channels} channels, {frames} frames");
}

/// Packets that are next, repeated, lost before, and past the end.
fn history(shape: &Shape) -> Vec<(u32, Vec<u8>)> {
    let numbered = |counter: &u32| {
        let mut datagram = shape.datagram();
        datagram[24..28].copy_from_slice(&counter.to_le_bytes());
        (DESK, datagram)
    };
    [u32::MAX, 0, 0, 2, 1, 3, 0x8000_0002, 0x8000_0003, 40_000].iter().map(numbered).collect()
}

/// A packet with one byte of its header changed to each of some values, and of every length.
fn damaged(shape: &Shape) -> Vec<(u32, Vec<u8>)> {
    let mut heard = Vec::new();
    for (at, value) in (0..28).flat_map(|at| (0..=255_u8).map(move |value| (at, value))) {
        let mut datagram = shape.datagram();
        datagram[at] = value;
        heard.push((DESK ^ u32::from(value == 77), datagram));
    }
    heard.extend((0..1500).map(|length| {
        let mut datagram = shape.datagram();
        datagram.resize(length, 1);
        (DESK, datagram)
    }));
    heard
}

/// Every type and number of channels, few frames and many, and every way to damage a header.
pub fn all() {
    let track = bytes(2 * RECORDS * RECORD);
    for (format, channels) in (0..4).flat_map(|format| (1..=8).map(move |channels| (format, channels))) {
        let most = Shape::largest(format, channels);
        for frames in [1, 2, 3, 5, 7, most.frames] {
            let shape = Shape { frames, ..most };
            let heard = history(&shape);
            let records = usize::from(frames) * 5;
            check(
                "following",
                &shape,
                followed::<Proved>(&heard, records) == followed::<Rival>(&heard, records),
            );
            let sent = &track[..(usize::from(frames) * 4 + 1) * RECORD];
            check("cutting", &shape, cut::<Proved>(&shape, sent) == cut::<Rival>(&shape, sent));
        }
    }
    let shape = Shape { format: 1, channels: 2, frames: 3 };
    let heard = damaged(&shape);
    check("refusing", &shape, followed::<Proved>(&heard, 4096) == followed::<Rival>(&heard, 4096));
}
