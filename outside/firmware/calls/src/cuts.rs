//! Cuts of one track, by the firmware and by the reference.

use reference::convert::SLOT;
use reference::cut::{cut, largest, packets};
use reference::header::{Header, MOST};
use reference::hostile::random::Random;
use reference::hostile::samples::{self, STEP_24_TO_16, STEP_24_TO_8};
use reference::refusal::number_of;
use reference::track::{records, RECORD, SLOT_BYTES};
use tashmirok::Form;

use crate::compare::{hex, Counts, Differences, Fault};
use crate::lent::Lent;

const CALLS: usize = 40;

/// What the firmware takes of a header.
pub fn form(header: &Header) -> Form<'_> {
    Form {
        rate: header.rate,
        frames: header.frames,
        channels: header.channels,
        format: header.data_type,
        name: &header.name,
        counter: header.counter,
    }
}

/// A form that the cutter takes, mostly of few frames.
pub fn good(random: &mut Random) -> Header {
    let (data_type, channels) = (random.byte_between(0, 3), random.pick(&[1, 1, 2, 2, 3, 4, 5, 6, 7, 8]));
    let most = largest(data_type, channels).unwrap_or(1);
    let any = u16::try_from(random.between(1, most.into())).unwrap_or(1);
    let few = any % 8 + 1;
    Header {
        rate: random.byte_between(0, 20),
        frames: random.pick(&[few, few, few, few, any, most]).min(most),
        channels,
        data_type,
        name: samples::name(random),
        counter: samples::counter(random),
    }
}

/// Makes one field wrong, or just right.
pub fn spoil(random: &mut Random, header: &mut Header) {
    let most = largest(header.data_type, header.channels).unwrap_or(256);
    match random.between(0, 6) {
        0 => header.rate = random.pick(&[20, 21, 31, 32, 255]),
        1 => header.data_type = random.pick(&[4, 5, 7, 8, 255]),
        2 => header.channels = random.pick(&[0, 9, 10, 255, 256, 257, 258, 65_535]),
        3 => header.frames = random.pick(&[0, 256, 257, 512, 65_535]),
        4 => header.frames = random.pick(&[most, most + 1]),
        5 => header.name = samples::bad_name(random, header.name),
        _ => header.name = samples::garbage_after(random, header.name),
    }
}

/// Slots at the ties of both narrowings, all eight filled; now and then not whole records.
fn track(random: &mut Random) -> Vec<u8> {
    let count = match random.between(0, 19) {
        0 => 0,
        1..=14 => random.count_between(1, 40),
        _ => random.count_between(41, 300),
    };
    let mut track = vec![0; count * RECORD];
    for slot in track.chunks_exact_mut(SLOT_BYTES) {
        let step = random.pick(&[STEP_24_TO_8, STEP_24_TO_16]);
        SLOT.put(samples::number(random, SLOT, step), slot);
    }
    if random.chance(5) {
        let more = random.count_between(1, RECORD - 1);
        track.extend(random.bytes(more));
    }
    track
}

/// Packet numbers about the last one, and any.
fn packet_number(random: &mut Random, all: u64) -> u32 {
    let all = u32::try_from(all).unwrap_or(1).max(1);
    let any = u32::try_from(random.between(0, u32::MAX.into())).unwrap_or(0);
    let inside = any % all;
    random.pick(&[0, inside, inside, inside, inside, all - 1, all - 1, all, u32::MAX, any])
}

/// Lengths of the output: mostly room enough, now and then just enough or one byte less.
pub fn room(random: &mut Random, length: usize) -> usize {
    let less = random.count_between(0, length);
    random.pick(&[MOST, MOST, MOST, MOST + 9, length, length, length.saturating_sub(1), less, 0])
}

fn one_cut(random: &mut Random, sent: &Lent, before: usize, counts: &mut Counts) -> Option<Fault> {
    let mut header = good(random);
    if random.chance(15) {
        spoil(random, &mut header);
    }
    let track = sent.bytes().to_vec();
    let k = packet_number(random, packets(records(&track), header.frames.max(1)));
    let length = cut(&header, &track, k.into(), &mut [0; MOST]).unwrap_or(MOST);
    let mut ours = Lent::garbage(room(random, length));
    let (mut theirs, mut written) = (ours.bytes().to_vec(), 0xA5A5);
    let answer = tashmirok::cut(&form(&header), sent.bytes(), k, ours.bytes_mut(), &mut written);
    let due = cut(&header, &track, k.into(), &mut theirs);
    counts.met("cut", number_of(&due));
    let mut found = Differences::default();
    found.same("answer", answer, number_of(&due));
    found.same("written", written, due.unwrap_or(0));
    found.bytes("output", ours.bytes(), &theirs);
    found.bytes("track", sent.bytes(), &track);
    found.holds("bytes around those lent stay", ours.kept_around() && sent.kept_around());
    let told = || format!("cut {k} by {header:?} into {} bytes of: {}", theirs.len(), hex(&track));
    found.fault(before, track.len() + theirs.len(), told)
}

/// Several cuts of one track; the first difference, if there is one.
pub fn cutting(mut random: Random, counts: &mut Counts) -> Option<Fault> {
    let sent = Lent::new(&track(&mut random));
    (0..CALLS).find_map(|before| one_cut(&mut random, &sent, before, counts))
}
