//! The functions that neither follow nor cut.

use reference::convert::convert;
use reference::cut::largest;
use reference::header::{rate_of, MOST_DATA};
use reference::hostile::random::Random;
use reference::hostile::samples;
use reference::refusal::number_of;
use reference::write::write;

use crate::compare::{hex, Counts, Differences, Fault};
use crate::cuts::{form, good, room, spoil};
use crate::lent::Lent;

/// Writing a packet, its data mostly of the right size.
fn writing(random: &mut Random, counts: &mut Counts) -> Option<Fault> {
    let mut header = good(random);
    if random.chance(30) {
        header.channels = random.pick(&[9, 100, 180, 256]);
    }
    if random.chance(20) {
        spoil(random, &mut header);
    }
    let size =
        usize::from(header.frames) * usize::from(header.channels) * (usize::from(header.data_type) + 1);
    let size = random.pick(&[size, size, size, size, size + 1, size.saturating_sub(1)]).min(2 * MOST_DATA);
    let data = random.bytes(size);
    let (sent, mut ours) = (Lent::new(&data), Lent::garbage(room(random, 28 + size)));
    let (mut theirs, mut written) = (ours.bytes().to_vec(), 0xA5A5);
    let answer = tashmirok::write(&form(&header), sent.bytes(), ours.bytes_mut(), &mut written);
    let due = write(&header, &data, &mut theirs);
    counts.met("write", number_of(&due));
    let mut found = Differences::default();
    found.same("answer", answer, number_of(&due));
    found.same("written", written, due.unwrap_or(0));
    found.bytes("output", ours.bytes(), &theirs);
    found.bytes("samples", sent.bytes(), &data);
    found.holds("bytes around those lent stay", ours.kept_around() && sent.kept_around());
    let told = || format!("write {header:?} into {} bytes: {}", theirs.len(), hex(&data));
    found.fault(0, size + theirs.len(), told)
}

/// Converting a number, the largest N and a rate.
fn numbers(random: &mut Random, counts: &mut Counts) -> Option<Fault> {
    let types = [0, 1, 2, 3, 0, 1, 2, 3, 0, 1, 2, 3, 4, 5, 8, 255];
    let (from, to) = (random.pick(&types), random.pick(&types));
    let any = random.next() as i64;
    let near = reference::convert::Format::of(from).map_or(any, |format| {
        let step = random.pick(&[2, 256, 65_536, 1 << 24]);
        let number = samples::number(random, format, step.min(format.highest / 2));
        random.pick(&[number, number, number, number, format.lowest - 1, format.highest + 1])
    });
    let number = random.pick(&[near, near, near, any]);
    let (channels, index) = (u16::try_from(random.next() % 300).unwrap_or(0), random.byte_between(0, 40));
    let (mut converted, mut frames, mut hertz) = (0xA5A5, 0xA5A5, 0xA5A5);
    let mut found = Differences::default();
    let (due, most, rate) = (convert(from, to, number), largest(from, channels), rate_of(index));
    let answer = tashmirok::convert(from, to, number, &mut converted);
    found.same("converted", (answer, converted), (number_of(&due), due.unwrap_or(0)));
    let answer = tashmirok::largest(from, channels, &mut frames);
    found.same("largest", (answer, frames), (number_of(&most), most.unwrap_or(0)));
    let answer = tashmirok::rate(index, &mut hertz);
    found.same("rate", (answer, hertz), (number_of(&rate), rate.unwrap_or(0)));
    counts.met("convert", number_of(&due));
    counts.met("largest", number_of(&most));
    counts.met("rate", number_of(&rate));
    found
        .fault(0, 0, || format!("types {from} and {to}, number {number}, {channels} channels, index {index}"))
}

/// One call of each.
pub fn each(mut random: Random, counts: &mut Counts) -> Option<Fault> {
    writing(&mut random, counts).or_else(|| numbers(&mut random, counts))
}
