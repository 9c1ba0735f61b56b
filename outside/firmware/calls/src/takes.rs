//! Histories of a take: opened, followed and opened again, by the firmware and by the reference.

use reference::cut::largest;
use reference::header::Header;
use reference::hostile::flaws::spoil;
use reference::hostile::packet::Packet;
use reference::hostile::random::Random;
use reference::hostile::samples;
use reference::read;
use reference::refusal::number_of;
use reference::take::{self, Begun, Take, Tally};
use reference::track::{records, RECORD};
use tashmirok::Laid;

use crate::compare::{hex, Counts, Differences, Fault};
use crate::lent::{Lent, Words};

const CALLS: usize = 40;
const COUNTED: u8 = 16;

/// Longer datagrams than this are answered alike.
const MOST_HEARD: usize = 3_000;

/// The firmware's side: its take, tally and track.
struct Ours {
    take: Lent,
    tally: Words,
    track: Lent,
}

/// The reference's side.
struct Theirs {
    take: Take,
    tally: Tally,
    track: Vec<u8>,
}

struct Scene {
    random: Random,
    wanted: Packet,
    ours: Ours,
    theirs: Theirs,
    /// What was heard before, to be heard again.
    heard: Vec<(u32, Vec<u8>)>,
}

/// A stream of any name, address and shape.
fn stream(random: &mut Random) -> Packet {
    let (data_type, channels) = (random.byte_between(0, 3), random.pick(&[1, 1, 2, 2, 3, 4, 5, 6, 7, 8]));
    let most = largest(data_type, channels).unwrap_or(1);
    let any = u16::try_from(random.between(1, most.into())).unwrap_or(1);
    let frames = random.pick(&[any % 8 + 1, any % 8 + 1, any % 8 + 1, any % 8 + 1, any % 8 + 1, any, most]);
    let header = Header {
        rate: random.byte_between(0, 20),
        frames: frames.min(most),
        channels,
        data_type,
        name: samples::name(random),
        counter: samples::counter(random),
    };
    let address = u32::try_from(random.between(0, u32::MAX.into())).unwrap_or(0);
    Packet::new(address.to_le_bytes(), header)
}

/// A track of garbage, of few or many records and now and then some bytes more, or of none.
fn track(random: &mut Random, frames: u16) -> Vec<u8> {
    let frames = usize::from(frames);
    let count = match random.between(0, 9) {
        0 => random.count_between(0, 2),
        1 | 2 => frames,
        3..=6 => frames * random.count_between(2, 12),
        _ => frames * 24 + random.count_between(0, 60),
    };
    let more = if random.chance(40) { random.count_between(1, RECORD - 1) } else { 0 };
    random.bytes(count * RECORD + more)
}

impl Scene {
    fn new(mut random: Random) -> Self {
        let wanted = stream(&mut random);
        let track = track(&mut random, wanted.header.frames);
        let take = Lent::garbage(tashmirok::take_size());
        let mut ours = Ours { take, tally: Words::new(), track: Lent::new(&track) };
        tashmirok::clear_tally(ours.tally.words_mut());
        let theirs = Theirs { take: Take::default(), tally: Tally::default(), track };
        Scene { random, wanted, ours, theirs, heard: Vec::new() }
    }

    /// Opens the take on both sides, now and then with a bad name or with garbage after it.
    fn open(&mut self, before: usize, counts: &mut Counts) -> Option<Fault> {
        let mut name = self.wanted.header.name;
        match self.random.between(0, 19) {
            0 | 1 => name = samples::bad_name(&mut self.random, name),
            2..=4 => name = samples::garbage_after(&mut self.random, name),
            _ => {}
        }
        let (Ours { take, track, .. }, theirs) = (&mut self.ours, &mut self.theirs);
        let address = self.wanted.address;
        let answer = tashmirok::open(take.bytes_mut(), &name, u32::from_le_bytes(address), track.bytes_mut());
        let due = take::open(&name, address, &mut theirs.track);
        theirs.take = due.unwrap_or_default();
        counts.met("open", number_of(&due));
        let mut found = Differences::default();
        found.same("answer", answer, number_of(&due));
        found.bytes("track", track.bytes(), &theirs.track);
        found.holds("a refusal's take is zero", due.is_ok() || take.bytes().iter().all(|&byte| byte == 0));
        found.holds("bytes around those lent stay", take.kept_around() && track.kept_around());
        found.fault(before, theirs.track.len(), || format!("open: name {}", hex(&name)))
    }

    /// Now and then, and soon once nothing is left to come but 16, or little but 15.
    fn opens_again(&mut self) -> bool {
        let held = u64::try_from(records(&self.theirs.track)).unwrap_or(0);
        let full =
            self.theirs.take.begun.is_some_and(|begun| begun.newest_place + u64::from(begun.n) >= held);
        let refused = self.theirs.take == Take::default();
        self.random.chance(if full || refused { 30 } else { 2 })
    }

    /// Counter and frames of a packet that ends with the track, or one frame past it.
    fn at_the_end(&mut self, begun: &Begun) -> (u32, u16) {
        let held = u64::try_from(records(&self.theirs.track)).unwrap_or(0);
        let room = held.saturating_sub(begun.newest_place).max(1) - 1 + self.random.next() % 2;
        let (d, left) = (room / u64::from(begun.n), room % u64::from(begun.n) + 1);
        let counter = begun.newest.wrapping_add(u32::try_from(d).unwrap_or(0));
        (counter, u16::try_from(left).unwrap_or(1))
    }

    /// One packet of the stream by the state of the take, with no flaw of its own yet.
    fn packet(&mut self) -> Packet {
        let mut packet = self.wanted.clone();
        let Some(begun) = self.theirs.take.begun else {
            return packet;
        };
        let fewer = u16::try_from(self.random.between(1, begun.n.into())).unwrap_or(1);
        let counter = samples::counter_after(&mut self.random, begun.newest);
        (packet.header.counter, packet.header.frames) = match self.random.between(0, 19) {
            0 => self.at_the_end(&begun),
            1..=3 => (counter, fewer),
            4 => (counter, begun.n + 1),
            _ => (counter, begun.n),
        };
        packet.header.frames = packet.header.frames.min(packet.most_frames());
        packet
    }

    /// A datagram and its sender: a packet with none, one or several flaws, or one heard before.
    fn datagram(&mut self, calm: u64) -> (u32, Vec<u8>) {
        if !self.heard.is_empty() && self.random.chance(5) {
            let at = self.random.count_between(0, self.heard.len() - 1);
            return self.heard[at].clone();
        }
        let mut packet = self.packet();
        if self.random.chance(15) {
            packet.header.name = samples::garbage_after(&mut self.random, packet.header.name);
        }
        let flaws = if self.random.chance(calm) { 0 } else { self.random.pick(&[1, 1, 1, 2, 3]) };
        for _ in 0..flaws {
            spoil(&mut self.random, &mut packet);
        }
        let mut bytes = packet.bytes(&mut self.random);
        if let Some(length) = packet.stated {
            bytes.resize(usize::try_from(length).map_or(MOST_HEARD, |length| length.min(MOST_HEARD)), 0);
        }
        self.heard.push((u32::from_le_bytes(packet.address), bytes.clone()));
        (u32::from_le_bytes(packet.address), bytes)
    }

    /// Follows a datagram on both sides.
    fn follow(&mut self, address: u32, heard: &Lent, counts: &mut Counts) -> Differences {
        let (ours, theirs) = (&mut self.ours, &mut self.theirs);
        let garbage = Laid { place: 0xA5A5, frames: 0xA5A5, skipped: 0xA5A5, spare: [0xA5A5; 5] };
        let (before, mut laid) = (ours.take.bytes().to_vec(), garbage);
        let (take, tally, track) = (ours.take.bytes_mut(), ours.tally.words_mut(), ours.track.bytes_mut());
        let answer = tashmirok::follow(take, tally, address, heard.bytes(), track, &mut laid);
        let due = take::follow(
            &mut theirs.take,
            &mut theirs.track,
            &mut theirs.tally,
            address.to_le_bytes(),
            heard.bytes(),
        );
        counts.met("follow", number_of(&due));
        let mut found = Differences::default();
        let fields = due.unwrap_or_default();
        found.same("answer", answer, number_of(&due));
        let told = Laid {
            place: fields.place,
            frames: fields.frames.into(),
            skipped: fields.skipped.into(),
            spare: [0; 5],
        };
        found.same("laid", laid, told);
        found.bytes("track", ours.track.bytes(), &theirs.track);
        if due.is_err() {
            found.bytes("a refusal's take", ours.take.bytes(), &before);
        }
        found
    }

    /// The shape of both sides' takes.
    fn shape(&self, found: &mut Differences, counts: &mut Counts) {
        let (take, mut shape) = (&self.theirs.take, [0xA5A5; 4]);
        let answer = tashmirok::shape(self.ours.take.bytes(), &mut shape);
        let due = if *take == Take::default() { 16 } else { 0 };
        let four = take.begun.map_or([0; 4], |begun| {
            [begun.rate.into(), begun.channels.into(), begun.data_type.into(), begun.n.into()]
        });
        counts.met("shape", due);
        found.same("shape", (answer, shape), (due, four));
    }

    /// The counts of both sides, and the bytes around all that was lent.
    fn also(&self, found: &mut Differences, heard: &Lent, bytes: &[u8]) {
        let counts = |number| tashmirok::count(self.ours.tally.words(), number);
        let now: Vec<u32> = (0..=COUNTED).map(counts).collect();
        found.same("tally", &now[..], &self.theirs.tally.0[..]);
        let Ours { take, tally, track } = &self.ours;
        let around = take.kept_around() && tally.kept_around() && track.kept_around();
        found.holds("bytes around those lent stay", around && heard.kept_around());
        found.bytes("datagram", heard.bytes(), bytes);
    }
}

/// Reading alone, on both sides.
fn read_both(heard: &Lent, counts: &mut Counts, found: &mut Differences) {
    let (mut fields, mut name, mut size) = ([0xA5A5; 5], [0xA5; 16], 0xA5A5);
    let answer = tashmirok::read(heard.bytes(), &mut fields, &mut name, &mut size);
    let due = read::read(heard.bytes());
    counts.met("read", number_of(&due));
    let (header, data) = due.as_ref().map_or((Header::default(), 0), |read| (read.header, read.data_bytes));
    let five = [
        header.rate.into(),
        header.frames.into(),
        header.channels.into(),
        header.data_type.into(),
        header.counter,
    ];
    found.same("reading's answer", answer, number_of(&due));
    found.same("reading's fields", (fields, name, size), (five, header.name, data));
}

/// One history; its first difference, if there is one.
pub fn history(random: Random, counts: &mut Counts) -> Option<Fault> {
    let mut scene = Scene::new(random);
    let calm = scene.random.pick(&[0, 40, 60, 60, 80, 100]);
    for before in 0..CALLS {
        if before == 0 || scene.opens_again() {
            if let Some(fault) = scene.open(before, counts) {
                return Some(fault);
            }
        }
        let (address, bytes) = scene.datagram(if scene.theirs.take.begun.is_none() { 80 } else { calm });
        let heard = Lent::new(&bytes);
        let mut found = scene.follow(address, &heard, counts);
        scene.shape(&mut found, counts);
        scene.also(&mut found, &heard, &bytes);
        read_both(&heard, counts, &mut found);
        let (take, lent) = (scene.theirs.take, scene.theirs.track.len());
        let told = || format!("follow from {address:#x} into {take:?} on {lent} bytes: {}", hex(&bytes));
        if let Some(fault) = found.fault(before, bytes.len() + lent, told) {
            return Some(fault);
        }
    }
    let past = (COUNTED + 1..=255).find(|&number| tashmirok::count(scene.ours.tally.words(), number) != 0);
    let mut found = Differences::default();
    found.same("a number that has no count", past, None);
    found.fault(CALLS, 0, || "count".into())
}
