//! Hostile jobs for takelist.

use crate::case::Case;
use reference::capture::RECORD;
use reference::cut::largest;
use reference::header::Header;
use reference::hostile::flaws::spoil;
use reference::hostile::packet::Packet;
use reference::hostile::random::Random;
use reference::hostile::samples;
use reference::take::Begun;
use reference::takelist::{Listing, JOB, RECORDS, TRACK};

/// A case in the making: the stream wanted, the capture so far, and the take that hears it.
pub struct Scene {
    pub random: Random,
    pub wanted: Packet,
    pub capture: Vec<u8>,
    listing: Option<Listing>,
}

impl Scene {
    /// A stream of any name, address and shape.
    pub fn new(mut random: Random) -> Self {
        let (data_type, channels) =
            (random.byte_between(0, 3), random.pick(&[1, 1, 2, 2, 3, 4, 5, 6, 7, 8]));
        let most = largest(data_type, channels).unwrap_or(1);
        let any = u16::try_from(random.between(1, most.into())).unwrap_or(1);
        let small = any % 8 + 1;
        let header = Header {
            rate: random.byte_between(0, 20),
            frames: random.pick(&[small, small, any, most]).min(most),
            channels,
            data_type,
            name: samples::name(&mut random),
            counter: samples::counter(&mut random),
        };
        let bytes = random.next().to_le_bytes();
        let address = [bytes[0], bytes[1], bytes[2], bytes[3]];
        Scene::of(random, Packet::new(address, header))
    }

    /// A scene of a given stream.
    pub fn of(random: Random, wanted: Packet) -> Self {
        let job = job(&wanted);
        Scene { random, wanted, capture: Vec::new(), listing: Listing::open(Some(&job)) }
    }

    /// Puts a packet into the capture, and follows it so that the next can lie by it.
    pub fn hear(&mut self, packet: &Packet) {
        let record = packet.record(&mut self.random);
        self.capture.extend(record);
        if let Some(listing) = &mut self.listing {
            listing.hear(&record);
        }
    }

    /// What the take keeps, once begun.
    pub fn begun(&self) -> Option<Begun> {
        self.listing.as_ref().and_then(|listing| listing.take.begun)
    }

    /// The wanted stream's packet with that counter and so many frames.
    pub fn packet(&self, counter: u32, frames: u16) -> Packet {
        let mut packet = self.wanted.clone();
        (packet.header.counter, packet.header.frames) = (counter, frames);
        packet
    }

    /// The case, its job file as it should be.
    pub fn case(self) -> Case {
        let mut case = Case { input: self.capture, ..Case::default() };
        case.put(JOB, job(&self.wanted));
        case
    }
}

/// The 20 bytes of `wanted.bin`.
pub fn job(wanted: &Packet) -> Vec<u8> {
    [&wanted.address[..], &wanted.header.name].concat()
}

/// Counter and frames of a packet whose end is the track's last record, or one past it.
fn at_the_end(random: &mut Random, begun: &Begun) -> (u32, u16) {
    let room = (RECORDS as u64).saturating_sub(begun.newest_place).max(1);
    let n = u64::from(begun.n);
    let d = (room - 1) / n;
    let left = room - d * n;
    let (d, left) = match random.between(0, 2) {
        0 => (d, left),
        1 if left < n => (d, left + 1),
        1 => (d + 1, 1),
        _ => (d, n),
    };
    let step = u32::try_from(d).unwrap_or(0);
    (begun.newest.wrapping_add(step), u16::try_from(left).unwrap_or(1).min(begun.n))
}

/// One packet of the stream by the state of the take, with no flaw of its own yet.
fn next_packet(scene: &mut Scene) -> Packet {
    let Some(begun) = scene.begun() else {
        return scene.wanted.clone();
    };
    if scene.random.chance(12) {
        let (counter, frames) = at_the_end(&mut scene.random, &begun);
        return scene.packet(counter, frames);
    }
    let counter = samples::counter_after(&mut scene.random, begun.newest);
    let fewer = u16::try_from(scene.random.between(1, begun.n.into())).unwrap_or(1);
    let more = (begun.n + 1).min(256);
    let frames = match scene.random.between(0, 11) {
        0 | 1 => fewer,
        2 => more,
        _ => begun.n,
    };
    let mut packet = scene.packet(counter, frames);
    packet.header.frames = packet.header.frames.min(packet.most_frames());
    packet
}

/// One packet with none, one or several flaws, and now and then garbage after its name.
fn hear_one(scene: &mut Scene, calm: u64) {
    let mut packet = next_packet(scene);
    if scene.random.chance(15) {
        packet.header.name = samples::garbage_after(&mut scene.random, packet.header.name);
    }
    let flaws = if scene.random.chance(calm) { 0 } else { scene.random.pick(&[1, 1, 1, 2, 3]) };
    for _ in 0..flaws {
        spoil(&mut scene.random, &mut packet);
    }
    scene.hear(&packet);
}

/// Records over the borders of takelist's blocks, which have 44: mostly the next packet, and of few frames, so that the track has room.
fn hear_many(scene: &mut Scene) {
    scene.wanted.header.frames = scene.wanted.header.frames.min(6);
    let any = scene.random.count_between(80, 200);
    let records = scene.random.pick(&[any, any, any, 43, 44, 45, 87, 88, 89, 132, 133]);
    for _ in 0..records {
        let Some(begun) = scene.begun() else {
            scene.hear(&scene.wanted.clone());
            continue;
        };
        let step = scene.random.pick(&[1, 1, 1, 1, 2, 3, 0, u32::MAX]);
        let mut packet = scene.packet(begun.newest.wrapping_add(step), begun.n);
        if scene.random.chance(10) {
            spoil(&mut scene.random, &mut packet);
        }
        scene.hear(&packet);
    }
}

/// Leaves the capture's last record cut anywhere.
pub fn cut_last(scene: &mut Scene, left: usize) {
    let packet = next_packet(scene);
    let record = packet.record(&mut scene.random);
    scene.capture.extend(&record[..left.min(RECORD - 1)]);
}

/// Puts something else in place of the good job file.
fn spoil_job(random: &mut Random, wanted: &Packet, case: &mut Case) {
    let mut job = job(wanted);
    match random.between(0, 5) {
        0 => {}
        1 => case.block(JOB),
        2 => case.put(JOB, random.bytes(20)),
        3 => {
            job.resize(random.pick(&[0, 1, 4, 16, 19, 21, 28, 32, 40, 2_000]), 0);
            case.put(JOB, job);
        }
        _ => {
            job[4..].copy_from_slice(&samples::bad_name(random, wanted.header.name));
            case.put(JOB, job);
        }
    }
}

/// A case of any kind.
pub fn any(random: Random) -> Case {
    let mut scene = Scene::new(random);
    let records = match scene.random.between(0, 19) {
        0 => 0,
        1..=14 => scene.random.count_between(1, 9),
        15..=18 => scene.random.count_between(10, 16),
        _ => scene.random.count_between(17, 34),
    };
    let calm = scene.random.pick(&[0, 40, 60, 60, 80, 100]);
    for index in 0..records {
        hear_one(&mut scene, if index == 0 { 80 } else { calm });
    }
    cut_some(&mut scene);
    finish(scene)
}

/// A case of many records.
pub fn long(random: Random) -> Case {
    let mut scene = Scene::new(random);
    hear_many(&mut scene);
    cut_some(&mut scene);
    finish(scene)
}

/// Now and then a last record that is cut.
fn cut_some(scene: &mut Scene) {
    if scene.random.chance(25) {
        let left = scene.random.count_between(1, RECORD - 1);
        cut_last(scene, left);
    }
}

/// The case with its job file, now and then spoilt, and now and then an older track.
fn finish(scene: Scene) -> Case {
    let Scene { mut random, wanted, capture, .. } = scene;
    let mut case = Case { input: capture, ..Case::default() };
    if random.chance(20) {
        let name = samples::garbage_after(&mut random, wanted.header.name);
        case.put(JOB, [&wanted.address[..], &name].concat());
    } else if random.chance(12) {
        spoil_job(&mut random, &wanted, &mut case);
    } else {
        case.put(JOB, job(&wanted));
    }
    match random.between(0, 49) {
        0 => case.block(TRACK),
        1..=4 => case.put(TRACK, random.bytes(40)),
        5 => case.put(TRACK, random.bytes(RECORDS * 24 + 30)),
        _ => {}
    }
    case
}
