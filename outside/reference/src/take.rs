//! Document 01, "Following a take": opening, following, the tally.

use crate::convert::Format;
use crate::header::{Header, HEADER};
use crate::names::{self, Field};
use crate::read;
use crate::refusal::{check, number_of};
use crate::track;
use crate::Refusal;

/// A sender's IPv4 address as written.
pub type Address = [u8; 4];

/// What the first accepted packet fixes, and what the newest accepted one leaves.
#[derive(Clone, Copy, Debug, PartialEq, Eq)]
pub struct Begun {
    pub rate: u8,
    pub channels: u16,
    pub data_type: u8,
    pub n: u16,
    pub newest: u32,
    pub newest_place: u64,
}

/// One stream being followed; the default is the all-zero take.
#[derive(Clone, Copy, Debug, Default, PartialEq, Eq)]
pub struct Take {
    pub name: Field,
    pub address: Address,
    pub begun: Option<Begun>,
}

/// An acceptance: where the packet lies, how many frames it has, how many packets were skipped.
#[derive(Clone, Copy, Debug, Default, PartialEq, Eq)]
pub struct Laid {
    pub place: u64,
    pub frames: u16,
    pub skipped: u32,
}

/// The house tally: one count for each answer 0 to 16.
#[derive(Clone, Copy, Debug, Default, PartialEq, Eq)]
pub struct Tally(pub [u32; 17]);

impl Tally {
    /// Raises one count, which holds at 4,294,967,295.
    pub fn raise<T>(&mut self, answer: &Result<T, Refusal>) {
        if let Some(count) = self.0.get_mut(usize::from(number_of(answer))) {
            *count = count.saturating_add(1);
        }
    }
}

/// Opens a take and clears the track; a bad name leaves the track, and the take is all zero.
pub fn open(name: &Field, address: Address, track: &mut [u8]) -> Result<Take, Refusal> {
    check(names::good(name), Refusal::Name)?;
    track::clear(track);
    Ok(Take { name: names::filled(name), address, begun: None })
}

/// d: the packet's counter less the newest accepted counter, modulo 2^32.
pub fn distance(newest: u32, counter: u32) -> u32 {
    let d = (i64::from(counter) - i64::from(newest)).rem_euclid(1 << 32);
    u32::try_from(d).expect("a remainder modulo 2^32")
}

/// Newer from 1 to 2^31 - 1, and late otherwise.
pub fn newer(d: u32) -> bool {
    (1..=0x7FFF_FFFF).contains(&d)
}

/// Row 16, of the take alone: one not begun is asked for its name only.
fn state(take: &Take) -> Result<(), Refusal> {
    check(names::good(&take.name), Refusal::State)?;
    if let Some(begun) = &take.begun {
        check((1..=8).contains(&begun.channels), Refusal::State)?;
        check((1..=256).contains(&begun.n), Refusal::State)?;
        check(begun.rate <= 20, Refusal::State)?;
        check(begun.data_type <= 3, Refusal::State)?;
    }
    Ok(())
}

/// Row 13: the shape that the first packet fixed; fewer frames than N are no change.
fn shape(begun: &Begun, header: &Header) -> Result<(), Refusal> {
    let same = header.rate == begun.rate
        && header.channels == begun.channels
        && header.data_type == begun.data_type;
    check(same && header.frames <= begun.n, Refusal::Shape)
}

/// Row 14, and then place and skipped count; a sum too large lies beyond any track.
fn placed(begun: &Begun, header: &Header) -> Result<Laid, Refusal> {
    let d = distance(begun.newest, header.counter);
    check(newer(d), Refusal::Late)?;
    let place = (u64::from(d) * u64::from(begun.n))
        .checked_add(begun.newest_place)
        .ok_or(Refusal::Beyond)?;
    Ok(Laid { place, frames: header.frames, skipped: d - 1 })
}

/// Row 15: place and frames within the records held; gives the place as an index.
fn held(laid: &Laid, track: &[u8]) -> Result<usize, Refusal> {
    let end = laid.place.checked_add(u64::from(laid.frames)).ok_or(Refusal::Beyond)?;
    let end = usize::try_from(end).map_err(|_| Refusal::Beyond)?;
    check(end <= track::records(track), Refusal::Beyond)?;
    Ok(end - usize::from(laid.frames))
}

/// The take after an acceptance; N is the first packet's and stays.
fn followed(take: &Take, header: &Header, place: u64) -> Take {
    let begun = Begun {
        rate: header.rate,
        channels: header.channels,
        data_type: header.data_type,
        n: take.begun.map_or(header.frames, |begun| begun.n),
        newest: header.counter,
        newest_place: place,
    };
    Take { begun: Some(begun), ..*take }
}

/// Rows 16, then 1 to 15 in order, and on acceptance the records and the take.
fn answer(
    take: &mut Take,
    track: &mut [u8],
    address: Address,
    datagram: &[u8],
) -> Result<Laid, Refusal> {
    state(take)?;
    let (bytes, name) = read::front(datagram)?;
    let ours = names::same(&name, &take.name) && address == take.address;
    check(ours, Refusal::OtherStream)?;
    let header = read::audio(datagram, &bytes, name)?.header;
    check(header.channels <= 8, Refusal::Channels)?;
    let laid = match &take.begun {
        None => Laid { place: 0, frames: header.frames, skipped: 0 },
        Some(begun) => {
            shape(begun, &header)?;
            placed(begun, &header)?
        }
    };
    let place = held(&laid, track)?;
    let format = Format::of(header.data_type).ok_or(Refusal::DataType)?;
    let channels = usize::from(header.channels);
    track::lay(track, place, &datagram[HEADER..], channels, format);
    *take = followed(take, &header, laid.place);
    Ok(laid)
}

/// Follows one datagram: the tally moves by its answer, take and track by an acceptance only.
pub fn follow(
    take: &mut Take,
    track: &mut [u8],
    tally: &mut Tally,
    address: Address,
    datagram: &[u8],
) -> Result<Laid, Refusal> {
    let answer = answer(take, track, address, datagram);
    tally.raise(&answer);
    answer
}
