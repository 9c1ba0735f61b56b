//! Times the firmware's functions beside an independent implementation, and both beside the least work there is.

mod agree;
mod inputs;
mod place;
mod rival;
mod sides;
mod timing;

use inputs::Shape;
use sides::{Proved, Rival, DESK};
use timing::{accepted, cleared, copied, cut, refused, Lent, Race, Sweep};

const BITS: [&str; 4] = ["8 bits", "16 bits", "24 bits", "32 bits"];
/// Every row is timed so often, with all others in between: a machine is disturbed for seconds at a time.
const PASSES: usize = 5;

/// A refusal has no least and no frames.
struct Row {
    what: String,
    frames: u16,
    race: Race,
}

impl Row {
    fn new(what: String, frames: u16, datagram: Vec<u8>, sweeps: Vec<Sweep>) -> Self {
        Row { what, frames, race: Race::new(sweeps, Lent::new(datagram)) }
    }
}

/// One line of JSON: what bench.py gathers of all runs.
fn tell(table: &str, Row { what, frames, race }: Row) {
    let ratios: Vec<f64> = [1, 2].into_iter().filter_map(|other| race.ratio(other)).collect();
    println!("[{table:?}, {what:?}, {frames}, {:?}, {ratios:?}]", race.times());
}

fn shapes() -> impl Iterator<Item = (Shape, String)> {
    let kinds = (0..4).flat_map(|format| [1, 2, 8].map(|channels| Shape::largest(format, channels)));
    kinds.map(|shape| {
        let bits = BITS[usize::from(shape.format)];
        let plural = if shape.channels == 1 { "" } else { "s" };
        (shape, format!("{bits:>7}, {} channel{plural:1}, {:>3} frames", shape.channels, shape.frames))
    })
}

fn following() -> Vec<Row> {
    let row = |(shape, what): (Shape, String)| {
        let sweeps = vec![accepted::<Proved>(shape), accepted::<Rival>(shape), cleared(shape)];
        Row::new(what, shape.frames, shape.datagram(), sweeps)
    };
    shapes().map(row).collect()
}

fn cutting() -> Vec<Row> {
    let row = |(shape, what): (Shape, String)| {
        let sweeps = vec![cut::<Proved>(shape), cut::<Rival>(shape), copied(shape)];
        Row::new(what, shape.frames, shape.datagram(), sweeps)
    };
    shapes().map(row).collect()
}

fn refusals() -> Vec<Row> {
    let whole = Shape::largest(1, 2).datagram();
    let (short, less) = (whole[..27].to_vec(), whole[..whole.len() - 1].to_vec());
    let kinds = [
        ("5, a neighbour's datagram", DESK + 1, whole, 5),
        ("1, a short one", DESK, short, 1),
        ("11, a wrong length", DESK, less, 11),
    ];
    let row = |(what, address, datagram, due): (&str, u32, Vec<u8>, u8)| {
        Row::new(
            what.into(),
            0,
            datagram,
            vec![refused::<Proved>(address, due), refused::<Rival>(address, due)],
        )
    };
    kinds.map(row).into()
}

/// Told which run of the same program this is: 0, 1 or 2.
fn main() {
    let run = std::env::args().nth(1).map_or(0, |number| number.parse().expect("a run's number"));
    place::keep();
    agree::all();
    let mut tables =
        [("Following, accepted", following()), ("Cutting", cutting()), ("Following, refused", refusals())];
    for pass in 0..PASSES {
        tables.iter_mut().flat_map(|(_, rows)| rows).for_each(|row| row.race.run(pass, run));
    }
    for (table, rows) in tables {
        rows.into_iter().for_each(|row| tell(table, row));
    }
}
