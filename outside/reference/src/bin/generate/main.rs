//! generate takes|cuts SEED COUNT FOLDER: hostile cases, each in a folder of its own.

mod case;
mod counts;
mod cuts;
mod sweeps;
mod takes;

use std::env;
use std::io;
use std::path::{Path, PathBuf};
use std::process::ExitCode;

use case::Case;
use counts::Counts;
use reference::hostile::random::Random;

/// From this case on every second one is long.
const LONG: usize = 1000;

/// Which program the cases are for.
#[derive(Clone, Copy)]
enum Kind {
    Takes,
    Cuts,
}

struct Order {
    kind: Kind,
    seed: u64,
    count: usize,
    folder: PathBuf,
}

/// What the command line asks for.
fn order() -> Option<Order> {
    let arguments: Vec<String> = env::args().skip(1).collect();
    let [kind, seed, count, folder] = arguments.as_slice() else {
        return None;
    };
    let kind = match kind.as_str() {
        "takes" => Kind::Takes,
        "cuts" => Kind::Cuts,
        _ => return None,
    };
    let (seed, count) = (seed.parse().ok()?, count.parse().ok()?);
    Some(Order { kind, seed, count, folder: folder.into() })
}

/// Case by index: the sweeps come first, so that every run of some length has them.
fn case_of(kind: Kind, seed: u64, index: usize) -> Case {
    let random = Random::new(seed, u64::try_from(index).unwrap_or(u64::MAX));
    let is_long = index >= LONG && index % 2 == 0;
    match kind {
        Kind::Takes if index < sweeps::COUNT => sweeps::case(index, random),
        Kind::Takes if is_long => takes::long(random),
        Kind::Takes => takes::any(random),
        Kind::Cuts if index < cuts::SWEEPS => cuts::sweep(index, random),
        Kind::Cuts if is_long => cuts::long(random),
        Kind::Cuts => cuts::any(random),
    }
}

/// Writes the cases and counts the answers of the reference.
fn generate(order: &Order, folder: &Path) -> io::Result<Counts> {
    let mut counts = Counts::default();
    for index in 0..order.count {
        let case = case_of(order.kind, order.seed, index);
        case.save(&folder.join(format!("{index:05}")))?;
        match order.kind {
            Kind::Takes => counts.takelist(&case),
            Kind::Cuts => counts.cutlist(&case),
        }
    }
    Ok(counts)
}

fn main() -> ExitCode {
    let Some(order) = order() else {
        eprintln!("generate takes|cuts SEED COUNT FOLDER");
        return ExitCode::FAILURE;
    };
    let counts = match generate(&order, &order.folder) {
        Ok(counts) => counts,
        Err(error) => {
            eprintln!("{}: {error}", order.folder.display());
            return ExitCode::FAILURE;
        }
    };
    let never = match order.kind {
        Kind::Takes => counts.never(0..=16),
        Kind::Cuts => counts.never([0, 20, 21, 22, 23, 24]),
    };
    print!("{counts}");
    println!("never: {never:?}");
    ExitCode::SUCCESS
}
