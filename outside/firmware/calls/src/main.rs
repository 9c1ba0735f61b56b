//! calls [SEED [takes|cuts|others INDEX]]: random calls of the firmware's functions against the reference.
//!
//! With a kind and an index it makes that one case again. The last line is `N passed, M failed`: of the kinds,
//! that no call differs, and of the operations, that every answer came.

mod compare;
mod cuts;
mod lent;
mod others;
mod takes;

use std::env;
use std::process::ExitCode;

use compare::{Counts, Fault};
use reference::hostile::random::Random;

/// Cases of a kind, and how many calls of an operation they have to come to.
struct Kind {
    name: &'static str,
    case: fn(Random, &mut Counts) -> Option<Fault>,
    operation: &'static str,
    calls: u64,
}

const KINDS: [Kind; 3] = [
    Kind { name: "takes", case: takes::history, operation: "follow", calls: 700_000 },
    Kind { name: "cuts", case: cuts::cutting, operation: "cut", calls: 400_000 },
    Kind { name: "others", case: others::each, operation: "write", calls: 100_000 },
];

/// Every answer that an operation can come to; a run in which one never came has tried too little.
const ANSWERS: [(&str, &[u8]); 9] = [
    ("follow", &[0, 1, 2, 3, 4, 5, 6, 7, 8, 9, 10, 11, 12, 13, 14, 15, 16]),
    ("read", &[0, 1, 2, 3, 4, 6, 7, 8, 9, 10, 11]),
    ("open", &[0, 4]),
    ("shape", &[0, 16]),
    ("cut", &[0, 20, 22, 23, 24]),
    ("write", &[0, 20, 21, 22, 23]),
    ("convert", &[0, 20, 26]),
    ("largest", &[0, 20]),
    ("rate", &[0, 9]),
];

/// Cases that differ: how many, and the smallest with its index.
#[derive(Default)]
struct Faults {
    count: u64,
    smallest: Option<(u64, Fault)>,
}

impl Faults {
    fn add(&mut self, index: u64, fault: Fault) {
        self.count += 1;
        let smaller = self.smallest.as_ref().map_or(true, |(_, least)| fault.size < least.size);
        if smaller {
            self.smallest = Some((index, fault));
        }
    }
}

/// Cases of a kind until there are calls enough, or so many that differ that no more are needed.
fn run(kind: &Kind, seed: u64, counts: &mut Counts) -> u64 {
    let mut faults = Faults::default();
    let mut index = 0;
    while counts.calls(kind.operation) < kind.calls && faults.count < 1_000 {
        if let Some(fault) = (kind.case)(Random::new(seed, index), counts) {
            faults.add(index, fault);
        }
        index += 1;
    }
    if let Some((at, fault)) = faults.smallest {
        println!(
            "{} of {index} {} differ; the smallest: calls {seed} {} {at}",
            faults.count, kind.name, kind.name
        );
        println!("  {}", fault.told);
    }
    faults.count
}

/// The case that the command line names.
fn again(seed: u64, name: &str, index: &str) -> Option<ExitCode> {
    let kind = KINDS.iter().find(|kind| kind.name == name)?;
    let fault = (kind.case)(Random::new(seed, index.parse().ok()?), &mut Counts::default());
    println!("{}", fault.as_ref().map_or("no difference", |fault| &fault.told));
    Some(if fault.is_some() { ExitCode::FAILURE } else { ExitCode::SUCCESS })
}

fn all(seed: u64) -> ExitCode {
    let mut counts = Counts::default();
    let mut failed = KINDS.iter().filter(|kind| run(kind, seed, &mut counts) != 0).count();
    println!("{} calls of seed {seed}, by the reference's answers:{counts}", counts.all());
    for (operation, answers) in ANSWERS {
        let never = counts.never(operation, answers);
        if !never.is_empty() {
            println!("{operation}: never came to {never:?}");
            failed += 1;
        }
    }
    println!("{} passed, {failed} failed", KINDS.len() + ANSWERS.len() - failed);
    if failed == 0 {
        ExitCode::SUCCESS
    } else {
        ExitCode::FAILURE
    }
}

fn main() -> ExitCode {
    let words: Vec<String> = env::args().skip(1).collect();
    let seed = words.first().map_or(Ok(1), |word| word.parse());
    let done = match (seed, words.as_slice()) {
        (Ok(seed), [] | [_]) => Some(all(seed)),
        (Ok(seed), [_, kind, index]) => again(seed, kind, index),
        _ => None,
    };
    done.unwrap_or_else(|| {
        eprintln!("calls [SEED [takes|cuts|others INDEX]]");
        ExitCode::from(2)
    })
}
