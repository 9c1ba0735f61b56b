//! Answers counted, and differences told.

use std::collections::BTreeMap;
use std::fmt::{self, Debug};

/// How often each answer of each operation came, by the reference.
#[derive(Default)]
pub struct Counts(BTreeMap<(&'static str, u8), u64>);

impl Counts {
    pub fn met(&mut self, operation: &'static str, answer: u8) {
        *self.0.entry((operation, answer)).or_default() += 1;
    }

    /// All calls of an operation.
    pub fn calls(&self, operation: &str) -> u64 {
        self.0.iter().filter(|((name, _), _)| *name == operation).map(|(_, count)| count).sum()
    }

    pub fn all(&self) -> u64 {
        self.0.values().sum()
    }

    /// Those of the answers that never came.
    pub fn never(&self, operation: &'static str, answers: &[u8]) -> Vec<u8> {
        answers.iter().copied().filter(|&answer| !self.0.contains_key(&(operation, answer))).collect()
    }
}

impl fmt::Display for Counts {
    fn fmt(&self, f: &mut fmt::Formatter<'_>) -> fmt::Result {
        let mut before = "";
        for ((operation, answer), count) in &self.0 {
            let front = if *operation == before { ", ".into() } else { format!("\n  {operation}: ") };
            write!(f, "{front}{answer}: {count}")?;
            before = operation;
        }
        Ok(())
    }
}

/// A call whose results differ: how much led to it, and all there is to tell.
pub struct Fault {
    pub size: (usize, usize),
    pub told: String,
}

/// What differs after one call.
#[derive(Default)]
pub struct Differences(Vec<String>);

impl Differences {
    pub fn same<T: PartialEq + Debug>(&mut self, what: &str, got: T, due: T) {
        if got != due {
            self.0.push(format!("{what}: {got:?}, expected {due:?}"));
        }
    }

    pub fn holds(&mut self, what: &str, holds: bool) {
        self.same(what, holds, true);
    }

    /// The first byte that differs, with a record's worth of bytes from there on.
    pub fn bytes(&mut self, what: &str, got: &[u8], due: &[u8]) {
        let differing = got.iter().zip(due).position(|(one, other)| one != other);
        let Some(first) = differing.or((got.len() != due.len()).then_some(got.len().min(due.len()))) else {
            return;
        };
        let part = |bytes: &[u8]| hex(&bytes[first.min(bytes.len())..bytes.len().min(first + 24)]);
        self.0.push(format!("{what}, byte {first}: {}, expected {}", part(got), part(due)));
    }

    /// A fault, if anything differs: after so many calls of its case, with so many bytes handed in.
    pub fn fault(self, before: usize, handed: usize, call: impl FnOnce() -> String) -> Option<Fault> {
        let told = || format!("after {before} calls, {}\n  {}", call(), self.0.join("\n  "));
        (!self.0.is_empty()).then(|| Fault { size: (before, handed), told: told() })
    }
}

pub fn hex(bytes: &[u8]) -> String {
    bytes.iter().map(|byte| format!("{byte:02X}")).collect::<Vec<_>>().join(" ")
}
