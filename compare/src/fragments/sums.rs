//! What one side answered to the calls, and what bytes and lines that came to.

use super::frames::{Answer, Call};
use crate::check::{list, numbers};
use crate::report::TOTALS;
use std::collections::BTreeMap;

#[derive(Default)]
pub struct Side {
    pub kinds: BTreeMap<String, u64>,
    pub sums: Sums,
    /// What the calls since the last fresh reader printed, put one after another.
    pub printed: Vec<u8>,
}

impl Side {
    pub fn take(&mut self, call: &Call, answer: Answer) {
        *self.kinds.entry(answer.kind()).or_default() += 1;
        if let Call::Start = call {
            self.printed.clear();
        }
        if let Answer::Filled(bytes) = answer {
            self.sums.fed += call.fragment().len() as u64;
            self.sums.printed += bytes.len() as u64;
            self.printed.extend(bytes);
        }
    }

    /// Of the report that was printed.
    pub fn take_totals(&mut self) {
        self.sums.take_totals(&self.printed);
    }

    pub fn answered(&self) -> u64 {
        self.kinds.values().sum()
    }

    pub fn say(&self, name: &str) {
        self.sums.say(name);
        println!("{name}: answered {}: {}", self.answered(), list(self.kinds.iter()));
    }
}

#[derive(Default, PartialEq)]
pub struct Sums {
    /// The bytes that were taken in.
    pub fed: u64,
    pub printed: u64,
    totals: [u64; 5],
    /// Reports whose totals do not add up.
    pub wrong: u64,
}

impl Sums {
    pub fn take_totals(&mut self, report: &[u8]) {
        match totals(&String::from_utf8_lossy(report)) {
            Some(totals) => (0..5).for_each(|at| self.totals[at] += totals[at]),
            None => self.wrong += 1,
        }
    }

    pub fn say(&self, name: &str) {
        let Self { fed, printed, totals: [lines, ok, no, other, long], wrong } = self;
        println!(
            "{name}: fed {fed} bytes, printed {printed} bytes; totals lines {lines} = ok {ok} + no {no} + other {other} + long {long}, wrong {wrong}"
        );
    }
}

/// The totals of a report, where they add up: the lines are those of all kinds, and each has its reply.
fn totals(report: &str) -> Option<[u64; 5]> {
    let totals = numbers(report.lines().next_back()?, &TOTALS)?;
    let [lines, ok, no, other, long] = totals;
    let printed = report.matches('\n').count() as u64;
    (lines == ok + no + other + long && printed == lines + 1).then_some(totals)
}
