//! A census with one fault planted, for `compare/selftest`: the comparison must find each.

use super::frames::{last_line, Call};
use super::{Census, MEMORY};
use crate::clocks::clock;
use crate::faults;
use crate::pipe;
use std::io;

const FAULTS: [&str; 8] =
    ["joining-loses", "joining-to-itself-loses", "domain-stays", "entry-stays", "spelling-counts", "host-counts", "refused-is-lost", "less-memory"];

/// Answers the frames of standard input as `censuscalls` does, with a fault where one is named.
pub fn stand_in(fault: &str) -> io::Result<()> {
    let mut planted = Planted::new(fault)?;
    pipe::stand_in(Call::read, |call| planted.line(call), |said| last_line(said.answered()))
}

struct Planted {
    fault: &'static str,
    census: Census,
    /// A second list, of which some faults take their wrong answers.
    other: Census,
}

impl Planted {
    fn new(fault: &str) -> io::Result<Self> {
        Ok(Self { fault: faults::named(&FAULTS, fault)?, census: Census::new(MEMORY), other: Census::new(MEMORY) })
    }

    /// The line of the call, with the fault.
    fn line(&mut self, call: &Call) -> String {
        match (self.fault, call) {
            ("joining-loses", Call::Join(from, _)) if self.census.streams_of(from) > Ok(1) => drop(self.census.withdraw(from)),
            ("joining-to-itself-loses", Call::Join(from, into)) if clock(from) == clock(into) => drop(self.census.withdraw(from)),
            // the second list has no joinings
            ("domain-stays", Call::StreamsIn(_)) => return self.other.line(call),
            ("domain-stays", Call::Join(..)) => (),
            ("domain-stays", _) => drop(self.other.line(call)),
            // the second list has neither withdrawals nor joinings
            ("entry-stays", Call::Start(_)) => drop(self.other.line(call)),
            ("entry-stays", Call::Count(_)) if self.other.line(call) == "no 25" => return "no 25".to_string(),
            ("spelling-counts", Call::StreamsOf(value)) if is_spelled_otherwise(value) => return "streams 0".to_string(),
            ("host-counts", Call::StreamsOf(value)) if self.has_other_host(value) => return "streams 0".to_string(),
            ("refused-is-lost", Call::Count(value)) if clock(value).is_none() => return "counted".to_string(),
            ("less-memory", Call::Start(memory)) => return self.census.line(&Call::Start(memory + 1)),
            _ => (),
        }
        self.census.line(call)
    }

    /// Whether the clock was first counted with another spelling of its host.
    fn has_other_host(&self, value: &[u8]) -> bool {
        clock(value).is_some_and(|clock| self.census.known(&clock).is_some_and(|known| known.record != clock.record))
    }
}

fn is_spelled_otherwise(value: &[u8]) -> bool {
    clock(value).is_some_and(|clock| clock.to_string().as_bytes() != value)
}
