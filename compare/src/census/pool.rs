//! The clocks that one run is about, and values that name them in any spelling, or are refused.

use super::{domain_of, spelled};
use crate::clock_signalling::{NtpServerAddr, PtpDomain, ReferenceClock};
use crate::clocks::{clock, Clock};
use crate::hosts;
use crate::lists;
use crate::random::Random;
use crate::record::Attribute::TsRefclk;
use crate::seeded;
use crate::table::LONGEST;
use crate::values::Value;

/// The values that pools are made from: all of the lists, and of those for ts-refclk the ones that are accepted and the ones that are not.
pub struct Sources {
    known: Vec<Value>,
    examples: Vec<Clock>,
    accepted: Vec<Clock>,
    refused: Vec<Vec<u8>>,
}

impl Sources {
    pub fn of_lists() -> Self {
        let known = lists::all();
        let values = |list: &[Value]| list.iter().filter(|value| value.attribute == TsRefclk).map(|value| value.bytes.clone()).collect::<Vec<_>>();
        let clocks = |list: &[Value]| values(list).iter().filter_map(|value| clock(value)).collect();
        let mut refused = values(&known);
        refused.retain(|value| clock(value).is_none());
        Self { examples: clocks(&lists::examples()), accepted: clocks(&known), refused, known }
    }
}

pub struct Pool<'a> {
    sources: &'a Sources,
    clocks: Vec<Clock>,
}

impl<'a> Pool<'a> {
    /// So many clocks, most of them near another one.
    pub fn new(random: &mut Random, sources: &'a Sources, size: usize) -> Self {
        let mut pool = Self { sources, clocks: Vec::new() };
        while pool.clocks.len() < size {
            let made = pool.new_clock(random);
            // what is made may be spelled as another clock, or as none
            match clock(spelled::value(random, &made).as_bytes()) {
                Some(clock) if !pool.clocks.contains(&clock) => pool.clocks.push(clock),
                _ => (),
            }
        }
        pool
    }

    fn new_clock(&self, random: &mut Random) -> ReferenceClock {
        match random.below(12) {
            0 => one_of(random, &self.sources.examples).record.clone(),
            1 => one_of(random, &self.sources.accepted).record.clone(),
            2..=8 if !self.clocks.is_empty() => {
                let clock = one_of(random, &self.clocks);
                spelled::near(random, &clock.record)
            }
            9 | 10 => with_host(random),
            _ => with_domain(random),
        }
    }

    pub fn size(&self) -> usize {
        self.clocks.len()
    }

    /// A spelling of the clock at the place.
    pub fn spelled(&self, random: &mut Random, at: usize) -> Vec<u8> {
        spelled::value(random, &self.clocks[at].record).into_bytes()
    }

    pub fn any_clock(&self, random: &mut Random) -> &Clock {
        one_of(random, &self.clocks)
    }

    pub fn any_spelled(&self, random: &mut Random) -> Vec<u8> {
        let at = random.below(self.size());
        self.spelled(random, at)
    }

    /// A domain number: mostly of one of the clocks, where one has any.
    pub fn domain(&self, random: &mut Random) -> u8 {
        let domains: Vec<u8> = self.clocks.iter().filter_map(domain_of).collect();
        if domains.is_empty() || random.once_in(4) {
            random.byte()
        } else {
            *one_of(random, &domains)
        }
    }

    /// A value of the lists that is refused.
    pub fn refused(&self, random: &mut Random) -> Vec<u8> {
        one_of(random, &self.sources.refused).clone()
    }

    /// A value: mostly a spelling of one of the clocks, else refused, or of any sort.
    pub fn value(&self, random: &mut Random) -> Vec<u8> {
        let spelled = self.any_spelled(random);
        match random.below(100) {
            0..=3 => self.refused(random),
            4..=6 => with_byte(random, spelled, 0xFF),
            7..=8 => lengthened(random, spelled),
            9..=11 => seeded::damaged(random, Value { attribute: TsRefclk, bytes: spelled }).bytes,
            12..=14 => seeded::value(random, &self.sources.known).bytes,
            _ => spelled,
        }
    }
}

/// A PTP clock of one of a few domain numbers.
fn with_domain(random: &mut Random) -> ReferenceClock {
    let domain = PtpDomain::DomainNumber([0, 1, 126, 127][random.below(4)]);
    ReferenceClock::from_ptp_gmid_with_domain(random.number(), domain)
}

/// An NTP clock, mostly with a port of a few.
pub fn with_host(random: &mut Random) -> ReferenceClock {
    let port = [None, Some(0), Some(80), Some(123), Some(random.number() as u16)][random.below(5)];
    NtpServerAddr::HostPort { hostname: hosts::any(random), port }.into()
}

fn one_of<'a, T>(random: &mut Random, from: &'a [T]) -> &'a T {
    &from[random.below(from.len())]
}

fn with_byte(random: &mut Random, mut value: Vec<u8>, byte: u8) -> Vec<u8> {
    value.insert(random.below(value.len() + 1), byte);
    value
}

/// The value made about as long as a value can be, or one byte longer, or up to three times as long.
fn lengthened(random: &mut Random, mut value: Vec<u8>) -> Vec<u8> {
    let len = LONGEST + [0, 1, random.below(2 * LONGEST)][random.below(3)];
    value.resize(len.max(value.len()), b'0');
    value
}
