//! Pairs of ts-refclk values made by chance from a seed: a third of them two spellings of one clock, the others near misses and values of any sort.

use super::Question;
use crate::census::pool::{with_host, Pool, Sources};
use crate::census::spelled;
use crate::clock_signalling::{NtpServerAddr, ReferenceClock};
use crate::clocks::clock;
use crate::hosts::{self, TWINS};
use crate::random::Random;
use crate::record::Attribute::TsRefclk;
use crate::seeded;
use crate::values::Value;
use std::collections::VecDeque;
use std::sync::Arc;

/// So many pairs are made from one pool of so many clocks.
const OF_A_POOL: usize = 90;
const CLOCKS: usize = 12;

#[derive(Clone)]
pub struct Pair {
    values: [Vec<u8>; 2],
    /// Made as two spellings of one clock.
    is_one_clock: bool,
}

#[derive(Clone)]
pub struct Pairs {
    left: u64,
    random: Random,
    sources: Arc<Sources>,
    /// Those of the pool under way that are still to come.
    made: VecDeque<Pair>,
}

impl Pairs {
    pub fn new(pairs: u64, seed: u64) -> Self {
        Self { left: pairs, random: Random::new(seed), sources: Arc::new(Sources::of_lists()), made: VecDeque::new() }
    }

    /// Both questions about each pair, and whether it was made as two spellings of one clock.
    pub fn questions(self) -> impl Iterator<Item = (Question, bool)> + Clone + Send {
        self.flat_map(|pair| Question::both(pair.values).map(|question| (question, pair.is_one_clock)))
    }
}

impl Iterator for Pairs {
    type Item = Pair;

    fn next(&mut self) -> Option<Pair> {
        self.left = self.left.checked_sub(1)?;
        if self.made.is_empty() {
            let random = &mut self.random;
            let pool = Pool::new(random, &self.sources, CLOCKS);
            self.made = (0..OF_A_POOL).map(|at| if at % 3 == 0 { of_one_clock(random, &pool) } else { other(random, &pool) }).collect();
        }
        self.made.pop_front()
    }
}

fn of_one_clock(random: &mut Random, pool: &Pool) -> Pair {
    loop {
        let clock = any_clock(random, pool);
        let values = [spelled(random, &clock), spelled(random, &clock)];
        if are_read_alike(&values) {
            return Pair { values, is_one_clock: true };
        }
    }
}

/// Mostly with a host.
fn any_clock(random: &mut Random, pool: &Pool) -> ReferenceClock {
    if random.once_in(3) {
        pool.any_clock(random).record.clone()
    } else {
        with_host(random)
    }
}

fn spelled(random: &mut Random, clock: &ReferenceClock) -> Vec<u8> {
    spelled::value(random, clock).into_bytes()
}

/// What is spelled may be too long, or a host with colons and its port may be an address together.
fn are_read_alike(values: &[Vec<u8>; 2]) -> bool {
    let [Some(first), Some(second)] = values.each_ref().map(|value| clock(value)) else {
        return false;
    };
    let port = |host_and_port: Option<(&str, Option<u16>)>| host_and_port.map(|(_, port)| port);
    port(first.host_and_port()) == port(second.host_and_port())
}

fn other(random: &mut Random, pool: &Pool) -> Pair {
    let values = match random.below(20) {
        0..=5 => near(random, pool),
        6 | 7 => of_two_families(random),
        8 | 9 => with_bit_turned(random),
        10 | 11 => with_twins(random),
        12 | 13 => nearly_addresses(random),
        14 => with_refused(random, pool),
        15 => with_empty(random, pool),
        16 | 17 => damaged(random, pool),
        18 => [pool.any_spelled(random), pool.any_spelled(random)],
        _ => [pool.value(random), pool.value(random)],
    };
    Pair { values, is_one_clock: false }
}

fn near(random: &mut Random, pool: &Pool) -> [Vec<u8>; 2] {
    let clock = any_clock(random, pool);
    let near = spelled::near(random, &clock);
    [spelled(random, &clock), spelled(random, &near)]
}

/// Two hosts with the same port, or without one, each in any spelling.
fn with_hosts(random: &mut Random, hosts: [String; 2]) -> [Vec<u8>; 2] {
    let port = [None, Some(80), Some(random.number() as u16)][random.below(3)];
    hosts.map(|hostname| spelled(random, &NtpServerAddr::HostPort { hostname, port }.into()))
}

fn of_two_families(random: &mut Random) -> [Vec<u8>; 2] {
    let address = hosts::octets(random);
    let hosts = [address.to_string(), hosts::of_other_family(random, address)];
    with_hosts(random, hosts)
}

fn with_bit_turned(random: &mut Random) -> [Vec<u8>; 2] {
    let name = hosts::name(random);
    let hosts = [hosts::with_bit(random, &name), name];
    with_hosts(random, hosts)
}

fn with_twins(random: &mut Random) -> [Vec<u8>; 2] {
    let (one, other) = TWINS[random.below(TWINS.len())];
    let name = hosts::name(random);
    with_hosts(random, [one, other].map(|twin| format!("{name}{twin}.org")))
}

/// Mostly with a port: without one a text that holds a colon is no host.
fn nearly_addresses(random: &mut Random) -> [Vec<u8>; 2] {
    let text = seeded::address(random);
    let end = random.pick(&["", ":80", ":80", ":+080"]);
    let mut other = hosts::in_any_case(random, &text);
    if random.once_in(2) {
        other.insert_str(random.below(other.len() + 1), random.pick(&["0", ":", ".", "%1", " "]));
    }
    [text, other].map(|host| format!("ntp={host}{end}").into_bytes())
}

/// The same one twice, or one beside a clock.
fn with_refused(random: &mut Random, pool: &Pool) -> [Vec<u8>; 2] {
    let refused = pool.refused(random);
    match random.below(3) {
        0 => [refused.clone(), refused],
        1 => [refused, pool.any_spelled(random)],
        _ => [pool.any_spelled(random), refused],
    }
}

fn with_empty(random: &mut Random, pool: &Pool) -> [Vec<u8>; 2] {
    match random.below(5) {
        0 => [Vec::new(), Vec::new()],
        1 => [Vec::new(), pool.value(random)],
        _ => [pool.value(random), Vec::new()],
    }
}

/// A value, and the same with a few bytes other.
fn damaged(random: &mut Random, pool: &Pool) -> [Vec<u8>; 2] {
    let clock = any_clock(random, pool);
    let bytes = spelled(random, &clock);
    let damaged = seeded::damaged(random, Value { attribute: TsRefclk, bytes: bytes.clone() });
    [bytes, damaged.bytes]
}
