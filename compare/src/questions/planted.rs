//! Questions answered with one fault planted, for `compare/selftest`: the comparison must find each.

use super::{governing_line, naming, same_line, Asks, Level, Part, Question};
use crate::clock_signalling::ReferenceClock;
use crate::clocks::{clock, Clock};
use crate::faults;
use crate::record::Place;
use crate::side::Side;
use std::io;
use std::net::IpAddr;

const FAULTS: [&str; 10] = [
    "hosts-byte-by-byte",
    "families-mixed",
    "mapped-is-ipv4",
    "marks-folded",
    "all-letters-folded",
    "port-passed-over",
    "refused-media-passed-over",
    "place-off-by-one",
    "bracket-in-place",
    "asked-not-among-frames",
];

pub struct Planted {
    fault: &'static str,
}

impl Planted {
    pub fn new(fault: &str) -> io::Result<Self> {
        Ok(Self { fault: faults::named(&FAULTS, fault)? })
    }

    /// The line of the question, with the fault.
    pub fn line(&self, question: &Question) -> String {
        match question.asks {
            Asks::Same => match question.values.each_ref().map(|value| clock(value)) {
                [Some(first), Some(second)] => same_line(self.is_same(&first, &second)),
                _ => question.line(),
            },
            Asks::Governing => self.governing(question),
        }
    }

    fn is_same(&self, first: &Clock, second: &Clock) -> bool {
        let (Some((host, port)), Some((other, other_port))) = (first.host_and_port(), second.host_and_port()) else {
            return first == second;
        };
        let without_port = |host: &str| Clock::of(ReferenceClock::from_ntp_hostname(host));
        match self.fault {
            "hosts-byte-by-byte" => first.record == second.record,
            "port-passed-over" => without_port(host) == without_port(other),
            _ => first == second || port == other_port && self.is_taken_for(host, other),
        }
    }

    /// Whether hosts that are not alike are taken for one server.
    fn is_taken_for(&self, host: &str, other: &str) -> bool {
        let is_one = |made: fn(&str) -> Option<String>| made(host).is_some() && made(host) == made(other);
        match self.fault {
            "families-mixed" => is_one(|host| host.parse().ok().map(number)),
            "mapped-is-ipv4" => is_one(|host| host.parse().ok().map(|address: IpAddr| address.to_canonical().to_string())),
            "marks-folded" => is_one(|host| Some(host.chars().map(with_bit).collect())),
            "all-letters-folded" => is_one(|host| Some(host.to_lowercase())),
            _ => false,
        }
    }

    fn governing(&self, question: &Question) -> String {
        let mut level = question.governing_level();
        if self.fault == "refused-media-passed-over" && clock(question.value_of(level)).is_none() {
            level = Level::Session;
        }
        let (part, mut place) = naming(question.value_of(level));
        let has_bracket = part == Part::Host && place.start == 5;
        if self.fault == "place-off-by-one" && part == Part::Gmid || self.fault == "bracket-in-place" && has_bracket {
            place = Place { start: place.start - 1, ..place };
        }
        governing_line(level, place)
    }

    /// The last line, with the fault.
    pub fn last_line(&self, said: &Side) -> String {
        if self.fault == "asked-not-among-frames" {
            let read = Side { asked: 0, ..*said };
            return format!("{} asked {}", read.frames(), said.asked);
        }
        said.frames_and_asked()
    }
}

fn number(address: IpAddr) -> String {
    match address {
        IpAddr::V4(address) => u32::from(address).to_string(),
        IpAddr::V6(address) => u128::from(address).to_string(),
    }
}

/// The bit of small letters set in every byte from 0x40 to 0x5F, be it a letter or not.
fn with_bit(c: char) -> char {
    if ('@'..='_').contains(&c) {
        char::from(c as u8 | 0x20)
    } else {
        c
    }
}
