//! The two questions (docs/RULES.md, Q1 and Q2) as frames of `answers`, and the lines that they owe by the module's records.

use crate::clock_signalling::{Ptp, PtpServer, ReferenceClock};
use crate::clocks::{clock, Clock};
use crate::framing::put_value;
use crate::record::Place;
use std::fmt;

pub mod check;
pub mod listed;
pub mod pairs;
pub mod planted;

#[derive(Clone, Copy)]
pub enum Asks {
    Same,
    Governing,
}

impl Asks {
    const ALL: [Self; 2] = [Self::Same, Self::Governing];

    fn letter(self) -> u8 {
        match self {
            Self::Same => b's',
            Self::Governing => b'g',
        }
    }

    pub fn of_letter(letter: u8) -> Option<Self> {
        Self::ALL.into_iter().find(|asks| asks.letter() == letter)
    }
}

#[derive(Clone)]
pub struct Question {
    pub asks: Asks,
    /// Of the governing clock the session-level value comes first.
    pub values: [Vec<u8>; 2],
}

/// What of the value that governs names its clock.
#[derive(Clone, Copy, Debug, PartialEq)]
pub enum Part {
    Host,
    Gmid,
    Whole,
    /// Of a refused value.
    Nothing,
}

impl Question {
    /// Both questions about two values.
    pub fn both(values: [Vec<u8>; 2]) -> [Self; 2] {
        Asks::ALL.map(|asks| Self { asks, values: values.clone() })
    }

    pub fn frame(&self) -> Vec<u8> {
        let mut frame = vec![self.asks.letter()];
        self.values.iter().for_each(|value| put_value(&mut frame, value));
        frame
    }

    /// What `answers` owes.
    pub fn line(&self) -> String {
        let [first, second] = &self.values;
        match self.asks {
            Asks::Same => same_line(clock(first).is_some_and(|clock_of_first| Some(clock_of_first) == clock(second))),
            Asks::Governing => {
                let level = self.governing_level();
                let (_, place) = naming(self.value_of(level));
                governing_line(level, place)
            }
        }
    }

    /// The media-level value governs unless it has length 0.
    pub fn governing_level(&self) -> Level {
        if self.values[1].is_empty() {
            Level::Session
        } else {
            Level::Media
        }
    }

    pub fn value_of(&self, level: Level) -> &[u8] {
        &self.values[level as usize]
    }
}

/// In the order of the values.
#[derive(Clone, Copy, PartialEq)]
pub enum Level {
    Session,
    Media,
}

impl fmt::Display for Level {
    fn fmt(&self, f: &mut fmt::Formatter<'_>) -> fmt::Result {
        f.write_str(if *self == Self::Session { "session" } else { "media" })
    }
}

pub fn same_line(is_same: bool) -> String {
    if is_same { "same" } else { "different" }.to_string()
}

pub fn governing_line(level: Level, place: Place) -> String {
    format!("{level} {} {}", place.start, place.len)
}

/// The part of the value that names its clock, and its place.
pub fn naming(value: &[u8]) -> (Part, Place) {
    let whole = Place { start: 0, len: value.len() };
    let Some(clock) = clock(value) else {
        return (Part::Nothing, Place { start: 0, len: 0 });
    };
    match &clock.record {
        ReferenceClock::Ptp(Ptp { server: PtpServer::GmidDomain { .. }, .. }) => (Part::Gmid, between_colons(value)),
        _ => match clock.host_and_port() {
            // no host begins with a bracket: one behind `ntp=` is dropped
            Some((host, _)) => (Part::Host, Place { start: 4 + usize::from(value[4] == b'['), len: host.len() }),
            None => (Part::Whole, whole),
        },
    }
}

/// From behind the first colon up to the next one or the end.
fn between_colons(value: &[u8]) -> Place {
    let mut parts = value.split(|byte| *byte == b':').map(<[u8]>::len);
    let (before, between) = (parts.next().unwrap_or(0), parts.next().unwrap_or(0));
    Place { start: before + 1, len: between }
}

/// Whether the bytes are what the module has read as the host or the GMID.
pub fn is_of_module(clock: &Clock, bytes: &[u8]) -> bool {
    let text = String::from_utf8_lossy(bytes);
    match (&clock.record, clock.host_and_port()) {
        (ReferenceClock::Ptp(Ptp { server: PtpServer::GmidDomain { gmid, .. }, .. }), _) => text.parse() == Ok(*gmid),
        (_, Some((host, _))) => text == host,
        _ => true,
    }
}

impl fmt::Display for Question {
    fn fmt(&self, f: &mut fmt::Formatter<'_>) -> fmt::Result {
        write!(f, "{}", char::from(self.asks.letter()))?;
        self.values.iter().try_for_each(|value| write!(f, " \"{}\"", value.escape_ascii()))
    }
}
