//! The census of streams as a plain list of them, over the module's own records: what `censuscalls` and `census` owe is taken from here.

use crate::clock_signalling::{Ptp, PtpDomain, PtpServer, ReferenceClock};
use crate::clocks::{clock, Clock};

pub mod cut;
pub mod frames;
pub mod planted;
pub mod pool;
pub mod runs;
pub mod session;
pub mod spelled;
pub mod stored;
pub mod sums;

/// Lent memory below this is refused.
pub const MEMORY: u32 = 270_000;
/// So many clocks can have streams.
pub const CLOCKS: usize = 255;

const NO_MEMORY: u8 = 24;
pub const NO_ENTRY: u8 = 25;
const NO_STREAMS: u8 = 27;

/// Refusal 26 is not here: no run comes to 4,294,967,295 streams.
pub struct Census {
    memory: u32,
    /// A stream is its clock, by the record of the value that the clock was first counted with, or none where its value was refused.
    streams: Vec<Option<Clock>>,
}

impl Census {
    /// A fresh census that is lent so many bytes.
    pub fn new(memory: u32) -> Self {
        Self { memory, streams: Vec::new() }
    }

    fn has_memory(&self) -> Result<(), u8> {
        if self.memory < MEMORY {
            Err(NO_MEMORY)
        } else {
            Ok(())
        }
    }

    /// Counts the value; a refused call of these is its number.
    pub fn count(&mut self, value: &[u8]) -> Result<(), u8> {
        self.has_memory()?;
        let stream = match clock(value) {
            None => None,
            Some(clock) => match self.known(&clock) {
                None if self.clocks().count() == CLOCKS => return Err(NO_ENTRY),
                None => Some(clock),
                known => known,
            },
        };
        self.streams.push(stream);
        Ok(())
    }

    pub fn withdraw(&mut self, value: &[u8]) -> Result<(), u8> {
        self.has_memory()?;
        let stream = clock(value);
        let at = self.streams.iter().position(|other| *other == stream).ok_or(NO_STREAMS)?;
        self.streams.remove(at);
        Ok(())
    }

    /// The clock as it was first counted, or none where it has no streams.
    pub fn known(&self, clock: &Clock) -> Option<Clock> {
        self.streams.iter().flatten().find(|other| *other == clock).cloned()
    }

    /// All streams of the first value's clock are then the second's.
    pub fn join(&mut self, from: &[u8], into: &[u8]) -> Result<(), u8> {
        self.has_memory()?;
        let known = |value| clock(value).and_then(|clock| self.known(&clock)).ok_or(NO_STREAMS);
        let (from, into) = (known(from)?, known(into)?);
        for stream in self.streams.iter_mut().flatten().filter(|stream| **stream == from) {
            stream.clone_from(&into);
        }
        Ok(())
    }

    /// How many streams the value's clock has.
    pub fn streams_of(&self, value: &[u8]) -> Result<usize, u8> {
        self.has_memory()?;
        Ok(clock(value).map_or(0, |clock| self.count_of(&clock)))
    }

    pub fn count_of(&self, clock: &Clock) -> usize {
        self.streams.iter().flatten().filter(|other| *other == clock).count()
    }

    /// How many streams have a clock with this domain number.
    pub fn streams_in(&self, domain: u8) -> usize {
        self.streams.iter().flatten().filter(|clock| domain_of(clock) == Some(domain)).count()
    }

    /// The clocks that have streams, in the order of their first ones.
    pub fn clocks(&self) -> impl Iterator<Item = &Clock> {
        let is_first = |at: usize| !self.streams[..at].contains(&self.streams[at]);
        (0..self.streams.len()).filter(move |at| self.streams[*at].is_some() && is_first(*at)).flat_map(|at| &self.streams[at])
    }

    /// How many streams have a clock, and how many were refused.
    pub fn counted_and_refused(&self) -> (usize, usize) {
        let counted = self.streams.iter().flatten().count();
        (counted, self.streams.len() - counted)
    }
}

pub fn domain_of(clock: &Clock) -> Option<u8> {
    match &clock.record {
        ReferenceClock::Ptp(Ptp { server: PtpServer::GmidDomain { domain: Some(PtpDomain::DomainNumber(number)), .. }, .. }) => Some(*number),
        _ => None,
    }
}
