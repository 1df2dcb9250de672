//! The calls of a census as frames of the program `censuscalls`, and the lines that they owe.

use super::Census;
use crate::framing::{bytes, number, put_value, value};
use std::fmt;
use std::io::Read;

/// A fresh census is lent at most so many bytes.
pub const MOST_MEMORY: u32 = 300_000;

#[derive(Clone)]
pub enum Call {
    /// A fresh census that is lent so many bytes.
    Start(u32),
    Count(Vec<u8>),
    Withdraw(Vec<u8>),
    /// The first value's clock is joined into the second's.
    Join(Vec<u8>, Vec<u8>),
    StreamsOf(Vec<u8>),
    StreamsIn(u8),
    Totals,
}

impl Call {
    fn letter(&self) -> u8 {
        match self {
            Self::Start(_) => b's',
            Self::Count(_) => b'c',
            Self::Withdraw(_) => b'w',
            Self::Join(..) => b'j',
            Self::StreamsOf(_) => b'q',
            Self::StreamsIn(_) => b'd',
            Self::Totals => b't',
        }
    }

    pub fn values(&self) -> Vec<&Vec<u8>> {
        match self {
            Self::Count(value) | Self::Withdraw(value) | Self::StreamsOf(value) => vec![value],
            Self::Join(from, into) => vec![from, into],
            Self::Start(_) | Self::StreamsIn(_) | Self::Totals => Vec::new(),
        }
    }

    /// The letter, then a number of four bytes, high byte first, a domain of one, or values.
    pub fn frame(&self) -> Vec<u8> {
        let mut frame = vec![self.letter()];
        match self {
            Self::Start(memory) => frame.extend(memory.to_be_bytes()),
            Self::StreamsIn(domain) => frame.push(*domain),
            _ => (),
        }
        self.values().into_iter().for_each(|value| put_value(&mut frame, value));
        frame
    }

    /// The call of the frame that the input goes on with, or none where there is no whole one.
    pub fn read(input: &mut impl Read) -> Option<Self> {
        Some(match bytes(input)? {
            [b's'] => Self::Start(number(input, MOST_MEMORY)?),
            [b'c'] => Self::Count(value(input)?),
            [b'w'] => Self::Withdraw(value(input)?),
            [b'j'] => Self::Join(value(input)?, value(input)?),
            [b'q'] => Self::StreamsOf(value(input)?),
            [b'd'] => bytes(input).map(|[domain]| Self::StreamsIn(domain))?,
            [b't'] => Self::Totals,
            _ => return None,
        })
    }
}

impl fmt::Display for Call {
    fn fmt(&self, f: &mut fmt::Formatter<'_>) -> fmt::Result {
        write!(f, "{}", char::from(self.letter()))?;
        match self {
            Self::Start(memory) => write!(f, " {memory}")?,
            Self::StreamsIn(domain) => write!(f, " {domain}")?,
            _ => (),
        }
        self.values().into_iter().try_for_each(|value| write!(f, " \"{}\"", value.escape_ascii()))
    }
}

impl Census {
    /// Does the call and gives its line.
    pub fn line(&mut self, call: &Call) -> String {
        let answer = match call {
            Call::Start(memory) => {
                *self = Self::new(*memory);
                Ok("started".into())
            }
            Call::Count(value) => self.count(value).map(|()| "counted".into()),
            Call::Withdraw(value) => self.withdraw(value).map(|()| "withdrawn".into()),
            Call::Join(from, into) => self.join(from, into).map(|()| "joined".into()),
            Call::StreamsOf(value) => self.streams_of(value).map(|streams| format!("streams {streams}")),
            Call::StreamsIn(domain) => Ok(format!("domain {}", self.streams_in(*domain))),
            Call::Totals => {
                let (counted, refused) = self.counted_and_refused();
                Ok(format!("clocks {} streams {counted} refused {refused}", self.clocks().count()))
            }
        };
        answer.unwrap_or_else(|number| format!("no {number}"))
    }
}

/// The last line that `censuscalls` prints, and `fragments`.
pub fn last_line(calls: u64) -> String {
    format!("calls {calls}")
}
