//! The calls of a reader as frames of the program `fragments`, and the lines that answer them.

use super::Reader;
use crate::framing::{bytes, number, so_many};
use crate::notation::{hex, unhex};
use std::fmt;
use std::io::Read;

/// A call has at most so many bytes of room.
pub const MOST_ROOM: u32 = 400_000;
/// A fragment has at most so many bytes.
pub const LONGEST: usize = 65_536;
/// Of a longer text no more is shown where something differs.
const SHOWN: usize = 200;

#[derive(Clone)]
pub enum Call {
    /// A fresh reader.
    Start,
    Feed {
        room: u32,
        fragment: Vec<u8>,
    },
    Close {
        room: u32,
    },
}

impl Call {
    /// The letter, then the room and the fragment's length in four bytes each, high byte first, and the fragment.
    pub fn frame(&self) -> Vec<u8> {
        match self {
            Self::Start => b"s".to_vec(),
            Self::Feed { room, fragment } => [b"f", &room.to_be_bytes()[..], &(fragment.len() as u32).to_be_bytes(), fragment].concat(),
            Self::Close { room } => [b"x", &room.to_be_bytes()[..]].concat(),
        }
    }

    /// What the call feeds.
    pub fn fragment(&self) -> &[u8] {
        match self {
            Self::Feed { fragment, .. } => fragment,
            Self::Start | Self::Close { .. } => &[],
        }
    }

    /// The call of the frame that the input goes on with, or none where there is no whole one.
    pub fn read(input: &mut impl Read) -> Option<Self> {
        Some(match bytes(input)? {
            [b's'] => Self::Start,
            [b'f'] => {
                let room = number(input, MOST_ROOM)?;
                let len = number(input, LONGEST as u32)?;
                Self::Feed { room, fragment: so_many(input, len as usize)? }
            }
            [b'x'] => Self::Close { room: number(input, MOST_ROOM)? },
            _ => return None,
        })
    }
}

impl fmt::Display for Call {
    fn fmt(&self, f: &mut fmt::Formatter<'_>) -> fmt::Result {
        match self {
            Self::Start => write!(f, "s"),
            Self::Feed { room, fragment } => {
                let text = shown(&fragment.escape_ascii().to_string());
                write!(f, "f with room {room} and {} bytes \"{text}\"", fragment.len())
            }
            Self::Close { room } => write!(f, "x with room {room}"),
        }
    }
}

pub fn shown(text: &str) -> String {
    let front: String = text.chars().take(SHOWN).collect();
    if front == text {
        front
    } else {
        front + " .."
    }
}

/// What a line says.
#[derive(PartialEq)]
pub enum Answer {
    Started,
    /// These bytes of the room were filled.
    Filled(Vec<u8>),
    Refused(u8),
}

impl fmt::Display for Answer {
    fn fmt(&self, f: &mut fmt::Formatter<'_>) -> fmt::Result {
        match self {
            Self::Started => write!(f, "started"),
            Self::Filled(bytes) if bytes.is_empty() => write!(f, "filled 0"),
            Self::Filled(bytes) => write!(f, "filled {} {}", bytes.len(), hex(bytes)),
            Self::Refused(number) => write!(f, "no {number}"),
        }
    }
}

impl Answer {
    pub fn kind(&self) -> String {
        match self {
            Self::Filled(bytes) if bytes.is_empty() => "filled nothing".into(),
            Self::Filled(_) => "filled".into(),
            Self::Started | Self::Refused(_) => self.to_string(),
        }
    }

    /// None where the line is no answer.
    pub fn parse(line: &str) -> Option<Self> {
        let words: Vec<&str> = line.split(' ').collect();
        Some(match words[..] {
            ["started"] => Self::Started,
            ["filled", "0"] => Self::Filled(Vec::new()),
            ["filled", len, digits] => Self::Filled(unhex(digits).filter(|bytes| bytes.len().to_string() == len)?),
            ["no", number] => Self::Refused(number.parse().ok()?),
            _ => return None,
        })
    }
}

impl Reader {
    /// Does the call.
    pub fn answer(&mut self, call: &Call) -> Answer {
        let printed = match call {
            Call::Start => {
                *self = Self::default();
                return Answer::Started;
            }
            Call::Feed { room, fragment } => self.feed(*room, fragment),
            Call::Close { room } => self.close(*room),
        };
        printed.map_or_else(Answer::Refused, Answer::Filled)
    }
}
