//! The frames of `answers`, values that are read and questions, and the lines that the Rust side owes for them.

use crate::framing;
use crate::pipe;
use crate::questions::planted::Planted;
use crate::questions::{Asks, Question};
use crate::record::Attribute;
use crate::table;
use crate::values::Value;
use std::io::{self, Read};

pub enum Frame {
    Read(Value),
    Asks(Question),
}

impl Frame {
    pub fn bytes(&self) -> Vec<u8> {
        match self {
            Self::Read(value) => value.frame(),
            Self::Asks(question) => question.frame(),
        }
    }

    /// By the table for a value, and by the module's records for a question.
    pub fn line(&self) -> String {
        match self {
            Self::Read(value) => table::answer(value.attribute, &value.bytes).to_string(),
            Self::Asks(question) => question.line(),
        }
    }

    /// The frame that the input goes on with, or none where there is no whole one.
    pub fn read(input: &mut impl Read) -> Option<Self> {
        let [letter] = framing::bytes(input)?;
        if let Some(attribute) = Attribute::of_letter(letter) {
            return Some(Self::Read(Value { attribute, bytes: framing::value(input)? }));
        }
        let asks = Asks::of_letter(letter)?;
        Some(Self::Asks(Question { asks, values: [framing::value(input)?, framing::value(input)?] }))
    }
}

/// Answers the frames of standard input as `answers` does, with a fault where one is named.
pub fn stand_in(fault: &str) -> io::Result<()> {
    let planted = Planted::new(fault)?;
    let line = |frame: &Frame| match frame {
        Frame::Asks(question) => planted.line(question),
        Frame::Read(_) => frame.line(),
    };
    pipe::stand_in(Frame::read, line, |said| planted.last_line(said))
}
