//! The counting of our program `censuscalls` done with the Rust module and a `HashMap` by clock: standard input to standard output, of the frames
//! those that count a value, a line for each.

use compare::census::{frames::last_line, CLOCKS, NO_ENTRY};
use compare::clocks::{clock, Clock};
use std::collections::HashMap;
use std::io::{self, BufRead, BufReader, BufWriter, Read, Write};

#[derive(Default)]
struct Census {
    streams: HashMap<Clock, u64>,
    refused: u64,
}

fn main() -> io::Result<()> {
    let mut input = BufReader::new(io::stdin().lock());
    let mut output = BufWriter::new(io::stdout().lock());
    let mut census = Census::default();
    let mut value = Vec::new();
    let mut calls = 0;
    while !input.fill_buf()?.is_empty() {
        read_value(&mut input, &mut value)?;
        if census.count(&value) {
            writeln!(output, "counted")?;
        } else {
            writeln!(output, "no {NO_ENTRY}")?;
        }
        calls += 1;
    }
    writeln!(output, "{}", last_line(calls))?;
    output.flush()
}

/// Reads the value of the frame that the input goes on with.
fn read_value(input: &mut impl Read, value: &mut Vec<u8>) -> io::Result<()> {
    let mut head = [0; 3];
    input.read_exact(&mut head)?;
    let [b'c', high, low] = head else {
        return Err(io::Error::other("a frame that counts nothing"));
    };
    value.resize(usize::from(u16::from_be_bytes([high, low])), 0);
    input.read_exact(value)
}

impl Census {
    /// False where it would be one clock too many.
    fn count(&mut self, value: &[u8]) -> bool {
        let Some(clock) = clock(value) else {
            self.refused += 1;
            return true;
        };
        if let Some(streams) = self.streams.get_mut(&clock) {
            *streams += 1;
        } else if self.streams.len() < CLOCKS {
            self.streams.insert(clock, 1);
        } else {
            return false;
        }
        true
    }
}
