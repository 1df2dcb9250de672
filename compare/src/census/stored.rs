//! The stored lists of `censuscalls` and `census`, made by chance and answered from the plain list, as files that a gate can replay with no Rust at
//! hand.

use super::frames::{last_line, Call};
use super::pool::Sources;
use super::runs::Calls;
use super::sums::Answers;
use super::{session, Census, MEMORY};
use crate::random::Random;
use std::io;
use std::path::Path;

const CALLS: u64 = 4000;
/// With this seed every kind of answer is among them.
const SEED: u64 = 3;
/// Calls with a longer value are left out.
const LONGEST_STORED: usize = 5000;

/// Writes calls as `stdin` and their lines as `stdout` into the folder, the same bytes each time. The last frame ends early.
pub fn write_calls(folder: &Path) -> io::Result<()> {
    let is_short = |call: &Call| call.values().iter().all(|value| value.len() < LONGEST_STORED);
    let calls: Vec<Call> = Calls::new(CALLS, SEED).filter(is_short).collect();
    let mut frames: Vec<u8> = calls.iter().flat_map(Call::frame).collect();
    frames.extend(b"c\0");
    let mut census = Census::new(MEMORY);
    let lines: Vec<String> = calls.iter().map(|call| census.line(call)).collect();
    let mut answers = Answers::default();
    for line in &lines {
        answers.take(line);
    }
    let missing = answers.missing();
    if !missing.is_empty() {
        return Err(io::Error::other(format!("the stored list has none of {missing:?}")));
    }
    write(folder, &frames, &format!("{}\ncut\n{}\n", lines.join("\n"), last_line(calls.len() as u64)))
}

/// Writes a text of many clocks as `stdin` and what is printed for it as `stdout`.
pub fn write_text(folder: &Path) -> io::Result<()> {
    let text = session::text(&mut Random::new(SEED), &Sources::of_lists(), true);
    write(folder, &text, &session::report(&text))
}

fn write(folder: &Path, input: &[u8], output: &str) -> io::Result<()> {
    std::fs::write(folder.join("stdin"), input)?;
    std::fs::write(folder.join("stdout"), output)
}
