//! The report of a text by the module (docs/RULES.md, "Printing"): the reply to each line, and the totals. What is accepted is read and written by
//! the module alone; the number and place of a refusal come from the table of the rules.

use crate::clock_signalling::{MediaClockSource, ReferenceClock};
use crate::record::{Answer, Attribute};
use crate::table::{self, LONGEST};
use std::fmt::{self, Display};
use std::io::{self, Write};
use std::str::FromStr;

/// Of a longer text no more is read.
pub const MOST_READ: u64 = 4_294_967_295;
/// A line over this is not looked into.
pub const LINE: usize = 4096;

/// The lines of a text without their ends; the last may have none.
pub fn lines(text: &[u8]) -> impl Iterator<Item = &[u8]> {
    text.split_inclusive(|byte| *byte == b'\n').map(without_end)
}

/// A line without its LF and the one CR before it; where it has no LF nothing is dropped.
pub fn without_end(line: &[u8]) -> &[u8] {
    match line {
        [line @ .., b'\r', b'\n'] | [line @ .., b'\n'] => line,
        _ => line,
    }
}

/// What the numbers of the last line of a report are called, in its order.
pub const TOTALS: [&str; 5] = ["lines", "ok", "no", "other", "long"];

/// How many lines were replied to, and how many of them with each kind of reply.
#[derive(Clone, Default)]
pub struct Totals {
    lines: u64,
    ok: u64,
    no: u64,
    other: u64,
    long: u64,
}

impl Display for Totals {
    fn fmt(&self, f: &mut fmt::Formatter<'_>) -> fmt::Result {
        let Self { lines, ok, no, other, long } = self;
        write!(f, "lines {lines} ok {ok} no {no} other {other} long {long}")
    }
}

impl Totals {
    /// Counts a line, given without its end, and writes the reply to it.
    pub fn reply(&mut self, line: &[u8], output: &mut impl Write) -> io::Result<()> {
        self.lines += 1;
        if line.len() > LINE {
            self.long += 1;
            writeln!(output, "long")
        } else if let Some(value) = line.strip_prefix(Attribute::TsRefclk.front()) {
            self.reply_to_value::<ReferenceClock>(Attribute::TsRefclk, value, output)
        } else if let Some(value) = line.strip_prefix(Attribute::Mediaclk.front()) {
            self.reply_to_value::<MediaClockSource>(Attribute::Mediaclk, value, output)
        } else {
            self.other += 1;
            writeln!(output, "--")
        }
    }

    fn reply_to_value<T: FromStr + Display>(&mut self, attribute: Attribute, value: &[u8], output: &mut impl Write) -> io::Result<()> {
        if let Some(clock) = read::<T>(value) {
            self.ok += 1;
            return writeln!(output, "ok {clock}");
        }
        let Answer::Refused(refusal) = table::answer(attribute, value) else {
            return Err(io::Error::other(format!("the module refuses and the table accepts: {}", value.escape_ascii())));
        };
        self.no += 1;
        writeln!(output, "no {} {} {}", refusal.number, refusal.place.start, refusal.place.len)
    }

    /// Counts the lines of a text and gives the replies to them.
    pub fn replies(&mut self, text: &[u8]) -> Vec<u8> {
        let mut replies = Vec::new();
        for line in lines(text) {
            self.reply(line, &mut replies).expect("values that the table refuses where the module does");
        }
        replies
    }

    /// The replies to the lines of a text, and behind them the totals, these lines among them.
    pub fn report(mut self, text: &[u8]) -> Vec<u8> {
        let mut report = self.replies(text);
        report.extend(format!("{self}\n").bytes());
        report
    }
}

fn read<T: FromStr>(value: &[u8]) -> Option<T> {
    if value.len() > LONGEST {
        return None;
    }
    std::str::from_utf8(value).ok()?.parse().ok()
}
