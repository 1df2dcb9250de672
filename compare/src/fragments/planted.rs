//! A reader with one fault planted, for `compare/selftest`: the comparison must find each.

use super::frames::{Answer, Call, MOST_ROOM};
use super::{Reader, NO_ROOM};
use crate::census::frames::last_line;
use crate::faults;
use crate::pipe;
use crate::report::{Totals, LINE};
use std::io;

const FAULTS: [&str; 14] = [
    "cr-dropped-at-cut",
    "cr-kept-at-cut",
    "open-line-lost",
    "open-line-cut-short",
    "one-byte-less-kept",
    "open-line-stays",
    "refused-is-taken",
    "refused-closes",
    "closed-again",
    "fed-after-closing",
    "room-before-closed",
    "one-byte-short",
    "empty-ends-line",
    "totals-of-last-call",
];

/// Answers the frames of standard input as `fragments` does, with a fault where one is named.
pub fn stand_in(fault: &str) -> io::Result<()> {
    let mut planted = Planted { fault: faults::named(&FAULTS, fault)?, reader: Reader::default() };
    pipe::stand_in(Call::read, |call| planted.answer(call).to_string(), |said| last_line(said.answered()))
}

struct Planted {
    fault: &'static str,
    reader: Reader,
}

impl Planted {
    /// The answer to the call, with the fault.
    fn answer(&mut self, call: &Call) -> Answer {
        match (self.fault, call) {
            ("open-line-stays", Call::Start) => {
                self.reader = Reader { open: std::mem::take(&mut self.reader.open), ..Reader::default() };
                return Answer::Started;
            }
            ("room-before-closed", _) if Reader { is_closed: false, ..self.reader.clone() }.answer(call) == Answer::Refused(NO_ROOM) => {
                return Answer::Refused(NO_ROOM);
            }
            _ => (),
        }
        self.before(call);
        let answer = self.reader.answer(&self.instead(call.clone()));
        self.behind(call, &answer);
        answer
    }

    /// What the fault makes of the reader before the call.
    fn before(&mut self, call: &Call) {
        let Reader { open, totals, is_closed, .. } = &mut self.reader;
        match (self.fault, call) {
            ("open-line-lost", Call::Feed { .. }) => open.clear(),
            ("totals-of-last-call", Call::Feed { .. }) => *totals = Totals::default(),
            ("fed-after-closing", Call::Feed { .. }) | ("closed-again", Call::Close { .. }) => *is_closed = false,
            _ => (),
        }
    }

    /// The call that the fault makes of a call.
    fn instead(&self, call: Call) -> Call {
        let open = &self.reader.open;
        match (self.fault, call) {
            ("cr-dropped-at-cut", Call::Feed { room, fragment }) if fragment.ends_with(b"\r") => {
                Call::Feed { room, fragment: fragment[..fragment.len() - 1].into() }
            }
            ("cr-kept-at-cut", Call::Feed { room, fragment }) if open.ends_with(b"\r") && fragment.starts_with(b"\n") => {
                Call::Feed { room, fragment: [b"\r", &fragment[..]].concat() }
            }
            ("empty-ends-line", Call::Feed { room, fragment }) if fragment.is_empty() && !open.is_empty() => {
                Call::Feed { room, fragment: b"\n".into() }
            }
            ("one-byte-short", Call::Feed { room, fragment }) => Call::Feed { room: room + 1, fragment },
            ("one-byte-short", Call::Close { room }) => Call::Close { room: room + 1 },
            (_, call) => call,
        }
    }

    /// What the fault makes of the reader behind the call.
    fn behind(&mut self, call: &Call, answer: &Answer) {
        match (self.fault, call, answer) {
            // of so many bytes a line is not long yet
            ("open-line-cut-short", ..) => self.reader.open.truncate(LINE),
            // and of one more neither where the last of them is taken for the CR of its end
            ("one-byte-less-kept", ..) => self.reader.open.truncate(LINE + 1),
            ("refused-is-taken", Call::Feed { fragment, .. }, Answer::Refused(NO_ROOM)) => drop(self.reader.feed(MOST_ROOM, fragment)),
            ("refused-closes", Call::Close { .. }, Answer::Refused(NO_ROOM)) => self.reader.is_closed = true,
            _ => (),
        }
    }
}
