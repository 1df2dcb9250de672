//! A reader that is fed, call by call, and at the end of each text what all of its calls owe together.

use super::frames::{Call, MOST_ROOM};
use super::{behind_last_lf, Reader};
use crate::report::Totals;

/// A call, and the text that ends with it, if one does.
#[derive(Clone)]
pub struct Step {
    pub call: Call,
    pub ended: Option<Text>,
}

impl Step {
    pub fn frame(&self) -> Vec<u8> {
        self.call.frame()
    }
}

impl From<Call> for Step {
    fn from(call: Call) -> Self {
        Self { call, ended: None }
    }
}

/// A text that was fed and closed, or given up.
#[derive(Clone)]
pub struct Text {
    pub len: u64,
    pub is_closed: bool,
    /// What is owed for it, by the report of the whole.
    pub owed: Vec<u8>,
}

impl Text {
    pub fn closed(text: &[u8]) -> Self {
        Self { len: text.len() as u64, is_closed: true, owed: Totals::default().report(text) }
    }

    /// For the line that is open nothing is owed, and no totals are.
    pub fn given_up(text: &[u8]) -> Self {
        let ended = &text[..behind_last_lf(text)];
        Self { len: text.len() as u64, is_closed: false, owed: Totals::default().replies(ended) }
    }
}

/// The calls made so far, and the reader that has done them.
#[derive(Default)]
pub struct Feeding {
    reader: Reader,
    pub steps: Vec<Step>,
}

impl Feeding {
    pub fn start(&mut self) {
        self.reader = Reader::default();
        self.call(Call::Start);
    }

    /// Feeds a fragment with each of the rooms that are made for the bytes it prints, of which the last is enough and the others are too short.
    pub fn feed(&mut self, fragment: &[u8], rooms: impl FnOnce(usize) -> Vec<usize>) {
        let printed = self.reader.feed(MOST_ROOM, fragment).expect("a fragment that comes before the closing call");
        for room in rooms(printed.len()) {
            self.call(Call::Feed { room: room as u32, fragment: fragment.into() });
        }
    }

    /// The closing call in the same way.
    pub fn close(&mut self, rooms: impl FnOnce(usize) -> Vec<usize>) {
        let printed = self.reader.close(MOST_ROOM).expect("the first closing call");
        for room in rooms(printed.len()) {
            self.call(Call::Close { room: room as u32 });
        }
    }

    /// With the call made last this text ends.
    pub fn end(&mut self, text: Text) {
        self.steps.last_mut().expect("a call").ended = Some(text);
    }

    pub fn call(&mut self, call: Call) {
        self.steps.push(call.into());
    }
}
