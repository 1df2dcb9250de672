//! The reader of lines that takes a text in fragments (docs/RULES.md, "Printing"), plainly: it keeps all of the open line, and what a call owes is
//! the report of the lines that end in it.

use crate::report::{Totals, MOST_READ};

pub mod check;
pub mod cut;
pub mod feeding;
pub mod frames;
pub mod limit;
pub mod planted;
pub mod steps;
pub mod stored;
pub mod sums;
pub mod texts;

const NO_ROOM: u8 = 24;
const CLOSED: u8 = 28;
const OVER_LIMIT: u8 = 37;

#[derive(Clone, Default)]
pub struct Reader {
    /// How many bytes the fragments had that were taken in.
    read: u64,
    /// All of the text behind its last LF.
    open: Vec<u8>,
    /// Of the lines before.
    totals: Totals,
    is_closed: bool,
}

impl Reader {
    /// Takes in a fragment and gives what it prints. A refused call of these is its number, and changes nothing.
    pub fn feed(&mut self, room: u32, fragment: &[u8]) -> Result<Vec<u8>, u8> {
        self.is_not_closed()?;
        let read = self.read + fragment.len() as u64;
        if read > MOST_READ {
            return Err(OVER_LIMIT);
        }
        let (ended, behind) = fragment.split_at(behind_last_lf(fragment));
        if ended.is_empty() {
            self.open.extend(behind);
            self.read = read;
            return Ok(Vec::new());
        }
        let mut totals = self.totals.clone();
        let printed = within(room, totals.replies(&[&self.open, ended].concat()))?;
        *self = Self { read, open: behind.to_vec(), totals, is_closed: false };
        Ok(printed)
    }

    /// The closing call: gives the reply to the last line, where there is one, and the totals.
    pub fn close(&mut self, room: u32) -> Result<Vec<u8>, u8> {
        self.is_not_closed()?;
        let printed = within(room, self.totals.clone().report(&self.open))?;
        self.is_closed = true;
        Ok(printed)
    }

    fn is_not_closed(&self) -> Result<(), u8> {
        if self.is_closed {
            Err(CLOSED)
        } else {
            Ok(())
        }
    }
}

fn within(room: u32, printed: Vec<u8>) -> Result<Vec<u8>, u8> {
    if printed.len() > room as usize {
        Err(NO_ROOM)
    } else {
        Ok(printed)
    }
}

/// The place behind the last LF, or the front where there is none.
fn behind_last_lf(bytes: &[u8]) -> usize {
    bytes.iter().rposition(|byte| *byte == b'\n').map_or(0, |at| at + 1)
}
