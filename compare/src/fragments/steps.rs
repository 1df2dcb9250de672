//! Calls made by chance from a seed: texts cut at any place, rooms that are too short now and then, and behind each text a fresh reader.

use super::feeding::{Feeding, Step, Text};
use super::frames::{Call, LONGEST, MOST_ROOM};
use super::texts::text;
use crate::lists;
use crate::random::Random;
use crate::values::Value;
use std::collections::VecDeque;
use std::sync::Arc;

const SHORTEST_REPLY: usize = "--\n".len();
const SHORTEST_TOTALS: usize = "lines 0 ok 0 no 0 other 0 long 0\n".len();

#[derive(Clone)]
pub struct Steps {
    texts: u64,
    random: Random,
    known: Arc<Vec<Value>>,
    /// Those of the text under way that are still to come.
    steps: VecDeque<Step>,
}

impl Steps {
    /// The calls of so many texts; the first meets the reader that is there before any is started.
    pub fn new(texts: u64, seed: u64) -> Self {
        Self { texts, random: Random::new(seed), known: Arc::new(lists::all()), steps: VecDeque::new() }
    }
}

impl Iterator for Steps {
    type Item = Step;

    fn next(&mut self) -> Option<Step> {
        if self.steps.is_empty() {
            self.texts = self.texts.checked_sub(1)?;
            let text = text(&mut self.random, &self.known);
            self.steps = of_text(&mut self.random, &text).into();
        }
        self.steps.pop_front()
    }
}

/// The text is fed, and the reader closed or the text given up; behind that a fresh one is started.
pub fn of_text(random: &mut Random, text: &[u8]) -> Vec<Step> {
    let mut feeding = Feeding::default();
    let is_by_bytes = random.once_in(4 + text.len() / 40);
    let can_be_given_up = random.once_in(10);
    let mut is_given_up = false;
    let mut at = 0;
    // behind the text fragments of no bytes may come
    while !is_given_up && (at < text.len() || random.once_in(3)) {
        if random.once_in(10) {
            feeding.call(without_room(random, &text[at..]));
        }
        let len = if is_by_bytes { random.below(12).min(1) } else { length(random, &text[at..]) };
        let fragment = &text[at..text.len().min(at + len)];
        feeding.feed(fragment, |printed| rooms(random, printed, fragment.len()));
        at += fragment.len();
        is_given_up = can_be_given_up && random.once_in(4);
    }
    if is_given_up {
        feeding.end(Text::given_up(&text[..at]));
    } else {
        feeding.close(|printed| rooms(random, printed, at));
        feeding.end(Text::closed(text));
        let refused = if random.once_in(4) { 1 + random.below(3) } else { 0 };
        (0..refused).for_each(|_| feeding.call(after_closing(random)));
    }
    feeding.start();
    feeding.steps
}

/// How many bytes the next fragment has, of what is left of the text: often it ends between CR and LF, or straight behind LF.
fn length(random: &mut Random, rest: &[u8]) -> usize {
    let behind_first_of = |mark: &[u8]| rest.windows(mark.len()).position(|bytes| bytes == mark).map_or(rest.len(), |at| at + 1);
    let len = match random.below(14) {
        0 => 0,
        1 | 2 => 1,
        3 | 4 => random.below(20),
        5..=7 => behind_first_of(b"\r\n"),
        8 | 9 => behind_first_of(b"\n"),
        10 => rest.len(),
        _ => random.below(rest.len() + 1),
    };
    len.min(LONGEST)
}

/// Rooms for a call that prints so many bytes: too short ones, mostly none, and one that is enough, at times six bytes for each byte fed.
fn rooms(random: &mut Random, printed: usize, fed: usize) -> Vec<usize> {
    let mut rooms = Vec::new();
    while printed > 0 && random.once_in(5) {
        rooms.push([0, printed - 1, printed - 1, random.below(printed)][random.below(4)]);
    }
    let most = MOST_ROOM as usize;
    rooms.push([printed, printed, printed, printed + random.below(40), (6 * fed).clamp(printed, most), most][random.below(6)]);
    rooms
}

/// The closing call, or a fragment that the next one need not be, with less room than either can do with.
fn without_room(random: &mut Random, rest: &[u8]) -> Call {
    let fragment = &rest[..rest.len().min(LONGEST)];
    if random.once_in(2) && fragment.contains(&b'\n') {
        Call::Feed { room: random.below(SHORTEST_REPLY) as u32, fragment: fragment.into() }
    } else {
        Call::Close { room: random.below(SHORTEST_TOTALS) as u32 }
    }
}

/// A call that is refused whatever it has, with room or without.
fn after_closing(random: &mut Random) -> Call {
    let room = [0, MOST_ROOM][random.below(2)];
    if random.once_in(2) {
        Call::Close { room }
    } else {
        Call::Feed { room, fragment: random.pick(&["", "\n", "x", "a=ts-refclk:gps\r\n"]).into() }
    }
}
