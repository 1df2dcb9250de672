//! The comparison of `fragments` with the reader in Rust, call by call, and with the report of each whole text.

use super::feeding::{Step, Text};
use super::frames::{shown, Answer, Call};
use super::steps::Steps;
use super::sums::{Side, Sums};
use super::{cut, Reader};
use crate::census::frames::last_line;
use crate::check::{list, say_first_difference, PRINTED};
use crate::pipe;
use crate::report::LINE;
use std::collections::BTreeMap;

/// From so many texts on all of these must be among the answers, or the fragments taken in.
const ENOUGH: u64 = 1000;
pub const KINDS_AND_SORTS: [&str; 10] =
    ["started", "filled", "filled nothing", "no 24", "no 28", NO_BYTES, BETWEEN_CR_AND_LF, IN_LONG_LINE, IN_LINE, AT_FRONT];

const NO_BYTES: &str = "of no bytes";
const BETWEEN_CR_AND_LF: &str = "between CR and LF";
const IN_LONG_LINE: &str = "in a long line";
const IN_LINE: &str = "in another line";
const AT_FRONT: &str = "at a line's front";

pub fn compare(texts: u64, seed: u64, program: &[String]) -> Result<bool, String> {
    let mut check = Check::default();
    check.run(Steps::new(texts, seed), program)?;
    let is_cut = cut::compare(program)?;
    Ok(check.report() & is_cut & (texts < ENOUGH || check.has(&KINDS_AND_SORTS)))
}

#[derive(Default)]
pub struct Check {
    reader: Reader,
    calls: u64,
    /// The fragments that are taken in, by where they begin.
    sorts: BTreeMap<&'static str, u64>,
    ours: Side,
    rust: Side,
    closed: u64,
    given_up: u64,
    texts: Sums,
    differences: u64,
}

impl Check {
    /// Runs the program on the calls.
    pub fn run(&mut self, steps: impl Iterator<Item = Step> + Clone + Send, program: &[String]) -> Result<(), String> {
        let last = pipe::ask_lines(program, steps, Step::frame, |step, said| self.one(step, said))?;
        pipe::ends_with(&last, &last_line(self.calls))
    }

    /// Compares the two lines for a call, and where a text ends with it all that was printed with its report; false where ours is no answer.
    pub fn one(&mut self, step: &Step, said: &str) -> bool {
        self.calls += 1;
        let sort = self.sort(&step.call);
        let owed = self.reader.answer(&step.call);
        if said != owed.to_string() {
            self.differ(&step.call, said, &owed);
        }
        if let (Some(sort), Answer::Filled(_)) = (sort, &owed) {
            *self.sorts.entry(sort).or_default() += 1;
        }
        let Some(answer) = Answer::parse(said) else {
            return false;
        };
        self.ours.take(&step.call, answer);
        self.rust.take(&step.call, owed);
        if let Some(text) = &step.ended {
            self.end(text);
        }
        true
    }

    /// Where the fragment begins that a call feeds.
    fn sort(&self, call: &Call) -> Option<&'static str> {
        let Call::Feed { fragment, .. } = call else {
            return None;
        };
        let open = &self.reader.open;
        Some(match fragment.first() {
            None => NO_BYTES,
            Some(b'\n') if open.ends_with(b"\r") => BETWEEN_CR_AND_LF,
            _ if open.len() > LINE => IN_LONG_LINE,
            _ if open.is_empty() => AT_FRONT,
            _ => IN_LINE,
        })
    }

    fn differ(&mut self, call: &Call, said: &str, owed: &Answer) {
        self.differences += 1;
        if self.differences > PRINTED {
            return;
        }
        let at = format!("call {}, {call}", self.calls);
        match (Answer::parse(said), owed) {
            (Some(Answer::Filled(said)), Answer::Filled(owed)) if said != *owed => say_printed(&at, &said, owed),
            _ => println!("DIFFERENCE at {at}\n  {}\n  and by the Rust\n  {}", shown(said), shown(&owed.to_string())),
        }
    }

    /// What the calls of either side printed, put one after another, must be the report of the text.
    fn end(&mut self, text: &Text) {
        *(if text.is_closed { &mut self.closed } else { &mut self.given_up }) += 1;
        self.texts.fed += text.len;
        self.texts.printed += text.owed.len() as u64;
        if text.is_closed {
            self.texts.take_totals(&text.owed);
            self.ours.take_totals();
            self.rust.take_totals();
        }
        for (name, side) in [("fragments", &self.ours), ("the Rust, call by call", &self.rust)] {
            if side.printed != text.owed {
                self.differences += 1;
                if self.differences <= PRINTED {
                    let at = format!("text {}, which ends with call {}, all calls of {name}", self.closed + self.given_up, self.calls);
                    say_printed(&at, &side.printed, &text.owed);
                }
            }
        }
    }

    /// Prints the sums; true where they are right and nothing differs.
    pub fn report(&self) -> bool {
        println!("texts {} = {} closed + {} given up", self.closed + self.given_up, self.closed, self.given_up);
        println!("fragments taken in {}: {}", self.sorts.values().sum::<u64>(), list(self.sorts.iter()));
        self.texts.say("the Rust, text by text");
        self.rust.say("the Rust, call by call");
        self.ours.say("fragments");
        println!("differences {}", self.differences);
        self.is_right()
    }

    /// Whether nothing differs, all calls were answered, and what either side was fed and printed is the sum of the texts and of their reports.
    pub fn is_right(&self) -> bool {
        let is_right = |side: &Side| side.answered() == self.calls && side.sums == self.texts;
        self.differences == 0 && self.texts.wrong == 0 && is_right(&self.ours) && is_right(&self.rust)
    }

    /// True where all of these are among the answers, or the fragments taken in; prints which are not.
    pub fn has(&self, kinds_and_sorts: &[&str]) -> bool {
        let is_there = |name: &&str| self.ours.kinds.contains_key(*name) || self.sorts.contains_key(name);
        let missing: Vec<&str> = kinds_and_sorts.iter().copied().filter(|name| !is_there(name)).collect();
        if !missing.is_empty() {
            println!("none of: {missing:?}");
        }
        missing.is_empty()
    }
}

fn say_printed(at: &str, said: &[u8], owed: &[u8]) {
    say_first_difference(at, &String::from_utf8_lossy(said), &String::from_utf8_lossy(owed));
}
