//! The comparison of `censuscalls` with the plain list: every line, the sums of either side, and after every call the sum that each side owes.

use super::frames::{last_line, Call};
use super::runs::Calls;
use super::{cut, Census, CLOCKS, MEMORY};
use crate::check::{list, PRINTED};
use crate::clocks::clock;
use crate::pipe;
use crate::table::LONGEST;
use std::collections::BTreeMap;

/// From so many calls on every kind of answer must be among them.
const ENOUGH: u64 = 20_000;
const KINDS: [&str; 10] = ["started", "counted", "withdrawn", "joined", "streams", "domain", "totals", "no 24", "no 25", "no 27"];

pub fn compare(calls: u64, seed: u64, program: &[String]) -> Result<bool, String> {
    let mut check = Check::default();
    let mut census = Census::new(MEMORY);
    let last = pipe::ask_lines(program, Calls::new(calls, seed), Call::frame, |call, said| check.one(call, said, &census.line(call)))?;
    pipe::ends_with(&last, &last_line(calls))?;
    let equal = check.report();
    Ok(cut::compare(program)? & (calls < ENOUGH || check.has_all()) & equal)
}

#[derive(Default)]
struct Check {
    calls: u64,
    values: Values,
    ours: Answers,
    list: Answers,
    differences: u64,
}

impl Check {
    /// Compares the two lines for a call; false where ours is no answer.
    fn one(&mut self, call: &Call, said: &str, owed: &str) -> bool {
        self.calls += 1;
        call.values().into_iter().for_each(|value| self.values.count(value));
        if said != owed {
            self.differences += 1;
            if self.differences <= PRINTED {
                println!("DIFFERENCE at call {}, {call}\n  {said}\n  and by the list\n  {owed}", self.calls);
            }
        }
        self.list.take(owed) && self.ours.take(said)
    }

    /// Prints the sums; true where they are right and nothing differs.
    fn report(&self) -> bool {
        self.values.say();
        self.ours.say("censuscalls");
        self.list.say("the list");
        println!("differences {}", self.differences);
        let is_right = |side: &Answers| side.answered() == self.calls && side.unbalanced == 0;
        self.differences == 0 && is_right(&self.ours) && is_right(&self.list)
    }

    /// True where every kind of answer was given; prints which were not.
    fn has_all(&self) -> bool {
        let missing = self.ours.missing();
        if !missing.is_empty() {
            println!("none of: {missing:?}");
        }
        missing.is_empty()
    }
}

/// What one side answered, and what its totals must add up to.
#[derive(Default)]
pub struct Answers {
    kinds: BTreeMap<String, u64>,
    /// Calls answered "counted" less those answered "withdrawn", since the census was fresh.
    balance: i64,
    /// Totals that do not add up to it.
    unbalanced: u64,
    entries: Entries,
    /// How often all entries were taken once more, one of them having been free since a 256th clock was refused.
    filled_again: u64,
}

#[derive(Default)]
enum Entries {
    #[default]
    NeverFull,
    Full,
    FreeAgain,
}

impl Answers {
    /// Takes in a line; false where it is no answer.
    pub fn take(&mut self, line: &str) -> bool {
        let words: Vec<&str> = line.split(' ').collect();
        let kind = match words[..] {
            ["started"] => {
                self.balance = 0;
                self.entries = Entries::NeverFull;
                line
            }
            ["counted"] => {
                self.balance += 1;
                line
            }
            ["withdrawn"] => {
                self.balance -= 1;
                line
            }
            ["joined"] => line,
            ["no", number] => {
                if number == "25" {
                    self.entries = Entries::Full;
                }
                line
            }
            [kind @ ("streams" | "domain"), _] => kind,
            ["clocks", clocks, "streams", streams, "refused", refused] => {
                self.take_totals(clocks, streams, refused);
                "totals"
            }
            _ => return false,
        };
        *self.kinds.entry(kind.to_string()).or_default() += 1;
        true
    }

    fn take_totals(&mut self, clocks: &str, streams: &str, refused: &str) {
        let sum = streams.parse().and_then(|streams: i64| Ok(streams + refused.parse::<i64>()?));
        if sum != Ok(self.balance) {
            self.unbalanced += 1;
        }
        let is_full = clocks.parse() == Ok(CLOCKS);
        match self.entries {
            Entries::Full if !is_full => self.entries = Entries::FreeAgain,
            Entries::FreeAgain if is_full => {
                self.filled_again += 1;
                self.entries = Entries::Full;
            }
            _ => (),
        }
    }

    /// The kinds of answer that were not given, and whether no census was full again.
    pub fn missing(&self) -> Vec<&'static str> {
        let kinds = KINDS.into_iter().filter(|kind| !self.kinds.contains_key(*kind));
        kinds.chain((self.filled_again == 0).then_some("full again")).collect()
    }

    fn answered(&self) -> u64 {
        self.kinds.values().sum()
    }

    fn say(&self, name: &str) {
        println!("{name}: answered {}: {}", self.answered(), list(self.kinds.iter()));
        println!("{name}: totals other than counted less withdrawn {}, full again {}", self.unbalanced, self.filled_again);
    }
}

/// The values of the calls.
#[derive(Default)]
struct Values {
    written: u64,
    otherwise: u64,
    refused: u64,
    not_utf8: u64,
    long: u64,
}

impl Values {
    fn count(&mut self, value: &[u8]) {
        let sort = match clock(value) {
            Some(clock) if clock.to_string().as_bytes() == value => &mut self.written,
            Some(_) => &mut self.otherwise,
            None if value.len() > LONGEST => &mut self.long,
            None if std::str::from_utf8(value).is_err() => &mut self.not_utf8,
            None => &mut self.refused,
        };
        *sort += 1;
    }

    fn say(&self) {
        let Self { written, otherwise, refused, not_utf8, long } = self;
        let (accepted, others) = (written + otherwise, refused + not_utf8 + long);
        println!("values {} = {accepted} accepted + {others} refused", accepted + others);
        println!("accepted {accepted} = {written} as they are written + {otherwise} in another spelling");
        println!("refused {others} = {long} over 1,024 bytes + {not_utf8} not UTF-8 + {refused} others");
    }
}
