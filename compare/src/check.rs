//! The comparison of three: the line that `answers` printed, the module, and the table of the rules. It counts what it compared.

use crate::attributes::AttributeError;
use crate::leaf;
use crate::module::{self, Made};
use crate::notation::{self, hex};
use crate::record::{Answer, KINDS};
use crate::side::Side;
use crate::table::{self, LONGEST};
use crate::values::Value;
use std::collections::BTreeMap;

/// So many differences are printed; all are counted.
pub const PRINTED: u64 = 20;

#[derive(Default)]
pub struct Check {
    made: u64,
    within: u64,
    others: u64,
    answers: Side,
    table: Side,
    module: Side,
    kinds: BTreeMap<&'static str, u64>,
    numbers: BTreeMap<u8, u64>,
    pub differences: u64,
}

impl Check {
    /// Compares the line that `answers` printed for the value with the table and, where the module can be asked, with the module.
    pub fn one(&mut self, value: &Value, line: &str) {
        self.made += 1;
        let expected = table::answer(value.attribute, &value.bytes);
        self.table.count(matches!(expected, Answer::Accepted(..)));
        let said = notation::parse(value.attribute, line);
        match &said {
            None => self.differ(value, line, "this is no answer"),
            Some(answer) => {
                self.answers.count(matches!(answer, Answer::Accepted(..)));
                self.count(answer);
            }
        }
        if line != expected.to_string() {
            self.differ(value, line, &format!("the table's line is\n  {expected}"));
        }
        if let Answer::Accepted(_, text) = &expected {
            if text.len() > value.bytes.len() + 2 {
                self.differ(value, line, "the written text is over 2 bytes longer than the value");
            }
        }
        let over = value.bytes.len().saturating_sub(LONGEST);
        match std::str::from_utf8(&value.bytes) {
            _ if over > 0 => self.without_module(value, line, &format!("no 1 {LONGEST} {over}")),
            Ok(text) => self.with_module(value, text, line, said.as_ref(), &expected),
            Err(error) => self.without_module(value, line, &format!("no 2 {} 1", error.valid_up_to())),
        }
    }

    fn with_module(&mut self, value: &Value, text: &str, line: &str, said: Option<&Answer>, expected: &Answer) {
        self.within += 1;
        let module: Result<Made, AttributeError> = module::read(value.attribute, text);
        self.module.count(module.is_ok());
        if let Some(objection) = said.and_then(|answer| module::objection(text, &module, answer)) {
            self.differ(value, line, &objection);
        }
        if let Some(objection) = module::objection(text, &module, expected) {
            self.differ(value, &expected.to_string(), &format!("(the table's) {objection}"));
        }
    }

    /// Where the module cannot be asked, as it takes a `str`, the length or std's UTF-8 check alone gives the line.
    fn without_module(&mut self, value: &Value, line: &str, expected: &str) {
        self.others += 1;
        if line != expected {
            self.differ(value, line, &format!("by the length, or by std's UTF-8 check, it is\n  {expected}"));
        }
    }

    /// `ntp=[TEXT]` is accepted exactly where std takes the text for an IP address, and so does the recogniser here.
    pub fn address(&mut self, value: &Value, line: &str) {
        let inside = value.bytes.strip_prefix(b"ntp=[").and_then(|rest| rest.strip_suffix(b"]"));
        let Some(text) = inside.and_then(|bytes| std::str::from_utf8(bytes).ok()) else { return };
        if text.contains(']') || value.bytes.len() > LONGEST {
            return;
        }
        let is_address = text.parse::<std::net::IpAddr>().is_ok();
        if is_address != line.starts_with("ok ") {
            self.differ(value, line, &format!("std says {is_address} to the address"));
        }
        if is_address != leaf::is_ip_address(text.as_bytes()) {
            self.differ(value, line, &format!("std says {is_address} to the address, and the table does not"));
        }
    }

    fn count(&mut self, answer: &Answer) {
        match answer {
            Answer::Accepted(record, _) => record.kinds().into_iter().for_each(|kind| *self.kinds.entry(kind).or_default() += 1),
            Answer::Refused(refusal) => *self.numbers.entry(refusal.number).or_default() += 1,
        }
    }

    fn differ(&mut self, value: &Value, line: &str, why: &str) {
        self.differences += 1;
        if self.differences <= PRINTED {
            let text = value.bytes.escape_ascii();
            println!("DIFFERENCE at {:?} {text}\n  bytes {}\n  {line}\n  {why}", value.attribute, hex(&value.bytes));
        }
    }

    /// Prints the sums; true where they are right and nothing differs.
    pub fn report(&self) -> bool {
        println!("made {} = {} UTF-8 within 1,024 + {} others", self.made, self.within, self.others);
        self.answers.say("answers");
        self.table.say("table");
        self.module.say("module");
        println!("accepted: {}", list(self.kinds.iter()));
        println!("refused: {}", list(self.numbers.iter()));
        println!("differences {}", self.differences);
        let answered = |side: &Side, owed| side.answered() == owed;
        self.differences == 0
            && self.made == self.within + self.others
            && answered(&self.answers, self.made)
            && answered(&self.table, self.made)
            && answered(&self.module, self.within)
    }

    /// True where every kind of record and every number of a reader's refusal was among the answers; prints which were not.
    pub fn has_all(&self) -> bool {
        let kinds: Vec<&str> = KINDS.into_iter().filter(|kind| !self.kinds.contains_key(kind)).collect();
        let numbers: Vec<u8> = (1..=22).filter(|number| !self.numbers.contains_key(number)).collect();
        if !kinds.is_empty() || !numbers.is_empty() {
            println!("none of: {kinds:?}, refusals {numbers:?}");
        }
        kinds.is_empty() && numbers.is_empty()
    }
}

pub fn list<'a, K: std::fmt::Display + 'a>(counts: impl Iterator<Item = (&'a K, &'a u64)>) -> String {
    counts.map(|(name, count)| format!("{name} {count}")).collect::<Vec<_>>().join(", ")
}

/// The numbers of a line that has these names, each with its number behind it.
pub fn numbers<const N: usize>(line: &str, names: &[&str; N]) -> Option<[u64; N]> {
    let words: Vec<&str> = line.split(' ').collect();
    let numbers: Vec<u64> = words.iter().skip(1).step_by(2).filter_map(|word| word.parse().ok()).collect();
    numbers.try_into().ok().filter(|_| words.iter().step_by(2).eq(names))
}

/// Prints the first line in which two outputs differ.
pub fn say_first_difference(at: &str, said: &str, owed: &str) {
    let same = said.lines().zip(owed.lines()).take_while(|(one, other)| one == other).count();
    let line = |text: &str| text.lines().nth(same).map_or("nothing".to_string(), |line| line.escape_debug().to_string());
    println!("DIFFERENCE at {at}, line {} of what is printed\n  {}\n  and by the Rust\n  {}", same + 1, line(said), line(owed));
}
