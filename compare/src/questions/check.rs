//! The comparison of `answers` with the module's records on the two questions: every line, and the sums of either side.

use super::pairs::Pairs;
use super::{is_of_module, naming, Asks, Question};
use crate::check::PRINTED;
use crate::clocks::clock;
use crate::cuts;
use crate::pipe;
use crate::side::Side;

/// From so many pairs on every kind of answer must be among them.
const ENOUGH: u64 = 20_000;

pub fn compare(pairs: u64, seed: u64, program: &[String]) -> Result<bool, String> {
    let mut check = Check::default();
    let questions = Pairs::new(pairs, seed).questions();
    let last = pipe::ask_lines(program, questions, |(question, _)| question.frame(), |(question, is_one), said| check.one(question, *is_one, said))?;
    let asked = Side { asked: 2 * pairs, ..Side::default() };
    pipe::ends_with(&last, &asked.frames_and_asked())?;
    let equal = check.report(pairs);
    Ok(cuts::compare(program)? & (pairs < ENOUGH || check.has_all()) & equal)
}

#[derive(Default)]
struct Check {
    /// Pairs that were made as two spellings of one clock.
    of_one_clock: u64,
    ours: Answers,
    module: Answers,
    /// Governing values by the part that names their clock.
    parts: [u64; 4],
    differences: u64,
}

impl Check {
    /// Compares the line for a question with the one owed; false where it is no answer.
    fn one(&mut self, question: &Question, is_one_clock: bool, said: &str) -> bool {
        let owed = question.line();
        match question.asks {
            Asks::Same => self.of_one_clock += u64::from(is_one_clock),
            Asks::Governing => self.governing(question, &owed),
        }
        if said != owed {
            self.differ(question, said, &format!("by the module it is\n  {owed}"));
        }
        self.module.take(&owed, is_one_clock) && self.ours.take(said, is_one_clock)
    }

    /// At the place that is owed the module's own text must stand.
    fn governing(&mut self, question: &Question, owed: &str) {
        let value = question.value_of(question.governing_level());
        let (part, place) = naming(value);
        self.parts[part as usize] += 1;
        let is_right = clock(value).is_none_or(|clock| place.of(value).is_some_and(|bytes| is_of_module(&clock, bytes)));
        if !is_right {
            self.differ(question, owed, "is owed, and the module has read another text");
        }
    }

    fn differ(&mut self, question: &Question, line: &str, why: &str) {
        self.differences += 1;
        if self.differences <= PRINTED {
            println!("DIFFERENCE at {question}\n  {line}\n  {why}");
        }
    }

    /// Prints the sums; true where they are right and nothing differs.
    fn report(&self, pairs: u64) -> bool {
        println!("pairs {pairs} = {} two spellings of one clock + {} others", self.of_one_clock, pairs - self.of_one_clock);
        self.ours.say("answers");
        self.module.say("the module");
        let [host, gmid, whole, nothing] = self.parts;
        println!("governing: host {host}, GMID {gmid}, whole value {whole}, refused {nothing}");
        println!("differences {}", self.differences);
        let is_right = |side: &Answers| side.asked() == 2 * pairs && side.same_of_one_clock == self.of_one_clock;
        self.differences == 0 && is_right(&self.ours) && is_right(&self.module)
    }

    /// True where every kind of answer was given; says so where one was not.
    fn has_all(&self) -> bool {
        let has_all = self.ours.kinds.iter().chain(&self.parts).all(|count| *count > 0);
        if !has_all {
            println!("a kind of answer was not given");
        }
        has_all
    }
}

/// The first words of the answers: those of the first two stand alone, behind the others stand two numbers.
const KINDS: [&str; 4] = ["same", "different", "session", "media"];

/// What one side answered.
#[derive(Default)]
struct Answers {
    kinds: [u64; 4],
    same_of_one_clock: u64,
}

impl Answers {
    /// Takes in a line; false where it is no answer.
    fn take(&mut self, line: &str, is_one_clock: bool) -> bool {
        let words: Vec<&str> = line.split(' ').collect();
        let Some(kind) = KINDS.iter().position(|kind| *kind == words[0]) else {
            return false;
        };
        self.kinds[kind] += 1;
        self.same_of_one_clock += u64::from(line == "same" && is_one_clock);
        words.len() == if kind < 2 { 1 } else { 3 }
    }

    fn asked(&self) -> u64 {
        self.kinds.iter().sum()
    }

    fn say(&self, name: &str) {
        let [same, different, session, media] = self.kinds;
        println!("{name}: asked {} = same {same} + different {different} + session {session} + media {media}", self.asked());
        println!("{name}: same of two spellings of one clock {}", self.same_of_one_clock);
    }
}
