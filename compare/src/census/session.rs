//! Session texts made by chance for the program `census`, and what it owes for each by the plain list.

use super::pool::{Pool, Sources};
use super::{Census, MEMORY};
use crate::check::{numbers, say_first_difference, PRINTED};
use crate::lines::{end, OTHERS};
use crate::pipe;
use crate::random::Random;
use crate::record::Attribute;
use crate::report::{lines, LINE};
use crate::seeded;
use std::io::{self, Read, Write};

const CLOCK_LINE: &[u8] = Attribute::TsRefclk.front();
/// From so many texts on every sum must be over 0.
const ENOUGH: u64 = 12;

/// What `census` prints for the text.
pub fn report(text: &[u8]) -> String {
    let mut census = Census::new(MEMORY);
    let (mut all, mut streams, mut uncounted) = (0, 0, 0);
    for line in lines(text) {
        all += 1;
        if let Some(value) = line.strip_prefix(CLOCK_LINE).filter(|_| line.len() <= LINE) {
            streams += 1;
            uncounted += u64::from(census.count(value).is_err());
        }
    }
    let clocks: Vec<String> = census.clocks().map(|clock| format!("{} {clock}\n", census.count_of(clock))).collect();
    let domains = (0..=127).map(|domain| (domain, census.streams_in(domain))).filter(|(_, streams)| *streams > 0);
    let domains: String = domains.map(|(domain, streams)| format!("domain {domain} {streams}\n")).collect();
    let (counted, refused) = census.counted_and_refused();
    let totals = format!("lines {all} streams {streams} clocks {} counted {counted} refused {refused} uncounted {uncounted}\n", clocks.len());
    clocks.concat() + &domains + &totals
}

/// Prints what is owed for the text on standard input, as `census` does.
pub fn stand_in() -> io::Result<()> {
    let mut text = Vec::new();
    io::stdin().lock().read_to_end(&mut text)?;
    io::stdout().lock().write_all(report(&text).as_bytes())
}

/// Runs `census` on so many texts and compares all that it prints with what is owed.
pub fn compare(texts: u64, seed: u64, program: &[String]) -> Result<bool, String> {
    let mut random = Random::new(seed);
    let sources = Sources::of_lists();
    let (mut ours, mut list) = (Sums::default(), Sums::default());
    let mut differences = 0;
    for at in 1..=texts {
        let text = text(&mut random, &sources, at % 3 == 0);
        let owed = report(&text);
        let said = String::from_utf8_lossy(&pipe::ask_once(program, &text)?).into_owned();
        ours.take(&said);
        list.take(&owed);
        if said != owed {
            differences += 1;
            if differences <= PRINTED {
                say_first_difference(&format!("text {at}"), &said, &owed);
            }
        }
    }
    ours.say("census");
    list.say("the list");
    println!("differences {differences}");
    let has_all = texts < ENOUGH || ours.numbers.iter().all(|number| *number > 0);
    if !has_all {
        println!("a sum is 0");
    }
    Ok(differences == 0 && ours.wrong == 0 && list.wrong == 0 && has_all)
}

const NAMES: [&str; 6] = ["lines", "streams", "clocks", "counted", "refused", "uncounted"];

/// The last lines of one side added up, and how many outputs do not add up in themselves.
#[derive(Default)]
struct Sums {
    numbers: [u64; 6],
    wrong: u64,
}

impl Sums {
    fn take(&mut self, output: &str) {
        match totals(output) {
            Some(numbers) => (0..6).for_each(|at| self.numbers[at] += numbers[at]),
            None => self.wrong += 1,
        }
    }

    fn say(&self, name: &str) {
        let numbers: Vec<String> = NAMES.iter().zip(self.numbers).map(|(name, number)| format!("{name} {number}")).collect();
        println!("{name}: {}; texts whose numbers do not add up {}", numbers.join(" "), self.wrong);
    }
}

/// The numbers of an output's last line, where they add up: streams are those counted, refused and uncounted; and the lines of the clocks are as many
/// as it says and have the sum of those counted.
fn totals(output: &str) -> Option<[u64; 6]> {
    let numbers = numbers(output.lines().last()?, &NAMES)?;
    let [_, streams, clocks, counted, refused, uncounted] = numbers;
    let counts: Vec<u64> = output.lines().filter_map(|line| line.split(' ').next()?.parse().ok()).collect();
    let adds_up = streams == counted + refused + uncounted && counts.len() as u64 == clocks && counts.iter().sum::<u64>() == counted;
    adds_up.then_some(numbers)
}

/// A text of few clocks, or of about as many as there are entries, each at least once.
pub fn text(random: &mut Random, sources: &Sources, has_many: bool) -> Vec<u8> {
    let size = if has_many { 254 + random.below(47) } else { 1 + random.below(12) };
    let pool = Pool::new(random, sources, size);
    let mut text = Vec::new();
    let at_least_once = if has_many { size } else { 0 };
    for at in 0..at_least_once {
        text.extend([CLOCK_LINE, &pool.spelled(random, at), b"\n"].concat());
    }
    for _ in 0..random.below(400) {
        text.extend(line(random, &pool));
        text.extend(end(random));
    }
    text.extend(random.pick(&["", "a", "\r", "a=ts-refclk:gps", "a=ts-refclk:gps\r", "a=ts-refclk:"]).as_bytes());
    text
}

fn line(random: &mut Random, pool: &Pool) -> Vec<u8> {
    match random.below(20) {
        0 => random.pick(&OTHERS).into(),
        1 => [b"a=mediaclk:", &seeded::by_grammar(random).bytes[..]].concat(),
        // refused for its length, or no clock line
        2 if random.once_in(4) => [CLOCK_LINE, &vec![b'x'; LINE - CLOCK_LINE.len() - 2 + random.below(5)]].concat(),
        _ => [CLOCK_LINE, &pool.value(random)].concat(),
    }
}
