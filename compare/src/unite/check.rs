//! The comparison of `unite` with the second implementation: all that is printed, and the sums of either side.

use super::made::{has_prints_from_before, kept};
use super::{cut, report, Kept};
use crate::census::pool::Sources;
use crate::check::{say_first_difference, PRINTED};
use crate::pipe;
use crate::random::Random;
use std::io;
use std::path::Path;

/// So many censuses are read one behind another by one run of the program.
const OF_A_RUN: u64 = 20;
/// From so many on some clocks must have been united.
const ENOUGH: u64 = 50;

pub fn compare(censuses: u64, seed: u64, program: &[String]) -> Result<bool, String> {
    let mut random = Random::new(seed);
    let sources = Sources::of_lists();
    let (mut ours, mut second) = (Sums::default(), Sums::default());
    let mut differences = 0;
    for from in (0..censuses).step_by(OF_A_RUN as usize) {
        let to = censuses.min(from + OF_A_RUN);
        let input: Vec<u8> = (from..to).flat_map(|_| kept(&mut random, &sources).bytes()).collect();
        let owed = report(&input, Kept::unite);
        let said = String::from_utf8_lossy(&pipe::ask_once(program, &input)?).into_owned();
        ours.take(&said);
        second.take(&owed);
        if said != owed {
            differences += 1;
            if differences <= PRINTED {
                say_first_difference(&format!("the censuses {} to {to}", from + 1), &said, &owed);
            }
        }
    }
    ours.say("unite");
    second.say("the Rust");
    println!("differences {differences}");
    let equal = differences == 0 && ours.is_right(censuses) && second.is_right(censuses);
    Ok(cut::compare(program)? & equal)
}

/// What one side printed, added up: before and after.
#[derive(Default)]
struct Sums {
    clocks: [u64; 2],
    streams: [u64; 2],
    /// By the last lines.
    censuses: u64,
    said: [u64; 2],
    /// Lines of totals whose clocks and refused values are not all streams.
    wrong: u64,
}

impl Sums {
    fn take(&mut self, output: &str) {
        for line in output.lines() {
            let words: Vec<&str> = line.split(' ').collect();
            let number = |at: usize| words[at].parse().unwrap_or(0);
            match words[..] {
                ["before", "clocks", _, "counted", _, "refused", _, "streams", _] => self.take_totals(0, [2, 4, 6, 8].map(number)),
                ["after", "clocks", _, "counted", _, "refused", _, "streams", _] => self.take_totals(1, [2, 4, 6, 8].map(number)),
                ["censuses", _, "before", _, "after", _] => {
                    self.censuses += number(1);
                    self.said[0] += number(3);
                    self.said[1] += number(5);
                }
                _ => (),
            }
        }
    }

    fn take_totals(&mut self, when: usize, [clocks, counted, refused, streams]: [u64; 4]) {
        self.clocks[when] += clocks;
        self.streams[when] += counted + refused;
        self.wrong += u64::from(counted + refused != streams);
    }

    fn say(&self, name: &str) {
        let Self { clocks, streams, censuses, wrong, .. } = self;
        println!("{name}: censuses {censuses}, clocks before {} after {}, streams before {} after {}", clocks[0], clocks[1], streams[0], streams[1]);
        println!("{name}: lines of totals that do not add up {wrong}");
    }

    /// True where no stream was lost or won, the last lines say so, and clocks were united.
    fn is_right(&self, censuses: u64) -> bool {
        let is_united = self.clocks[1] < self.clocks[0];
        if censuses >= ENOUGH && !is_united {
            println!("no clocks were united");
        }
        let adds_up = self.wrong == 0 && self.streams[0] == self.streams[1] && self.said == self.streams;
        self.censuses == censuses && adds_up && (censuses < ENOUGH || is_united)
    }
}

/// Reads the censuses in the folder's `stdin`, which a program from before filled, and writes what is owed for them as `stdout`.
pub fn write(folder: &Path) -> io::Result<()> {
    let input = std::fs::read(folder.join("stdin"))?;
    let mut rest = &input[..];
    while let Some(kept) = Kept::read(&mut rest) {
        if !has_prints_from_before(&kept) {
            return Err(io::Error::other("a slot with streams has another fingerprint than clocks had before"));
        }
    }
    std::fs::write(folder.join("stdout"), report(&input, Kept::unite))
}
