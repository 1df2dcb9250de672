//! Calls made by chance from a seed, in runs: each begins with a fresh census and has its own clocks. Behind every call that may change something
//! the totals are asked for.

use super::frames::{Call, MOST_MEMORY};
use super::pool::{Pool, Sources};
use super::MEMORY;
use crate::random::Random;
use std::collections::VecDeque;
use std::sync::Arc;

#[derive(Clone)]
pub struct Calls {
    left: u64,
    random: Random,
    sources: Arc<Sources>,
    /// Those of the run under way that are still to come.
    run: VecDeque<Call>,
}

impl Calls {
    /// So many calls; the first of them meet the census that is there before any is started.
    pub fn new(calls: u64, seed: u64) -> Self {
        let mut random = Random::new(seed);
        let sources = Arc::new(Sources::of_lists());
        let run = few_clocks(&mut random, &sources).into();
        Self { left: calls, random, sources, run }
    }
}

impl Iterator for Calls {
    type Item = Call;

    fn next(&mut self) -> Option<Call> {
        self.left = self.left.checked_sub(1)?;
        if self.run.is_empty() {
            self.run = run(&mut self.random, &self.sources).into();
        }
        self.run.pop_front()
    }
}

fn run(random: &mut Random, sources: &Sources) -> Vec<Call> {
    let (memory, calls) = match random.below(10) {
        0 => (too_little(random), few_calls(random, sources)),
        1 => (enough(random), many_clocks(random, sources)),
        _ => (enough(random), few_clocks(random, sources)),
    };
    [vec![Call::Start(memory), Call::Totals], calls].concat()
}

fn too_little(random: &mut Random) -> u32 {
    let any = random.below(MEMORY as usize) as u32;
    [0, MEMORY - 1, MEMORY - 1, any][random.below(4)]
}

fn enough(random: &mut Random) -> u32 {
    let any = MEMORY + random.below((MOST_MEMORY - MEMORY) as usize) as u32;
    [MEMORY, MEMORY, MOST_MEMORY, any][random.below(4)]
}

fn few_calls(random: &mut Random, sources: &Sources) -> Vec<Call> {
    let pool = Pool::new(random, sources, 2);
    (0..1 + random.below(30)).flat_map(|_| with_totals(any_call(random, &pool))).collect()
}

fn few_clocks(random: &mut Random, sources: &Sources) -> Vec<Call> {
    let size = 1 + random.below(12);
    let pool = Pool::new(random, sources, size);
    (0..10 + random.below(190)).flat_map(|_| with_totals(any_call(random, &pool))).collect()
}

/// About as many clocks as there are entries, each counted once; then entries are freed and taken again.
fn many_clocks(random: &mut Random, sources: &Sources) -> Vec<Call> {
    let size = 254 + random.below(47);
    let pool = Pool::new(random, sources, size);
    let mut calls: Vec<Call> = (0..size).map(|at| Call::Count(pool.spelled(random, at))).collect();
    // the first has one stream, and the last mostly none
    calls.extend([Call::Withdraw(pool.spelled(random, 0)), Call::Count(pool.spelled(random, size - 1))]);
    for _ in 0..4 + random.below(12) {
        calls.extend((0..1 + random.below(4)).map(|_| freeing(random, &pool)));
        calls.extend((0..random.below(40)).map(|_| Call::Count(pool.any_spelled(random))));
        calls.extend((0..random.below(8)).map(|_| any_call(random, &pool)));
    }
    calls.into_iter().flat_map(with_totals).collect()
}

/// What frees the entry of a clock that has streams, of a withdrawal where it is the last one.
fn freeing(random: &mut Random, pool: &Pool) -> Call {
    if random.once_in(2) {
        Call::Withdraw(pool.any_spelled(random))
    } else {
        Call::Join(pool.any_spelled(random), pool.any_spelled(random))
    }
}

fn any_call(random: &mut Random, pool: &Pool) -> Call {
    match random.below(100) {
        0..=47 => Call::Count(pool.value(random)),
        48..=69 => Call::Withdraw(pool.value(random)),
        70..=73 => joined_to_itself(random, pool),
        74..=80 => Call::Join(pool.value(random), pool.value(random)),
        81..=88 => Call::StreamsOf(pool.value(random)),
        89..=97 => Call::StreamsIn(pool.domain(random)),
        _ => Call::Totals,
    }
}

/// The same clock twice, mostly in two spellings.
fn joined_to_itself(random: &mut Random, pool: &Pool) -> Call {
    let at = random.below(pool.size());
    Call::Join(pool.spelled(random, at), pool.spelled(random, at))
}

fn with_totals(call: Call) -> Vec<Call> {
    match call {
        Call::StreamsOf(_) | Call::StreamsIn(_) | Call::Totals => vec![call],
        _ => vec![call, Call::Totals],
    }
}
