//! The values of a run, one after another: those of the lists, every short byte string behind each prefix, then those made from the seed.

use crate::framing::put_value;
use crate::lists;
use crate::random::Random;
use crate::record::Attribute;
use crate::seeded;
use crate::texts::PREFIXES;
use std::sync::Arc;

#[derive(Debug, Clone, PartialEq, Eq)]
pub struct Value {
    pub attribute: Attribute,
    pub bytes: Vec<u8>,
}

impl Value {
    pub fn new(attribute: Attribute, text: &str) -> Self {
        Self { attribute, bytes: text.into() }
    }

    /// The value as `answers` takes it, behind the attribute's letter.
    pub fn frame(&self) -> Vec<u8> {
        let mut frame = vec![self.attribute.letter()];
        put_value(&mut frame, &self.bytes);
        frame
    }
}

/// How many byte strings of at most two bytes there are behind all prefixes, and of at most one.
pub const SHORTS: usize = (1 + 256 + 65_536) * PREFIXES.len();
const SHORTER: usize = (1 + 256) * PREFIXES.len();
/// From so many seeded values on, a run has every one of these; below, those of at most one byte.
const ALL_PAIRS_FROM: u64 = 1_000_000;

#[derive(Clone)]
pub struct Values {
    lists: Arc<Vec<Value>>,
    listed: usize,
    short: usize,
    shorts: usize,
    seeded: u64,
    random: Random,
}

impl Values {
    pub fn new(seeded: u64, seed: u64) -> Self {
        let shorts = if seeded >= ALL_PAIRS_FROM { SHORTS } else { SHORTER };
        Self { lists: Arc::new(lists::all()), listed: 0, short: 0, shorts, seeded, random: Random::new(seed) }
    }

    /// How many come from the lists, how many are short strings behind a prefix, and how many come from the seed.
    pub fn counts(&self) -> (usize, usize, u64) {
        (self.lists.len(), self.shorts, self.seeded)
    }
}

impl Iterator for Values {
    type Item = Value;

    fn next(&mut self) -> Option<Value> {
        if let Some(value) = self.lists.get(self.listed) {
            self.listed += 1;
            return Some(value.clone());
        }
        if self.short < self.shorts {
            self.short += 1;
            return Some(short(self.short - 1));
        }
        self.seeded = self.seeded.checked_sub(1)?;
        Some(seeded::value(&mut self.random, &self.lists))
    }
}

/// The byte strings of none, one and two bytes in turn, each behind every prefix.
pub fn short(index: usize) -> Value {
    let (attribute, prefix) = PREFIXES[index % PREFIXES.len()];
    let mut bytes = prefix.as_bytes().to_vec();
    match index / PREFIXES.len() {
        0 => (),
        one @ 1..=256 => bytes.push((one - 1) as u8),
        two => bytes.extend(((two - 257) as u16).to_be_bytes()),
    }
    Value { attribute, bytes }
}
