//! Kept censuses from before hosts were compared by server, and what the program `unite` owes for them: what was counted, the clocks united by the
//! rule of the same clock, and what is there then.

use crate::clocks::{clock, Clock};
use crate::framing::bytes;
use std::io::Read;

pub mod check;
pub mod cut;
pub mod fingerprint;
pub mod made;
pub mod planted;

/// A kept census has at most so many slots.
pub const SLOTS: usize = 255;
pub const DOMAINS: usize = 128;
/// The bytes of a slot that are for the value.
const VALUE: usize = 1024;

#[derive(Clone)]
pub struct Slot {
    pub streams: u32,
    pub print: u32,
    pub len: u32,
    pub value: [u8; VALUE],
}

impl Slot {
    fn value(&self) -> &[u8] {
        &self.value[..(self.len as usize).min(VALUE)]
    }

    /// The clock of a slot that has streams.
    fn clock(&self) -> Option<Clock> {
        clock(self.value()).filter(|_| self.streams > 0)
    }

    fn bytes(&self) -> Vec<u8> {
        [&self.streams.to_be_bytes()[..], &self.print.to_be_bytes(), &self.len.to_be_bytes(), &self.value].concat()
    }

    fn read(input: &mut impl Read) -> Option<Self> {
        Some(Self { streams: number(input)?, print: number(input)?, len: number(input)?, value: bytes(input)? })
    }
}

pub struct Kept {
    pub total: u32,
    pub refused: u32,
    pub domains: [u32; DOMAINS],
    pub slots: Vec<Slot>,
}

impl Kept {
    /// Numbers with the high byte first: how many slots there are, all streams, those of refused values, those of each domain number; and the slots.
    pub fn bytes(&self) -> Vec<u8> {
        let mut kept = (self.slots.len() as u16).to_be_bytes().to_vec();
        for number in [self.total, self.refused].iter().chain(&self.domains) {
            kept.extend(number.to_be_bytes());
        }
        kept.extend(self.slots.iter().flat_map(Slot::bytes));
        kept
    }

    /// The census that the input goes on with, or none where there is no whole one.
    pub fn read(input: &mut impl Read) -> Option<Self> {
        let used = usize::from(u16::from_be_bytes(bytes(input)?));
        if used > SLOTS {
            return None;
        }
        let (total, refused) = (number(input)?, number(input)?);
        let mut domains = [0; DOMAINS];
        for streams in &mut domains {
            *streams = number(input)?;
        }
        let slots: Option<Vec<Slot>> = (0..used).map(|_| Slot::read(input)).collect();
        Some(Self { total, refused, domains, slots: slots? })
    }

    /// Each slot with streams gives them to the first one of its clock, where that is an earlier one, and is free then.
    pub fn unite(&mut self) {
        let clocks: Vec<Option<Clock>> = self.slots.iter().map(Slot::clock).collect();
        for at in 0..clocks.len() {
            let first = clocks.iter().position(|clock| clock.is_some() && *clock == clocks[at]);
            if let Some(first) = first.filter(|first| *first < at) {
                self.slots[first].streams += std::mem::take(&mut self.slots[at].streams);
            }
        }
    }

    fn taken(&self) -> impl Iterator<Item = &Slot> {
        self.slots.iter().filter(|slot| slot.streams > 0)
    }

    /// The streams of all clocks.
    pub fn counted(&self) -> u64 {
        self.taken().map(|slot| u64::from(slot.streams)).sum()
    }

    /// Those of refused values too.
    pub fn all(&self) -> u64 {
        self.counted() + u64::from(self.refused)
    }

    /// What is printed of it.
    fn lines(&self, when: &str) -> String {
        let clocks = self.taken().filter_map(|slot| Some(format!("{} {}\n", slot.streams, slot.clock()?)));
        let in_domains = self.domains.iter().enumerate().filter(|(_, streams)| **streams > 0);
        let domains = in_domains.map(|(domain, streams)| format!("domain {domain} {streams}\n"));
        let Self { total, refused, .. } = self;
        let totals = format!("{when} clocks {} counted {} refused {refused} streams {total}\n", self.taken().count(), self.counted());
        clocks.chain(domains).chain([totals]).collect()
    }
}

fn number(input: &mut impl Read) -> Option<u32> {
    bytes(input).map(u32::from_be_bytes)
}

/// What `unite` prints for the input, where a census is united by `unite`.
pub fn report(mut input: &[u8], unite: impl Fn(&mut Kept)) -> String {
    let mut text = String::new();
    let (mut censuses, mut before, mut after) = (0, 0, 0);
    while !input.is_empty() {
        let Some(mut kept) = Kept::read(&mut input) else {
            text += "cut\n";
            break;
        };
        censuses += 1;
        before += kept.all();
        text += &kept.lines("before");
        unite(&mut kept);
        after += kept.all();
        text += &kept.lines("after");
    }
    text + &format!("censuses {censuses} before {before} after {after}\n")
}
