//! Kept censuses made by chance as they were from before: no two slots with streams have equal records, and several may be of one server. Free slots
//! hold rubbish, or what a clock left there.

use super::fingerprint::fingerprint;
use super::{Kept, Slot, DOMAINS, SLOTS, VALUE};
use crate::census::domain_of;
use crate::census::pool::{Pool, Sources};
use crate::clock_signalling::ReferenceClock;
use crate::clocks::clock;
use crate::random::Random;

/// Of so many spellings one is taken whose record has no slot yet.
const TRIES: usize = 8;

pub fn kept(random: &mut Random, sources: &Sources) -> Kept {
    let used = [0, SLOTS, random.below(SLOTS + 1), random.below(12)][random.below(4)];
    let size = 1 + random.below(1 + used / 2);
    let pool = Pool::new(random, sources, size);
    let mut made = Made::default();
    let slots: Vec<Slot> = (0..used).map(|_| made.slot(random, &pool)).collect();
    let mut domains = [0; DOMAINS];
    for (slot, domain) in slots.iter().filter_map(|slot| Some((slot, domain_of(&slot.clock()?)?))) {
        domains[usize::from(domain)] += slot.streams;
    }
    let refused = if random.once_in(8) { u32::MAX - made.streams } else { few_of(random, u32::MAX - made.streams) };
    Kept { total: made.streams + refused, refused, domains, slots }
}

/// The slots made so far: the records of their clocks, and all their streams.
#[derive(Default)]
struct Made {
    records: Vec<ReferenceClock>,
    streams: u32,
}

impl Made {
    fn slot(&mut self, random: &mut Random, pool: &Pool) -> Slot {
        let left = u32::MAX - self.streams;
        let spellings: [Vec<u8>; TRIES] = std::array::from_fn(|_| pool.any_spelled(random));
        match spellings.iter().find(|value| self.is_new(value)) {
            Some(value) if !random.once_in(6) => {
                let streams = if random.once_in(12) { left - left / 2 } else { few_of(random, left) };
                if streams > 0 {
                    self.records.extend(clock(value).map(|clock| clock.record));
                }
                self.streams += streams;
                Slot { streams, ..of_value(random, value) }
            }
            _ if random.once_in(2) => of_value(random, &spellings[0]),
            _ => Slot { streams: 0, print: random.number() as u32, len: random.number() as u32, value: rubbish(random) },
        }
    }

    /// Whether it is accepted and has no slot, by the rule from before.
    fn is_new(&self, value: &[u8]) -> bool {
        clock(value).is_some_and(|clock| !self.records.contains(&clock.record))
    }
}

/// Up to 20 of what is left.
fn few_of(random: &mut Random, left: u32) -> u32 {
    left.min(random.below(21) as u32)
}

/// A free slot that an accepted value was counted in; of a refused one there would be none.
fn of_value(random: &mut Random, value: &[u8]) -> Slot {
    let print = clock(value).map_or(0, |clock| fingerprint(&clock.record));
    let mut slot = Slot { streams: 0, print, len: value.len().min(VALUE) as u32, value: rubbish(random) };
    let len = slot.len as usize;
    slot.value[..len].copy_from_slice(&value[..len]);
    slot
}

fn rubbish(random: &mut Random) -> [u8; VALUE] {
    std::array::from_fn(|_| random.byte())
}

/// Whether each slot with streams has the fingerprint from before.
pub fn has_prints_from_before(kept: &Kept) -> bool {
    kept.slots.iter().all(|slot| slot.clock().is_none_or(|clock| fingerprint(&clock.record) == slot.print))
}
