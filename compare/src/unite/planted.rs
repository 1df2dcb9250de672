//! `unite` with one fault planted, for `compare/selftest`: the comparison must find each.

use super::{report, Kept};
use crate::faults;
use std::io::{self, Read, Write};

const FAULTS: [&str; 4] = ["streams-lost", "streams-doubled", "joined-into-last", "old-rule"];

/// Prints what is owed for the censuses on standard input, as `unite` does, with a fault where one is named.
pub fn stand_in(fault: &str) -> io::Result<()> {
    let fault = faults::named(&FAULTS, fault)?;
    let mut input = Vec::new();
    io::stdin().lock().read_to_end(&mut input)?;
    io::stdout().lock().write_all(report(&input, |kept| unite(kept, fault)).as_bytes())
}

fn unite(kept: &mut Kept, fault: &str) {
    let before = kept.slots.clone();
    match fault {
        "joined-into-last" => {
            kept.slots.reverse();
            kept.unite();
            kept.slots.reverse();
        }
        // by which no census from before has two slots of one clock
        "old-rule" => (),
        _ => kept.unite(),
    }
    for (now, before) in kept.slots.iter_mut().zip(&before).filter(|(now, before)| now.streams > before.streams) {
        match fault {
            "streams-lost" => now.streams = before.streams,
            "streams-doubled" => now.streams = now.streams.wrapping_add(now.streams - before.streams),
            _ => (),
        }
    }
}
