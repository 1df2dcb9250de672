//! Texts made by chance for the reader of fragments: lines of every sort and length, and line ends of every sort.

use crate::lines;
use crate::random::Random;
use crate::record::Attribute::{Mediaclk, TsRefclk};
use crate::report::LINE;
use crate::values::Value;

/// A text of none to 40 lines, and what follows the last of them; `known` are the values of the lists.
pub fn text(random: &mut Random, known: &[Value]) -> Vec<u8> {
    let limit = [1, 4, 12, 41][random.below(4)];
    let mut text = Vec::new();
    for _ in 0..random.below(limit) {
        text.extend(line(random, known));
        // a CR alone ends no line
        text.extend(if random.once_in(12) { b"\r" } else { lines::end(random) });
    }
    if random.once_in(4) {
        text.extend(line(random, known));
    } else {
        text.extend(lines::last(random));
    }
    text
}

fn line(random: &mut Random, known: &[Value]) -> Vec<u8> {
    match random.below(120) {
        0..=2 => about_longest(random),
        3 => vec![b'x'; [LINE + 4 + random.below(LINE), 4 * LINE, 17 * LINE][random.below(3)]],
        // in truth so many empty lines
        4 => vec![b'\n'; random.below(300)],
        _ => lines::line(random, known),
    }
}

/// A line about as long as one can be that is looked into, with CRs about where that ends.
fn about_longest(random: &mut Random) -> Vec<u8> {
    let mut line = random.pick(&[TsRefclk.front(), Mediaclk.front(), b""]).to_vec();
    line.resize(LINE - 2 + random.below(6), b'x');
    for byte in &mut line[LINE - 3..] {
        if random.once_in(3) {
            *byte = b'\r';
        }
    }
    line
}
