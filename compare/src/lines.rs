//! Lines by chance: values of both attributes, other lines, lines about as long as a line can be, and line ends of every sort; and texts of them for
//! `clocklines`.

use crate::lists;
use crate::random::Random;
use crate::report::MOST_READ;
use crate::seeded;
use crate::values::Value;
use std::io::{self, Write};

/// Writes `n` lines made from the seed; of the last one the line end is missing.
pub fn write(n: u64, seed: u64, text: &mut impl Write) -> io::Result<()> {
    let mut random = Random::new(seed);
    let known = lists::all();
    for _ in 0..n {
        text.write_all(&line(&mut random, &known))?;
        text.write_all(end(&mut random))?;
    }
    text.write_all(last(&mut random))
}

/// A line without its end; `known` are the values of the lists.
pub fn line(random: &mut Random, known: &[Value]) -> Vec<u8> {
    match random.below(8) {
        0 if random.once_in(2) => vec![b's'; random.below(40)],
        0 => random.pick(&OTHERS).as_bytes().to_vec(),
        1 if random.once_in(8) => vec![b'a'; 4094 + random.below(5)],
        _ => {
            let listed = known[random.below(known.len())].clone();
            let value = if random.once_in(2) { listed } else { seeded::value(random, known) };
            [value.attribute.front(), &value.bytes].concat()
        }
    }
}

pub fn end(random: &mut Random) -> &'static [u8] {
    random.pick(&["\n", "\n", "\r\n", "\r\n", "\r\r\n", "\n\r\n"]).as_bytes()
}

/// A last line that has no end, or none.
pub fn last(random: &mut Random) -> &'static [u8] {
    random.pick(&["", "a", "\r", "a=mediaclk:sender", "a=mediaclk:sender\r"]).as_bytes()
}

/// Writes lines that have 4,294,967,290 bytes together, one of four bytes, and one of which only the first byte is within the limit.
pub fn write_past_limit(text: &mut impl Write) -> io::Result<()> {
    let mut block = Vec::new();
    write(20_000, 1, &mut block)?;
    block.push(b'\n');
    let mut left = MOST_READ - 5;
    while left > block.len() as u64 {
        text.write_all(&block)?;
        left -= block.len() as u64;
    }
    // one line fills up what is left
    text.write_all(&vec![b's'; left as usize - 1])?;
    text.write_all(b"\nv=0\na=ts-refclk:gps\n")
}

#[rustfmt::skip]
pub const OTHERS: [&str; 20] = [
    "", "v=0", "s=demo", "a=ts-refclk", "a=ts-refclk ntp=h", "A=ts-refclk:gps", " a=ts-refclk:gps", "a=mediaclk", "a=mediaclk=sender",
    "a=ts-refclk:", "a=mediaclk:", "m=audio 5004 RTP/AVP 97", "\r", "\0", "a", "a=", "a=t", "a=m", "a=tool:x", "a=mid:1",
];
