//! The constructors and setters of the module over a list of arguments, as frames of the program `made` and the lines that it owes.
//!
//! A frame's first byte is the row of the function in docs/ITEMS.md. Then come two bytes of length, 36 bytes of arguments and the value that the
//! places point into. The line is `ok` with the text that the record made is written as, or `no 10`.
//!
//! The text cannot tell apart records that are written alike: a name `a=b` from a name `a` with the value `b`, a host `h:1` from a host and a port,
//! a tag `src:t` from a flagged `t`, a domain named `0` from the number 0, a version of one's own from one of IEEE with its name, or one place from
//! another with the same bytes. So each function is called with texts that differ from each other and mostly hold no such sign.

use crate::calls::{call, rows, Arguments, TRIES};
use crate::framing;
use crate::notation::hex;
use crate::pipe;
use crate::random::Random;
use crate::record::Place;
use crate::side::Side;
use std::io;
use std::path::Path;

const SEED: u64 = 7273;
/// So many calls of each function by chance.
const CALLS: usize = 48;

/// Texts that differ from each other, one of them empty now and then.
const TEXTS: [[&str; 3]; 8] = [
    ["h", "value", "tag"],
    ["", "v", "src:t"],
    ["a:b", "", "t t"],
    ["::1", "a=b", ""],
    ["ntp.example.org", "é€🕒", "IEEE1588-2019"],
    ["a name of 16 by.", " ", "V:1"],
    ["gps", "=", "0"],
    ["a name that is over sixteen bytes long, and has no end that one could see", "1", "é"],
];
const IDS: [u64; 7] = [0, 1, 0x39A7_94FF_FE07_CBD0, 0x0123_4567_89AB_CDEF, u64::MAX, 1 << 63, 0x0000_0001_0000_0001];
/// Numbers at the edges of their widths.
const EDGES: [u32; 14] = [0, 1, 2, 9, 10, 127, 128, 255, 256, 65_535, 65_536, 999_999_999, u32::MAX - 1, u32::MAX];

/// The line owed: the text that the module writes for what it makes, or the refusal's number.
fn line(a: &Arguments) -> String {
    call(a).map_or("no 10".to_string(), |made| format!("ok {}", made.text()))
}

/// Answers the frames of standard input, as `made` does.
pub fn stand_in() -> io::Result<()> {
    let read = |input: &mut pipe::Input| Some(Arguments::of(u8::from_be_bytes(framing::bytes(input)?), &framing::value(input)?));
    pipe::stand_in(read, line, Side::frames)
}

/// The arguments at so many places, each counted round its list: texts, ids, the three numbers, versions, the flag and the cases.
fn arguments(row: u8, at: [usize; 8]) -> Arguments {
    let [p, q, r] = TEXTS[at[0] % TEXTS.len()];
    let value = format!("{q}|{p}|{r}");
    let place = |start, text: &str| Place { start, len: text.len() };
    let edge = |at: usize| EDGES[at % EDGES.len()];
    let x = match row {
        3 | 17 | 18 | 25 | 29 | 32 => edge(at[2]) as u16 as u32,
        2..=73 => edge(at[2]) as u8 as u32,
        _ => edge(at[2]),
    };
    Arguments {
        row,
        p: place(q.len() + 1, p),
        q: place(0, q),
        r: place(q.len() + p.len() + 2, r),
        id: IDS[at[1] % IDS.len()],
        x,
        numerator: edge(at[3]),
        denominator: edge(at[4]),
        version: (at[5] % 4) as u8,
        src: at[6] % 2 == 1,
        case: (at[7] % 4) as u8,
        value,
    }
}

/// Every item of each list of arguments, for each function; the lists are gone through at different paces, and once the rate is 1.
fn edges(row: u8) -> impl Iterator<Item = Arguments> {
    (0..EDGES.len()).map(move |i| arguments(row, [i, i, i, 3 * i + 12, 5 * i + 10, i, i / 4, i + i / 4]))
}

/// The stored list: the edges, and small rates for the function that tells a rate of 1.
fn stored() -> Vec<Arguments> {
    let rates = (0..9).map(|i| Arguments { numerator: i / 3, denominator: i % 3, ..arguments(123, [0; 8]) });
    rows().flat_map(edges).chain(rates).collect()
}

/// The whole list: the stored one, so many by chance for each function, and every domain number for those that try one.
fn calls() -> impl Iterator<Item = Arguments> + Clone + Send {
    let mut random = Random::new(SEED);
    let mut calls = stored();
    let mut by_chance = |row| arguments(row, std::array::from_fn(|_| random.below(usize::MAX)));
    for row in rows() {
        calls.extend((0..CALLS).map(|_| by_chance(row)));
        if TRIES.contains(&row) {
            calls.extend((0..=255).map(|number| Arguments { x: number, ..by_chance(row) }));
        }
    }
    calls.into_iter()
}

/// Runs the program `made` on the list and compares each line with the module's.
pub fn compare(program: &[String]) -> Result<bool, String> {
    let mut differences = 0;
    let mut module = Side::default();
    let made = pipe::ask(program, calls(), Arguments::frame, Side::frames, |a, said| {
        let owed = line(a);
        module.take(&owed);
        if said != owed {
            differences += 1;
            println!("DIFFERENCE at row {} of docs/ITEMS.md, frame {}\n  {said}\n  the module gives\n  {owed}", a.row, hex(&a.frame()));
        }
    })?;
    println!("functions {}", rows().count());
    made.say("made");
    module.say("module");
    println!("differences {differences}");
    Ok(differences == 0)
}

/// Writes the stored list and the lines owed as `stdin` and `stdout` into the folder, the same bytes each time. The last frame ends early.
pub fn write(folder: &Path) -> io::Result<()> {
    let calls = stored();
    let mut frames: Vec<u8> = calls.iter().flat_map(Arguments::frame).collect();
    frames.extend(calls[0].frame().split_last().map_or(&[][..], |(_, rest)| rest));
    let lines: Vec<String> = calls.iter().map(line).collect();
    let mut said = Side::default();
    lines.iter().for_each(|line| said.take(line));
    std::fs::write(folder.join("stdin"), frames)?;
    std::fs::write(folder.join("stdout"), lines.join("\n") + "\ncut\n" + &said.frames() + "\n")
}
