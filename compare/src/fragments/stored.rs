//! The stored list of `fragments`: texts by hand and a few by chance, answered by the reader in Rust, as files that a gate can replay with no Rust at
//! hand.

use super::check::{Check, KINDS_AND_SORTS};
use super::feeding::{Feeding, Step, Text};
use super::frames::{Call, MOST_ROOM};
use super::steps::of_text;
use super::texts::text;
use super::Reader;
use crate::census::frames::last_line;
use crate::lists;
use crate::random::Random;
use crate::record::Attribute::TsRefclk;
use crate::report::LINE;
use std::io;
use std::path::Path;

/// Each is a text in its fragments.
const BY_HAND: [&[&str]; 8] = [
    // cut between CR and LF
    &["a=ts-refclk:gps\r", "\na=mediaclk:sender\r", "\n"],
    // cut in values of both attributes, accepted and refused
    &["a=ts-refclk:ntp=[2001:db8:", ":1]:1", "23\r\na=ts-refclk:ntp", "=:80\n", "a=mediaclk:direct=9632", "14424\na=mediaclk:direct", "foo\n"],
    // cut in front of values
    &["a=ts-ref", "clk:", "local\na", "=mediaclk", ":", "IEEE1722=38-D6-6D-8E-D2-78-13-2F"],
    // fragments of no bytes, two of them between CR and LF
    &["", "a=ts-refclk:gal\r", "", "", "\n", "", "s=demo", ""],
    // a CR that no LF follows, and two before one
    &["a=mediaclk:x\r", "y\r", "\r", "\n", "a=mediaclk:x\r"],
    // byte by byte
    &["\r", "\n", "a", "\n", "\n", "\r", "\r", "\n", "\0", "\n"],
    &[""],
    &[],
];
/// These are given up.
const GIVEN_UP: [&[&str]; 2] = [&["a=ts-refclk:gps\na=ts-refclk:g"], &["al\na=mediaclk:sender\r", "\n"]];

/// So many by chance, none of which is longer than this.
const BY_CHANCE: usize = 40;
const LONGEST_STORED: usize = 600;
const SEED: u64 = 7273;

/// Writes calls as `stdin` and their lines as `stdout` into the folder, the same bytes each time. The last frame ends early.
pub fn write(folder: &Path) -> io::Result<()> {
    let steps = steps();
    let mut frames: Vec<u8> = steps.iter().flat_map(Step::frame).collect();
    frames.extend(b"x\0");
    let mut reader = Reader::default();
    let lines: Vec<String> = steps.iter().map(|step| reader.answer(&step.call).to_string()).collect();
    let mut check = Check::default();
    let are_answers = steps.iter().zip(&lines).all(|(step, line)| check.one(step, line));
    if !are_answers || !check.is_right() || !check.has(&KINDS_AND_SORTS) {
        return Err(io::Error::other("the stored list lacks something, or its calls do not print the reports of its texts"));
    }
    std::fs::write(folder.join("stdin"), frames)?;
    std::fs::write(folder.join("stdout"), format!("{}\ncut\n{}\n", lines.join("\n"), last_line(steps.len() as u64)))
}

fn steps() -> Vec<Step> {
    let bytes = |fragments: &[&str]| fragments.iter().map(|fragment| fragment.as_bytes().to_vec()).collect::<Vec<_>>();
    let mut feeding = Feeding::default();
    BY_HAND.iter().for_each(|fragments| close(&mut feeding, &bytes(fragments)));
    GIVEN_UP.iter().for_each(|fragments| give_up(&mut feeding, &bytes(fragments)));
    others_by_hand().iter().for_each(|fragments| close(&mut feeding, fragments));
    let mut random = Random::new(SEED);
    let known = lists::all();
    let texts = std::iter::repeat_with(|| text(&mut random, &known)).filter(|text| text.len() <= LONGEST_STORED);
    let texts: Vec<Vec<u8>> = texts.take(BY_CHANCE).collect();
    feeding.steps.extend(texts.iter().flat_map(|text| of_text(&mut random, text)));
    feeding.steps
}

/// Lines about as long as one can be that is looked into, and a far longer one, each in parts; and a character that is cut apart, once for good.
fn others_by_hand() -> Vec<Vec<Vec<u8>>> {
    let x = |len| vec![b'x'; len];
    let with = |mut front: Vec<u8>, end: &str| {
        front.extend(end.bytes());
        front
    };
    let front = TsRefclk.front();
    vec![
        vec![x(2000), with(x(LINE - 2000), "\r"), b"\n".into()],
        vec![x(LINE), with(x(1), "\r\n")],
        // the CR is no part of the line's end
        vec![with(x(LINE), "\r"), with(x(1), "\n")],
        vec![front.into(), x(LINE - front.len()), b"\n".into()],
        vec![x(3000), x(3000), x(3000), b"\nv=0\n".into()],
        vec![b"a=mediaclk:\xC3".into(), b"\xA9\na=mediaclk:\xC3".into(), b"\n\xA9".into()],
    ]
}

/// Feeds the fragments, and closes the reader. Behind that come two calls that are refused.
fn close(feeding: &mut Feeding, fragments: &[Vec<u8>]) {
    fragments.iter().for_each(|fragment| feeding.feed(fragment, rooms));
    feeding.close(rooms);
    feeding.end(Text::closed(&fragments.concat()));
    feeding.call(Call::Feed { room: 0, fragment: b"v=0\n".into() });
    feeding.call(Call::Close { room: MOST_ROOM });
    feeding.start();
}

fn give_up(feeding: &mut Feeding, fragments: &[Vec<u8>]) {
    fragments.iter().for_each(|fragment| feeding.feed(fragment, rooms));
    feeding.end(Text::given_up(&fragments.concat()));
    feeding.start();
}

/// One that is a byte too short, and then as much as is needed.
fn rooms(printed: usize) -> Vec<usize> {
    if printed == 0 {
        vec![0]
    } else {
        vec![printed - 1, printed]
    }
}
