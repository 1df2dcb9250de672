//! Frames that end early, begin with another byte or are over their bounds: nothing is read behind them. Those at their bounds are whole ones.

use super::check::Check;
use super::feeding::{Feeding, Text};
use super::frames::{Call, LONGEST, MOST_ROOM};
use crate::pipe::prints;

/// Bytes that no frame begins with, some of them near one that does.
const LETTERS: [u8; 6] = *b"SFX\0gw";

/// What is owed for two frames, and for one behind them that is cut.
const OWED: &str = "filled 3 2d2d0a\nstarted\ncut\ncalls 2\n";

pub fn compare(program: &[String]) -> Result<bool, String> {
    let front = [feed(3, b"\n").frame(), Call::Start.frame()].concat();
    let cuts = cuts();
    let mut equal = prints(program, &[], "calls 0\n")?;
    for cut in &cuts {
        equal &= prints(program, &[&front[..], cut].concat(), OWED)?;
    }
    println!("cut: no frame, two at their bounds, and two with each of {} behind them that are no whole one", cuts.len());
    Ok(at_bounds(program)? & equal)
}

/// The longest fragment with the most room, and the closing call with it.
fn at_bounds(program: &[String]) -> Result<bool, String> {
    let longest = [b'\n'; LONGEST];
    let mut feeding = Feeding::default();
    feeding.feed(&longest, |_| vec![MOST_ROOM as usize]);
    feeding.close(|_| vec![MOST_ROOM as usize]);
    feeding.end(Text::closed(&longest));
    let mut check = Check::default();
    check.run(feeding.steps.into_iter(), program)?;
    Ok(check.is_right())
}

/// The frames without their ends, at every place; other letters, and numbers over their bounds, with bytes enough behind.
fn cuts() -> Vec<Vec<u8>> {
    let (fed, closed) = (feed(9, b"v=0").frame(), Call::Close { room: 0 }.frame());
    let shorter = [&fed, &closed].into_iter().flat_map(|frame| (1..frame.len()).map(|end| frame[..end].to_vec()));
    let others = LETTERS.map(|letter| [&[letter], &fed[1..], &fed].concat());
    let longest = feed(0, &[b'x'; LONGEST]).frame();
    let over = [
        [feed(MOST_ROOM + 1, b"v=0").frame(), fed.clone()].concat(),
        [feed(u32::MAX, b"v=0").frame(), fed.clone()].concat(),
        [feed(0, &[b'x'; LONGEST + 1]).frame(), fed.clone()].concat(),
        [b"f\0\0\0\0\xFF\xFF\xFF\xFF", &longest[..]].concat(),
        longest[..longest.len() - 1].to_vec(),
        [Call::Close { room: MOST_ROOM + 1 }.frame(), fed.clone()].concat(),
    ];
    shorter.chain(others).chain(over).collect()
}

fn feed(room: u32, fragment: &[u8]) -> Call {
    Call::Feed { room, fragment: fragment.into() }
}
