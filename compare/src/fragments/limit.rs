//! A text of 4,294,967,295 bytes, as many as are read, and what is owed at its end. It is made while it is fed, and never held as a whole.

use super::check::Check;
use super::feeding::{Step, Text};
use super::frames::{Call, LONGEST, MOST_ROOM};
use crate::report::{Totals, MOST_READ};

/// The text has so many fragments; the last lacks one byte to be as long as the others, which are as long as one can be.
const FRAGMENTS: u64 = 65_536;
/// A long line goes through so many of them.
const OF_A_LINE: u64 = 256;
/// Then come its end and a line of each other kind.
const LINES: &[u8] = b"\r\na=ts-refclk:gps\r\na=mediaclk:direct=\nv=0\n";
/// Room for their replies.
const ROOM: u32 = 64;

const KINDS: [&str; 6] = ["started", "filled", "filled nothing", "no 24", "no 28", "no 37"];

pub fn compare(program: &[String]) -> Result<bool, String> {
    let mut check = Check::default();
    check.run((0..FRAGMENTS).map(fragment).chain(at_limit()), program)?;
    Ok(check.report() & check.has(&KINDS))
}

fn fragment(at: u64) -> Step {
    let mut fragment = match at % OF_A_LINE {
        0 => LINES.to_vec(),
        _ => Vec::new(),
    };
    let left = MOST_READ - at * LONGEST as u64;
    fragment.resize(left.min(LONGEST as u64) as usize, b'x');
    Call::Feed { room: ROOM, fragment }.into()
}

/// No byte more is taken in, though a fragment of none is. What is too long is refused for that, though the room is too short as well, and behind the
/// closing call for neither but for that. A fresh reader begins anew.
fn at_limit() -> [Step; 10] {
    let feed = |room, fragment: &str| Step::from(Call::Feed { room, fragment: fragment.into() });
    let close = |room, ended| Step { call: Call::Close { room }, ended };
    [
        feed(0, ""),
        feed(MOST_ROOM, "x"),
        feed(0, "\n"),
        close(0, None),
        close(MOST_ROOM, Some(Text { len: MOST_READ, is_closed: true, owed: report() })),
        feed(0, "\n"),
        close(MOST_ROOM, None),
        Call::Start.into(),
        feed(MOST_ROOM, "\n"),
        close(MOST_ROOM, Some(Text::closed(b"\n"))),
    ]
}

/// The report of the text, made from one long line after another.
fn report() -> Vec<u8> {
    let long = vec![b'x'; OF_A_LINE as usize * LONGEST - LINES.len()];
    let with_lines = [&long, LINES].concat();
    let mut totals = Totals::default();
    let mut report = totals.replies(LINES);
    for _ in 1..FRAGMENTS / OF_A_LINE {
        report.extend(totals.replies(&with_lines));
    }
    report.extend(totals.report(&long[1..]));
    report
}
