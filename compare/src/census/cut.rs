//! Frames that end early, begin with another byte or are over their bounds: nothing is read behind them.

use super::frames::{Call, MOST_MEMORY};
use super::MEMORY;
use crate::pipe::prints;

/// What stands in front of each, and what is owed for it and for what is cut.
const OWED: &str = "counted\nclocks 1 streams 1 refused 0\ncut\ncalls 2\n";

pub fn compare(program: &[String]) -> Result<bool, String> {
    let front = [Call::Count(b"gps".into()).frame(), Call::Totals.frame()].concat();
    let mut equal = prints(program, &[], "calls 0\n")?;
    let cuts = cuts();
    for cut in &cuts {
        equal &= prints(program, &[&front[..], cut].concat(), OWED)?;
    }
    println!("cut: no frame, and two frames with each of {} behind them that are no whole one", cuts.len());
    Ok(equal)
}

/// Each kind of frame without its end; other letters, and too much memory, with a whole frame behind.
fn cuts() -> Vec<Vec<u8>> {
    let gps = || b"gps".to_vec();
    let start = |memory| [Call::Start(memory).frame(), Call::Totals.frame()].concat();
    let mut join_without_second = Call::Join(gps(), gps()).frame();
    join_without_second.truncate(6);
    let without_last = |call: Call| {
        let mut frame = call.frame();
        frame.pop();
        frame
    };
    vec![
        b"c".into(),
        b"c\0".into(),
        b"s".into(),
        without_last(Call::Start(MEMORY)),
        without_last(Call::Count(vec![b'x'; 65_535])),
        without_last(Call::Withdraw(gps())),
        join_without_second,
        without_last(Call::Join(gps(), gps())),
        without_last(Call::StreamsOf(gps())),
        without_last(Call::StreamsIn(0)),
        b"C\0\x03gpst".into(),
        b"\0tt".into(),
        start(MOST_MEMORY + 1),
        start(u32::MAX),
    ]
}
