//! Frames that end early, or begin with another letter: a few frames cut at every place, so that the program prints `cut` and the sums of what came
//! before.

use crate::answers::Frame;
use crate::pipe::prints;
use crate::questions::Question;
use crate::record::Attribute::{Mediaclk, TsRefclk};
use crate::side::Side;
use crate::values::Value;

/// Bytes that no frame begins with, some of them near one that does.
const LETTERS: [u8; 8] = *b"RMSG\0htl";

pub fn compare(program: &[String]) -> Result<bool, String> {
    let frames = frames();
    let input: Vec<u8> = frames.iter().flat_map(Frame::bytes).collect();
    let mut equal = true;
    for end in 0..=input.len() {
        equal &= prints(program, &input[..end], &owed(&frames, end))?;
    }
    for letter in LETTERS {
        let mut others = input.clone();
        others.push(letter);
        // a whole frame, but for the letter
        others.extend(&input[1..]);
        equal &= prints(program, &others, &owed(&frames, input.len() + 1))?;
    }
    println!("cut: {} frames ended at each of {} places, or by one of {} letters", frames.len(), input.len() + 1, LETTERS.len());
    Ok(equal)
}

fn frames() -> Vec<Frame> {
    let values = [Value::new(TsRefclk, "gps"), Value::new(Mediaclk, ""), Value::new(Mediaclk, "direct=7")];
    let questions = [["ntp=h", "ntp=H"], ["gps", ""]].map(|values| Question::both(values.map(Vec::from)));
    values.into_iter().map(Frame::Read).chain(questions.into_iter().flatten().map(Frame::Asks)).collect()
}

/// What is owed for so many bytes, of which those behind the frames are no whole one.
fn owed(frames: &[Frame], mut bytes: usize) -> String {
    let mut said = Side::default();
    let mut text = String::new();
    for frame in frames {
        let len = frame.bytes().len();
        if bytes < len {
            break;
        }
        bytes -= len;
        let line = frame.line();
        said.take(&line);
        text += &format!("{line}\n");
    }
    if bytes > 0 {
        text += "cut\n";
    }
    text + &said.frames_and_asked() + "\n"
}
