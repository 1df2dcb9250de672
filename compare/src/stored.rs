//! The stored list: a few thousand frames, values and then questions, with the answers owed, as files that a gate can replay with no Rust at hand.

use crate::lists;
use crate::module::{self, Made};
use crate::questions::listed;
use crate::random::Random;
use crate::record::{Answer, Attribute, Refusal};
use crate::seeded;
use crate::side::Side;
use crate::table::{self, LONGEST};
use crate::values::Value;
use std::collections::BTreeMap;
use std::io;
use std::path::Path;

const FRAMES: usize = 3000;
const SEED: u64 = 7273;
/// So many of one kind, or of one refusal number, and so many long ones, are taken by chance.
const OF_A_KIND: usize = 95;
const LONG: usize = 60;

/// Writes `stdin` and `stdout` into the folder, the same bytes each time.
pub fn write(folder: &Path) -> io::Result<()> {
    let mut input = Vec::new();
    let mut output = String::new();
    let mut said = Side::default();
    let mut put = |frame: Vec<u8>, line: String| {
        input.extend(frame);
        said.take(&line);
        output += &format!("{line}\n");
    };
    for value in values() {
        let answer = answer(&value).map_err(io::Error::other)?;
        put(value.frame(), answer.to_string());
    }
    listed::questions().iter().for_each(|question| put(question.frame(), question.line()));
    // the last frame ends early
    let frame = Value::new(Attribute::TsRefclk, "gps").frame();
    input.extend(&frame[..frame.len() - 1]);
    output += &format!("cut\n{}\n", said.frames_and_asked());
    std::fs::write(folder.join("stdin"), input)?;
    std::fs::write(folder.join("stdout"), output)
}

/// The rows and examples of the documents, the words, then by chance from the other lists and from the seed, with all kinds among them.
fn values() -> Vec<Value> {
    let mut values = [lists::examples(), lists::words()].concat();
    let rest = [lists::lengths(), lists::numbers(), lists::addresses(), lists::euis(), lists::characters()];
    let all = lists::all();
    let mut random = Random::new(SEED);
    let mut taken: BTreeMap<String, usize> = BTreeMap::new();
    let mut long = 0;
    while values.len() < FRAMES {
        let value = if random.once_in(2) {
            let list = &rest[random.below(rest.len())];
            list[random.below(list.len())].clone()
        } else {
            seeded::value(&mut random, &all)
        };
        let is_long = value.bytes.len() > 100;
        let taken = taken.entry(kind(&value)).or_default();
        if *taken < OF_A_KIND && (!is_long || long < LONG) && value.bytes.len() < 5000 {
            *taken += 1;
            long += usize::from(is_long);
            values.push(value);
        }
    }
    values
}

/// The kind of record that a value reads as, or its refusal's number.
fn kind(value: &Value) -> String {
    match table::answer(value.attribute, &value.bytes) {
        Answer::Accepted(record, _) => record.kinds().join(", "),
        Answer::Refused(refusal) => refusal.number.to_string(),
    }
}

/// The module's answer, with places from the table, which must agree with it; where the module cannot be asked, the table's.
fn answer(value: &Value) -> Result<Answer, String> {
    let owed = table::answer(value.attribute, &value.bytes);
    let Some(text) = std::str::from_utf8(&value.bytes).ok().filter(|text| text.len() <= LONGEST) else {
        return Ok(owed);
    };
    let module = module::read(value.attribute, text);
    if let Some(objection) = module::objection(text, &module, &owed) {
        return Err(format!("{text:?}: {objection}, and the table has {owed}"));
    }
    Ok(match (module, owed) {
        (Ok(made), Answer::Accepted(record, _)) => Answer::Accepted(record, Made::text(&made).into_bytes()),
        (Err(error), Answer::Refused(Refusal { place, .. })) => {
            let (number, _) = module::meaning(&error).ok_or_else(|| format!("no number for {error:?}"))?;
            Answer::Refused(Refusal { number, place })
        }
        (_, owed) => owed,
    })
}
