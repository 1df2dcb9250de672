//! `compare TASK .. -- PROGRAM ..`: the tasks of `compare/run` and `compare/store`.

use compare::check::Check;
use compare::side::Side;
use compare::values::{Value, Values};
use compare::{addresses, answers, census, cuts, fragments, lines, made, pipe, questions, stored, unite, utf8};
use std::io::{self, BufWriter};
use std::path::Path;
use std::process::ExitCode;

const USAGE: &str = "usage: compare values N SEED -- PROGRAM .. | addresses N SEED -- PROGRAM .. | utf8 3 -- PROGRAM .. | utf8 LEAD -- PROGRAM ..
       compare questions N SEED -- PROGRAM .. | made -- PROGRAM ..
       compare census N SEED -- PROGRAM .. | censustext N SEED -- PROGRAM .. | unite N SEED -- PROGRAM ..
       compare fragments N SEED -- PROGRAM .. | fragments limit -- PROGRAM ..
       compare lines N SEED | limit
       compare store FOLDER | store-made FOLDER | store-censuscalls FOLDER | store-census FOLDER | store-unite FOLDER
       compare store-fragments FOLDER
       compare answer [FAULT] | answer-made | answer-census [FAULT] | answer-censustext | answer-unite [FAULT]
       compare answer-fragments [FAULT]";

fn main() -> ExitCode {
    let arguments: Vec<String> = std::env::args().skip(1).collect();
    let end = arguments.iter().position(|word| word == "--").unwrap_or(arguments.len());
    let program = arguments.get(end + 1..).unwrap_or_default();
    let task: Vec<&str> = arguments[..end].iter().map(String::as_str).collect();
    match run(&task, program) {
        Ok(true) => ExitCode::SUCCESS,
        Ok(false) => ExitCode::FAILURE,
        Err(error) => {
            eprintln!("compare: {error}");
            ExitCode::from(2)
        }
    }
}

/// True where all that was compared is equal.
fn run(task: &[&str], program: &[String]) -> Result<bool, String> {
    let number = |word: &str| word.parse::<u64>().map_err(|_| format!("{word} is no number"));
    let done = |result: io::Result<()>| result.map(|()| true).map_err(|error| error.to_string());
    match task {
        ["values", n, seed] => values(Values::new(number(n)?, number(seed)?), program),
        ["addresses", n, seed] => each(addresses::texts(number(n)?, number(seed)?), program, Check::address),
        ["utf8", "3"] => each(utf8::up_to_three(), program, |_, _, _| ()),
        ["utf8", lead] => {
            let lead = u8::from_str_radix(lead, 16).map_err(|_| format!("{lead} is no byte of base 16"))?;
            each(utf8::four(lead), program, |_, _, _| ())
        }
        ["lines", n, seed] => done(lines::write(number(n)?, number(seed)?, &mut BufWriter::new(io::stdout().lock()))),
        ["limit"] => done(lines::write_past_limit(&mut BufWriter::new(io::stdout().lock()))),
        ["made"] => made::compare(program),
        ["questions", n, seed] => questions::check::compare(number(n)?, number(seed)?, program),
        ["census", n, seed] => census::sums::compare(number(n)?, number(seed)?, program),
        ["censustext", n, seed] => census::session::compare(number(n)?, number(seed)?, program),
        ["unite", n, seed] => unite::check::compare(number(n)?, number(seed)?, program),
        ["fragments", "limit"] => fragments::limit::compare(program),
        ["fragments", n, seed] => fragments::check::compare(number(n)?, number(seed)?, program),
        ["store", folder] => done(stored::write(Path::new(folder))),
        ["store-made", folder] => done(made::write(Path::new(folder))),
        ["store-censuscalls", folder] => done(census::stored::write_calls(Path::new(folder))),
        ["store-census", folder] => done(census::stored::write_text(Path::new(folder))),
        ["store-unite", folder] => done(unite::check::write(Path::new(folder))),
        ["store-fragments", folder] => done(fragments::stored::write(Path::new(folder))),
        ["answer", fault @ ..] => done(answers::stand_in(&fault.concat())),
        ["answer-made"] => done(made::stand_in()),
        ["answer-census", fault @ ..] => done(census::planted::stand_in(&fault.concat())),
        ["answer-censustext"] => done(census::session::stand_in()),
        ["answer-unite", fault @ ..] => done(unite::planted::stand_in(&fault.concat())),
        ["answer-fragments", fault @ ..] => done(fragments::planted::stand_in(&fault.concat())),
        _ => Err(USAGE.to_string()),
    }
}

fn values(values: Values, program: &[String]) -> Result<bool, String> {
    let (lists, shorts, seeded) = values.counts();
    println!("values: {lists} of the lists, {shorts} short strings behind each prefix, {seeded} from the seed");
    let mut check = Check::default();
    pipe::ask(program, values, Value::frame, Side::frames_and_asked, |value, line| check.one(value, line))?;
    let equal = check.report();
    Ok(cuts::compare(program)? & check.has_all() & equal)
}

fn each(values: impl Iterator<Item = Value> + Clone + Send, program: &[String], more: impl Fn(&mut Check, &Value, &str)) -> Result<bool, String> {
    let mut check = Check::default();
    pipe::ask(program, values, Value::frame, Side::frames_and_asked, |value, line| {
        check.one(value, line);
        more(&mut check, value, line);
    })?;
    Ok(check.report())
}
