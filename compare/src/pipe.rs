//! A program of ours run on frames: one thread writes them, the other reads the lines, so neither waits for the other and nothing piles up.

use crate::notation::hex;
use crate::side::Side;
use std::io::{stdin, stdout, BufRead, BufReader, BufWriter, Read, StdinLock, Write};
use std::process::{Child, ChildStdout, Command, Stdio};
use std::thread;

/// Runs the program on the frames of the items and hands on each item with the line that accepts or refuses it. The last line must be `sums`.
pub fn ask<T, I>(
    command: &[String],
    items: I,
    frame: impl Fn(&T) -> Vec<u8> + Sync,
    sums: impl Fn(&Side) -> String,
    mut each: impl FnMut(&T, &str),
) -> Result<Side, String>
where
    I: Iterator<Item = T> + Clone + Send,
{
    let mut said = Side::default();
    let last = ask_lines(command, items, frame, |item, line| {
        said.take(line);
        if said.asked > 0 {
            return false;
        }
        each(item, line);
        true
    })?;
    ends_with(&last, &sums(&said))?;
    Ok(said)
}

/// The same for answers of any kind: `each` says whether a line is one. Gives the last line, which answers no item.
pub fn ask_lines<T, I>(
    command: &[String],
    items: I,
    frame: impl Fn(&T) -> Vec<u8> + Sync,
    each: impl FnMut(&T, &str) -> bool,
) -> Result<String, String>
where
    I: Iterator<Item = T> + Clone + Send,
{
    let mut child = start(command)?;
    let input = child.stdin.take().ok_or("no standard input")?;
    let output = Output(BufReader::with_capacity(1 << 16, child.stdout.take().ok_or("no standard output")?));
    let to_write = items.clone();
    let last = thread::scope(|scope| {
        scope.spawn(|| {
            let mut input = BufWriter::with_capacity(1 << 16, input);
            for item in to_write {
                // a program that ends early is noticed by its missing line
                if input.write_all(&frame(&item)).is_err() {
                    return;
                }
            }
            drop(input.flush());
        });
        read(output, items, &frame, each)
    })?;
    let status = child.wait().map_err(|error| error.to_string())?;
    if status.success() {
        Ok(last)
    } else {
        Err(format!("the program ended with {status}"))
    }
}

pub fn ends_with(last: &str, owed: &str) -> Result<(), String> {
    if last == owed {
        Ok(())
    } else {
        Err(format!("the last line is {last:?} and not {owed:?}"))
    }
}

fn start(command: &[String]) -> Result<Child, String> {
    let (program, arguments) = command.split_first().ok_or("no program given")?;
    let started = Command::new(program).args(arguments).stdin(Stdio::piped()).stdout(Stdio::piped()).spawn();
    started.map_err(|error| format!("{program}: {error}"))
}

/// Reads the lines to the end. At the first that is no answer the output is closed, so that the program, and with it the writing thread, ends.
fn read<T>(
    mut output: Output<ChildStdout>,
    items: impl Iterator<Item = T>,
    frame: impl Fn(&T) -> Vec<u8>,
    mut each: impl FnMut(&T, &str) -> bool,
) -> Result<String, String> {
    for (before, item) in items.enumerate() {
        let line = output.line()?.ok_or_else(|| format!("the program ended after {before} lines; the next frame is {}", hex(&frame(&item))))?;
        if !each(&item, &line) {
            return Err(format!("after {before} lines the frame {} has no answer but {line:?}", hex(&frame(&item))));
        }
    }
    let last = output.line()?.ok_or("the last line is missing")?;
    match output.line()? {
        None => Ok(last),
        Some(more) => Err(format!("behind the last line stands {more:?}")),
    }
}

/// All that the program prints on the input.
pub fn ask_once(command: &[String], input: &[u8]) -> Result<Vec<u8>, String> {
    let mut child = start(command)?;
    let mut to_write = child.stdin.take().ok_or("no standard input")?;
    let output = thread::scope(|scope| {
        // a program that ends early is noticed by what it printed
        scope.spawn(move || drop(to_write.write_all(input)));
        child.wait_with_output()
    });
    output.map(|output| output.stdout).map_err(|error| error.to_string())
}

struct Output<R>(BufReader<R>);

impl<R: Read> Output<R> {
    /// The next line without its end, if there is one.
    fn line(&mut self) -> Result<Option<String>, String> {
        let mut line = Vec::new();
        let read = self.0.read_until(b'\n', &mut line).map_err(|error| error.to_string())?;
        if read == 0 {
            return Ok(None);
        }
        if line.pop() != Some(b'\n') {
            return Err("the last line has no end".into());
        }
        Ok(Some(String::from_utf8_lossy(&line).into_owned()))
    }
}

/// Whether all that the program prints on the input is what is owed.
pub fn prints(program: &[String], input: &[u8], owed: &str) -> Result<bool, String> {
    let said = ask_once(program, input)?;
    if said != owed.as_bytes() {
        println!("DIFFERENCE at the input \"{}\"\n  \"{}\"\n  and not {owed:?}", input.escape_ascii(), said.escape_ascii());
    }
    Ok(said == owed.as_bytes())
}

pub type Input = BufReader<StdinLock<'static>>;

/// Reads the frames of standard input and prints what `answer` makes of each, and `last` of all lines, as our programs do: it stands for them where
/// the comparison itself is tried. Behind a frame that is no whole one nothing is read.
pub fn stand_in<T>(
    read: impl Fn(&mut Input) -> Option<T>,
    mut answer: impl FnMut(&T) -> String,
    last: impl Fn(&Side) -> String,
) -> std::io::Result<()> {
    let mut input = BufReader::with_capacity(1 << 16, stdin().lock());
    let mut output = BufWriter::with_capacity(1 << 16, stdout().lock());
    let mut said = Side::default();
    while !input.fill_buf()?.is_empty() {
        let Some(item) = read(&mut input) else {
            writeln!(output, "cut")?;
            break;
        };
        let line = answer(&item);
        said.take(&line);
        writeln!(output, "{line}")?;
    }
    writeln!(output, "{}", last(&said))?;
    output.flush()
}
