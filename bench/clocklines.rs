//! The job of our program `clocklines` done with the Rust module: standard input to standard output, a line for each line, the totals last.

use compare::report::{without_end, Totals, MOST_READ};
use std::io::{self, BufRead, BufReader, BufWriter, Read, Write};

fn main() -> io::Result<()> {
    let mut input = BufReader::new(io::stdin().lock().take(MOST_READ));
    let mut output = BufWriter::new(io::stdout().lock());
    let mut totals = Totals::default();
    let mut line = Vec::new();
    while input.read_until(b'\n', &mut line)? > 0 {
        totals.reply(without_end(&line), &mut output)?;
        line.clear();
    }
    writeln!(output, "{totals}")?;
    output.flush()
}
