//! The faults that are planted for `compare/selftest`, by their names.

use std::io;

/// The one of the faults that has the name; that of none is empty.
pub fn named(faults: &[&'static str], name: &str) -> io::Result<&'static str> {
    let all = faults.iter().chain(&[""]);
    let found = all.copied().find(|fault| *fault == name);
    found.ok_or_else(|| io::Error::other(format!("{name} is no fault")))
}
