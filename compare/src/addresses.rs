//! Texts that are IP addresses, or nearly, each as the value `ntp=[TEXT]`, which is accepted exactly where the text is one.

use crate::lists::address_shapes;
use crate::random::Random;
use crate::record::Attribute::TsRefclk;
use crate::seeded;
use crate::values::Value;

/// The pieces whose every row of up to seven is tried.
const PIECES: [&str; 7] = [":", "::", "1", "fFfF", ".", "1.2.3.4", "0"];
const LONGEST_ROW: u32 = 7;

/// Every row of pieces, every shape of the lists, then `n` by chance from the seed, half of them damaged.
pub fn texts(n: u64, seed: u64) -> impl Iterator<Item = Value> + Clone + Send {
    let rows = (0..=LONGEST_ROW).flat_map(|len| (0..PIECES.len().pow(len)).map(move |row| pieces(row, len)));
    let mut random = Random::new(seed);
    let chance = (0..n).map(move |_| {
        let address = seeded::address(&mut random).into_bytes();
        let value = Value { attribute: TsRefclk, bytes: address };
        if random.once_in(2) {
            seeded::damaged(&mut random, value)
        } else {
            value
        }
    });
    let shapes = address_shapes().into_iter();
    rows.chain(shapes)
        .map(|text| Value::new(TsRefclk, &text))
        .chain(chance)
        .map(|text| Value { bytes: [b"ntp=[", &text.bytes[..], b"]"].concat(), ..text })
}

/// The row of so many pieces that a number stands for.
fn pieces(mut row: usize, len: u32) -> String {
    let mut text = String::new();
    for _ in 0..len {
        text.push_str(PIECES[row % PIECES.len()]);
        row /= PIECES.len();
    }
    text
}
