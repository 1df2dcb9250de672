//! Every byte string up to three bytes, and every one of four bytes with a given lead byte, as values.

use crate::record::Attribute::TsRefclk;
use crate::values::Value;

/// The strings of up to three bytes, the shorter ones first.
pub fn up_to_three() -> impl Iterator<Item = Value> + Clone + Send {
    (0..=3u32).flat_map(|len| (0..1u32 << (8 * len)).map(move |n| value(n, len as usize)))
}

/// The strings of four bytes that begin with the lead byte.
pub fn four(lead: u8) -> impl Iterator<Item = Value> + Clone + Send {
    (0..1u32 << 24).map(move |n| value(u32::from(lead) << 24 | n, 4))
}

fn value(n: u32, len: usize) -> Value {
    Value { attribute: TsRefclk, bytes: n.to_be_bytes()[4 - len..].to_vec() }
}
