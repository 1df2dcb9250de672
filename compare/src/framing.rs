//! Values and numbers in frames: numbers have the high byte first, and a value is its length in two bytes, and its bytes.

use std::io::Read;

pub fn put_value(frame: &mut Vec<u8>, value: &[u8]) {
    let len = u16::try_from(value.len()).expect("a value that fits a frame");
    frame.extend(len.to_be_bytes());
    frame.extend(value);
}

/// The bytes that the input goes on with, or none where they are not all there.
pub fn bytes<const N: usize>(input: &mut impl Read) -> Option<[u8; N]> {
    let mut bytes = [0; N];
    input.read_exact(&mut bytes).ok()?;
    Some(bytes)
}

/// The same for a length that is not known before.
pub fn so_many(input: &mut impl Read, len: usize) -> Option<Vec<u8>> {
    let mut bytes = vec![0; len];
    input.read_exact(&mut bytes).ok()?;
    Some(bytes)
}

pub fn value(input: &mut impl Read) -> Option<Vec<u8>> {
    let len = u16::from_be_bytes(bytes(input)?);
    so_many(input, usize::from(len))
}

/// A number of four bytes, or none where it is over the limit.
pub fn number(input: &mut impl Read, limit: u32) -> Option<u32> {
    bytes(input).map(u32::from_be_bytes).filter(|number| *number <= limit)
}
