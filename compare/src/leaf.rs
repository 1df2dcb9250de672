//! Numbers, EUI-64s, UTF-8 and IP addresses, from the rules, RFC 3629 and RFC 3986. Nothing of std's parsing is used here, as std is among
//! what is compared.

/// A number: an optional single `+`, then one or more decimal digits, leading zeros free, at most `limit`.
pub fn number(text: &[u8], limit: u64) -> Option<u64> {
    let digits = text.strip_prefix(b"+").unwrap_or(text);
    if digits.is_empty() || !digits.iter().all(u8::is_ascii_digit) {
        return None;
    }
    let mut number = 0u64;
    for digit in digits {
        number = number * 10 + u64::from(digit - b'0');
        if number > limit {
            return None;
        }
    }
    Some(number)
}

/// Which rule of an EUI-64 is the first to break, and where in the text.
#[derive(Debug, PartialEq, Eq)]
pub enum BrokenEui64 {
    Length,
    SegmentLength { start: usize, len: usize },
    SegmentDigits { start: usize },
}

/// An EUI-64: exactly 23 bytes, cut at each `-`; from the left each segment has 2 bytes, then is a base-16 number.
pub fn eui64(text: &[u8]) -> Result<u64, BrokenEui64> {
    if text.len() != 23 {
        return Err(BrokenEui64::Length);
    }
    let mut id = 0;
    let mut start = 0;
    for segment in text.split(|byte| *byte == b'-') {
        let [high, low] = segment else {
            return Err(BrokenEui64::SegmentLength { start, len: segment.len() });
        };
        let high = if *high == b'+' { Some(0) } else { digit16(*high) };
        let (Some(high), Some(low)) = (high, digit16(*low)) else {
            return Err(BrokenEui64::SegmentDigits { start });
        };
        id = id << 8 | high << 4 | low;
        start += 3;
    }
    Ok(id)
}

fn digit16(byte: u8) -> Option<u64> {
    match byte {
        b'0'..=b'9' => Some(u64::from(byte - b'0')),
        b'a'..=b'f' => Some(u64::from(byte - b'a') + 10),
        b'A'..=b'F' => Some(u64::from(byte - b'A') + 10),
        _ => None,
    }
}

/// Where the first sequence starts that is no UTF8-char of RFC 3629, if there is one.
pub fn first_ill_formed(value: &[u8]) -> Option<usize> {
    let mut at = 0;
    while at < value.len() {
        match character(&value[at..]) {
            Some(len) => at += len,
            None => return Some(at),
        }
    }
    None
}

/// The length of the UTF8-char that the bytes begin with.
fn character(bytes: &[u8]) -> Option<usize> {
    let (second, len) = match bytes[0] {
        0x00..=0x7F => return Some(1),
        0xC2..=0xDF => (0x80..=0xBF, 2),
        0xE0 => (0xA0..=0xBF, 3),
        0xE1..=0xEC | 0xEE..=0xEF => (0x80..=0xBF, 3),
        0xED => (0x80..=0x9F, 3),
        0xF0 => (0x90..=0xBF, 4),
        0xF1..=0xF3 => (0x80..=0xBF, 4),
        0xF4 => (0x80..=0x8F, 4),
        _ => return None,
    };
    let rest = bytes.get(1..len)?;
    let tails = rest[1..].iter().all(|byte| (0x80..=0xBF).contains(byte));
    (second.contains(&rest[0]) && tails).then_some(len)
}

/// IPv4address or IPv6address of RFC 3986, section 3.2.2.
pub fn is_ip_address(text: &[u8]) -> bool {
    is_ipv4(text) || is_ipv6(text)
}

fn is_ipv4(text: &[u8]) -> bool {
    let octets: Vec<&[u8]> = text.split(|byte| *byte == b'.').collect();
    octets.len() == 4 && octets.into_iter().all(is_octet)
}

/// dec-octet: 0 to 255 without a leading zero.
fn is_octet(text: &[u8]) -> bool {
    matches!(
        text,
        [b'0'..=b'9'] | [b'1'..=b'9', b'0'..=b'9'] | [b'1', b'0'..=b'9', b'0'..=b'9'] | [b'2', b'0'..=b'4', b'0'..=b'9'] | [b'2', b'5', b'0'..=b'5']
    )
}

/// Eight groups, or `::` for at least one of them; the last two may be an IPv4address.
fn is_ipv6(text: &[u8]) -> bool {
    match text.windows(2).position(|pair| pair == b"::") {
        None => groups(text, true) == Some(8),
        Some(at) => match (groups(&text[..at], false), groups(&text[at + 2..], true)) {
            (Some(left), Some(right)) => left + right <= 7,
            _ => false,
        },
    }
}

/// How many groups a text of h16, each but the last with `:` behind it, stands for; an IPv4address at its end for two, where it may have one.
fn groups(text: &[u8], ipv4_at_end: bool) -> Option<usize> {
    if text.is_empty() {
        return Some(0);
    }
    let parts: Vec<&[u8]> = text.split(|byte| *byte == b':').collect();
    let (last, front) = parts.split_last()?;
    if !front.iter().all(|part| is_h16(part)) {
        return None;
    }
    if is_h16(last) {
        Some(front.len() + 1)
    } else {
        (ipv4_at_end && is_ipv4(last)).then_some(front.len() + 2)
    }
}

fn is_h16(text: &[u8]) -> bool {
    (1..=4).contains(&text.len()) && text.iter().all(|byte| digit16(*byte).is_some())
}
