//! Values made by chance from a seed: by the grammar, with damage, and of bytes of any kind.

use crate::lists::edges;
use crate::random::Random;
use crate::record::Attribute::{self, Mediaclk, TsRefclk};
use crate::values::{short, Value, SHORTS};

/// One value; `known` are those of the lists.
pub fn value(random: &mut Random, known: &[Value]) -> Value {
    match random.below(100) {
        0..=34 => by_grammar(random),
        35..=64 => {
            let value = by_grammar(random);
            damaged(random, value)
        }
        65..=79 => {
            let value = known[random.below(known.len())].clone();
            damaged(random, value)
        }
        80..=84 => {
            let value = short(random.below(SHORTS));
            damaged(random, value)
        }
        85..=92 => Value::new(TsRefclk, &format!("ntp={}", host_and_port(random))),
        93..=95 => {
            let value = by_grammar(random);
            lengthened(random, value)
        }
        96..=97 => Value { attribute: attribute(random), bytes: (0..random.below(40)).map(|_| random.byte()).collect() },
        _ => Value { attribute: attribute(random), bytes: text(random, 40, "").into_bytes() },
    }
}

fn attribute(random: &mut Random) -> Attribute {
    if random.once_in(2) {
        TsRefclk
    } else {
        Mediaclk
    }
}

/// A value that the grammar makes, or nearly: numbers may be too large, texts may hold marks.
pub fn by_grammar(random: &mut Random) -> Value {
    if random.once_in(2) {
        Value::new(TsRefclk, &reference(random))
    } else {
        Value::new(Mediaclk, &media_source(random))
    }
}

fn reference(random: &mut Random) -> String {
    match random.below(16) {
        0 => random.pick(&["gps", "gal", "glonass", "local", "private", "private:traceable"]).to_string(),
        1..=3 => extension(random),
        4..=8 => format!("ntp={}", host_and_port(random)),
        _ => format!("ptp={}", ptp(random)),
    }
}

fn extension(random: &mut Random) -> String {
    let name = text(random, 12, "=");
    match random.below(3) {
        0 => name,
        1 => format!("{name}={}", text(random, 20, "")),
        _ => format!("{}={name}", random.pick(&["localmac", "gps", "direct", "x", ""])),
    }
}

fn host_and_port(random: &mut Random) -> String {
    let host = match random.below(8) {
        0 => "/traceable/".to_string(),
        1 | 2 => text(random, 15, ""),
        3 => "ntp.example.org".to_string(),
        _ => address(random),
    };
    match random.below(6) {
        0 | 1 => host,
        2 => format!("{host}:{}", number(random)),
        3 => format!("[{host}]"),
        4 => format!("[{host}]:{}", number(random)),
        _ => format!("[{host}{}", random.pick(&["", "]]", "]:", "]x", ":80", "]:80]:80", "]80"])),
    }
}

/// An address, mostly good: groups and octets of any length, `::` mostly once or not at all, IPv4 mostly at the end.
pub fn address(random: &mut Random) -> String {
    if random.once_in(4) {
        return octets(random);
    }
    let total = if random.once_in(5) { random.below(11) } else { 8 };
    let with_ipv4 = random.once_in(4);
    let mut parts: Vec<String> = (0..total).map(|_| group(random)).collect();
    if with_ipv4 {
        parts.truncate(total.saturating_sub(2));
        let at = if random.once_in(10) { random.below(parts.len() + 1) } else { parts.len() };
        parts.insert(at, octets(random));
    }
    if !random.once_in(3) && !parts.is_empty() {
        let from = random.below(parts.len() + 1);
        let to = from + random.below(parts.len() - from + 1);
        parts.splice(from..to, [String::new()]);
        if from == 0 {
            parts.insert(0, String::new());
        }
        if to == total || from + 1 == parts.len() {
            parts.push(String::new());
        }
    }
    let mut address = parts.join(":");
    if random.once_in(12) {
        address.push_str(random.pick(&[":", "::", ".", "%1", "/64", " ", "]", "0"]));
    }
    address
}

fn group(random: &mut Random) -> String {
    let group = random.below(0x10000);
    match random.below(16) {
        0 => format!("{group:04X}"),
        1 => format!("{group:04x}"),
        2 => random.pick(&["", "g", "00000", "12345", "-1", "+1", "0x1"]).to_string(),
        3..=6 => format!("{group:X}"),
        _ => format!("{:x}", group & 0xff),
    }
}

fn octets(random: &mut Random) -> String {
    let count = if random.once_in(12) { random.below(6) } else { 4 };
    let octets: Vec<String> = (0..count)
        .map(|_| match random.below(20) {
            0 => random.pick(&["", "00", "01", "256", "300", "999", "1000", "+1", "a"]).to_string(),
            _ => random.below(256).to_string(),
        })
        .collect();
    octets.join(".")
}

fn ptp(random: &mut Random) -> String {
    let version = match random.below(6) {
        0 => "IEEE1588-2002".to_string(),
        1 | 2 => "IEEE1588-2008".to_string(),
        3 => "IEEE802.1AS-2011".to_string(),
        _ => text(random, 18, ":"),
    };
    match random.below(8) {
        0 => format!("{version}:traceable"),
        1 | 2 => format!("{version}:{}", eui(random)),
        _ => format!("{version}:{}:{}", eui(random), domain(random)),
    }
}

fn domain(random: &mut Random) -> String {
    match random.below(6) {
        0 | 1 => random.below(260).to_string(),
        2 => number(random),
        3 => format!("{:016}", random.below(1000)),
        4 => (0..16).map(|_| char::from(b' ' + random.byte() % 95)).collect(),
        _ => text(random, 18, ""),
    }
}

fn eui(random: &mut Random) -> String {
    if random.once_in(6) {
        return (0..23).map(|_| random.pick(&["0", "f", "A", "-", "-", "+", "g"])).collect();
    }
    let segments: Vec<String> = (0..8)
        .map(|_| match random.below(40) {
            0 => format!("+{:x}", random.below(16)),
            1 => random.pick(&["+", "0", "000", "g0", "0g", "é", "", "++", "-1"]).to_string(),
            2..=20 => format!("{:02x}", random.byte()),
            _ => format!("{:02X}", random.byte()),
        })
        .collect();
    segments.join("-")
}

fn media_source(random: &mut Random) -> String {
    let clock = media(random);
    match random.below(6) {
        0 => format!("id={} {clock}", text(random, 12, " ")),
        1 => format!("id=src:{} {clock}", text(random, 12, " ")),
        2 => format!("id={} {clock}", text(random, 3, "")),
        _ => clock,
    }
}

fn media(random: &mut Random) -> String {
    match random.below(12) {
        0 => "sender".to_string(),
        1..=3 => format!("IEEE1722={}", eui(random)),
        4 | 5 => extension(random),
        6 => format!("direct{}", text(random, 6, "")),
        7 => format!("direct={}", number(random)),
        8 => format!("direct={} rate={}/{}", number(random), number(random), number(random)),
        9 => format!("direct={} {}", number(random), text(random, 6, "")),
        _ => format!("direct rate={}/{}", number(random), number(random)),
    }
}

/// A number: mostly small, else at the edge of a width, with a plus or zeros in front now and then.
fn number(random: &mut Random) -> String {
    let front = match random.below(8) {
        0 => "+",
        1 => random.pick(&["0", "000", "+0", "0000000000", "-", "++", " "]),
        _ => "",
    };
    let edges = edges();
    match random.below(4) {
        0 => format!("{front}{}", edges[random.below(edges.len())]),
        1 => format!("{front}{}", random.number() as u32),
        _ => format!("{front}{}", random.below(70_000)),
    }
}

/// Up to `longest` characters, with those that the grammar gives a meaning, and multi-byte ones, more often than by chance; none of `without`.
fn text(random: &mut Random, longest: usize, without: &str) -> String {
    const MARKS: [&str; 24] = [
        ":",
        "=",
        " ",
        "/",
        "-",
        "+",
        "[",
        "]",
        ".",
        "0",
        "1",
        "7",
        "src:",
        "id=",
        "rate=",
        "direct",
        "traceable",
        "é",
        "€",
        "🕒",
        "\0",
        "\n",
        "\r",
        "]:",
    ];
    let mut text = String::new();
    for _ in 0..random.below(longest + 1) {
        if random.once_in(4) {
            let mark = random.pick(&MARKS);
            if !mark.contains(|c| without.contains(c)) {
                text.push_str(mark);
            }
        } else {
            text.push(char::from(b'a' + random.byte() % 26));
        }
    }
    text
}

/// One to three bytes dropped, changed or added.
pub fn damaged(random: &mut Random, mut value: Value) -> Value {
    let bytes = &mut value.bytes;
    for _ in 0..=random.below(3) {
        let at = random.below(bytes.len() + 1);
        match random.below(3) {
            0 if at < bytes.len() => drop(bytes.remove(at)),
            1 if at < bytes.len() => bytes[at] = odd_byte(random),
            _ if bytes.len() < 65_535 => bytes.insert(at, odd_byte(random)),
            _ => (),
        }
    }
    value
}

/// A byte: mostly one that has a meaning somewhere.
fn odd_byte(random: &mut Random) -> u8 {
    if random.once_in(5) {
        random.byte()
    } else {
        *random.pick(&b":= /-+[].0159afgAFG \0\n".each_ref())
    }
}

/// The value with one of its bytes repeated until the whole is about as long as a value can be.
fn lengthened(random: &mut Random, mut value: Value) -> Value {
    let at = random.below(value.bytes.len() + 1);
    let byte = value.bytes.get(at).copied().unwrap_or(b'0');
    let len = if random.once_in(2) { 1021 + random.below(7) } else { random.below(1030) };
    let missing = len.saturating_sub(value.bytes.len());
    value.bytes.splice(at..at, std::iter::repeat_n(byte, missing));
    value
}
