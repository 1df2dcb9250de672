//! NTP hosts by chance: other spellings of a server, hosts that nearly name it, and new ones.

use crate::random::Random;
use std::net::{IpAddr, Ipv4Addr, Ipv6Addr};
use std::ops::Range;

/// Characters that are no small or large letter of another one in ASCII, though some code could take them for one.
pub const TWINS: [(&str, &str); 14] = [
    ("@", "`"),
    ("[", "{"),
    ("\\", "|"),
    ("]", "}"),
    ("^", "~"),
    ("_", "\x7F"),
    ("É", "é"),
    ("\u{212A}", "k"),
    ("\u{212A}", "K"),
    ("\u{17F}", "s"),
    ("İ", "i"),
    ("ẞ", "ß"),
    ("Σ", "ς"),
    ("Ａ", "ａ"),
];

/// The server in any of its spellings.
pub fn spelled(random: &mut Random, host: &str) -> String {
    match host.parse() {
        Ok(IpAddr::V6(address)) => spelled_v6(random, address),
        // which has one spelling
        Ok(IpAddr::V4(_)) => host.to_string(),
        Err(_) => match in_any_case(random, host) {
            // which is no host
            text if text == "/traceable/" => host.to_string(),
            text => text,
        },
    }
}

pub fn in_any_case(random: &mut Random, text: &str) -> String {
    match random.below(4) {
        0 => text.to_string(),
        1 => text.to_ascii_uppercase(),
        2 => text.to_ascii_lowercase(),
        _ => text.chars().map(|c| if random.once_in(2) { c.to_ascii_uppercase() } else { c.to_ascii_lowercase() }).collect(),
    }
}

/// Zeros in front of groups or not, digits in either case, any run of zero groups contracted or none, the last two groups as an IPv4 address or not.
fn spelled_v6(random: &mut Random, address: Ipv6Addr) -> String {
    let groups = address.segments();
    let has_octets = random.once_in(3);
    let groups = &groups[..if has_octets { 6 } else { 8 }];
    let mut parts: Vec<String> = groups.iter().map(|group| spelled_group(random, *group)).collect();
    if has_octets {
        parts.push(low_half(address).to_string());
    }
    match run_of_zeros(random, groups) {
        None => parts.join(":"),
        Some(run) => format!("{}::{}", parts[..run.start].join(":"), parts[run.end..].join(":")),
    }
}

fn spelled_group(random: &mut Random, group: u16) -> String {
    let width = 1 + random.below(4);
    in_any_case(random, &format!("{group:0width$x}"))
}

/// Any of the runs of zero groups, a single one too; now and then none.
fn run_of_zeros(random: &mut Random, groups: &[u16]) -> Option<Range<usize>> {
    let runs = (0..groups.len()).flat_map(|start| (start + 1..=groups.len()).map(move |end| start..end));
    let zeros: Vec<Range<usize>> = runs.filter(|run| groups[run.clone()].iter().all(|group| *group == 0)).collect();
    (!zeros.is_empty() && !random.once_in(3)).then(|| zeros[random.below(zeros.len())].clone())
}

/// The last 32 bits as an address of the other family.
fn low_half(address: Ipv6Addr) -> Ipv4Addr {
    Ipv4Addr::from(u128::from(address) as u32)
}

/// A host that differs in one thing: the family, a bit of the number, or a character that only looks like the same letter.
pub fn near(random: &mut Random, host: &str) -> String {
    match host.parse() {
        Ok(IpAddr::V4(address)) => match random.below(3) {
            0 => Ipv4Addr::from(u32::from(address) ^ 1 << random.below(32)).to_string(),
            _ => of_other_family(random, address),
        },
        Ok(IpAddr::V6(address)) => match random.below(3) {
            0 => low_half(address).to_string(),
            _ => Ipv6Addr::from(u128::from(address) ^ 1 << random.below(128)).to_string(),
        },
        Err(_) => with_bit(random, host),
    }
}

/// The IPv6 addresses that are taken for an IPv4 address where families are mixed.
pub fn of_other_family(random: &mut Random, address: Ipv4Addr) -> String {
    let address = if random.once_in(2) { address.to_ipv6_mapped() } else { Ipv6Addr::from(u128::from(u32::from(address))) };
    spelled_v6(random, address)
}

/// The bit that large and small letters differ in, turned in one byte that can have it: of a letter this is the same server.
pub fn with_bit(random: &mut Random, host: &str) -> String {
    let bytes = host.bytes().enumerate().filter(|(_, byte)| (0x40..0x80).contains(byte));
    let places: Vec<usize> = bytes.map(|(at, _)| at).collect();
    if places.is_empty() {
        return format!("{host}.");
    }
    let at = places[random.below(places.len())];
    let turned = char::from(host.as_bytes()[at] ^ 0x20);
    format!("{}{turned}{}", &host[..at], &host[at + 1..])
}

/// A host: an address of either family, or a name.
pub fn any(random: &mut Random) -> String {
    match random.below(8) {
        0 => octets(random).to_string(),
        1..=3 => name(random),
        4 => {
            let address = octets(random);
            of_other_family(random, address)
        }
        _ => {
            let groups: [u16; 8] = std::array::from_fn(|_| group(random));
            spelled_v6(random, groups.into())
        }
    }
}

pub fn octets(random: &mut Random) -> Ipv4Addr {
    Ipv4Addr::from(random.number() as u32)
}

/// Mostly 0, so that there are runs.
fn group(random: &mut Random) -> u16 {
    match random.below(8) {
        0 => random.number() as u16,
        1 => 1 << random.below(16),
        2 => random.below(16) as u16,
        _ => 0,
    }
}

/// A name that begins with a letter and has no colon.
pub fn name(random: &mut Random) -> String {
    const REST: &[u8] = b"abcdefghijklmnopqrstuvwxyzABCDEFGHIJKLMNOPQRSTUVWXYZ0123456789-._";
    let mut name = char::from(REST[random.below(52)]).to_string();
    for _ in 0..random.below(12) {
        if random.once_in(8) {
            let (one, other) = TWINS[random.below(TWINS.len())];
            name.push_str(random.pick(&[one, other]));
        } else {
            name.push(char::from(REST[random.below(REST.len())]));
        }
    }
    name
}
