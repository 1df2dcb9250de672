//! A clock of the module's records in one of its spellings, and clocks that differ from it in one thing.

use crate::clock_signalling::{ClockSourceExt, Eui64, Ntp, NtpServerAddr, PrivateSource, Ptp, PtpDomain, PtpServer, PtpVersion, ReferenceClock};
use crate::hosts;
use crate::random::Random;
use std::net::IpAddr;

/// A value that names the clock.
pub fn value(random: &mut Random, clock: &ReferenceClock) -> String {
    match clock {
        ReferenceClock::Ntp(Ntp { server: NtpServerAddr::HostPort { hostname, port } }) => format!("ntp={}", host_and_port(random, hostname, *port)),
        ReferenceClock::Ptp(Ptp { version, server: PtpServer::GmidDomain { gmid, domain } }) => {
            let domain = match domain {
                None => String::new(),
                Some(PtpDomain::DomainName { name }) => format!(":{name}"),
                Some(PtpDomain::DomainNumber(domain)) => format!(":{}", number(random, u16::from(*domain))),
            };
            format!("ptp={version}:{}{domain}", eui(random, gmid))
        }
        other => other.to_string(),
    }
}

/// An address in brackets or bare; it must have them where with its port it would be an address too.
fn host_and_port(random: &mut Random, host: &str, port: Option<u16>) -> String {
    let host = hosts::spelled(random, host);
    let port = port.map_or(String::new(), |port| format!(":{}", number(random, port)));
    let is_address = |text: &str| text.parse::<IpAddr>().is_ok();
    let needs_brackets = !port.is_empty() && is_address(&format!("{host}{port}"));
    if is_address(&host) && (needs_brackets || random.once_in(2)) {
        format!("[{host}]{port}")
    } else {
        format!("{host}{port}")
    }
}

/// With a plus, zeros in front, both or neither; never of 16 bytes, which as a domain are a name.
fn number(random: &mut Random, number: u16) -> String {
    let sign = random.pick(&["", "", "+"]);
    let zeros = if random.once_in(3) { random.below(20) } else { 0 };
    let text = format!("{sign}{}{number}", "0".repeat(zeros));
    if text.len() == 16 {
        format!("{sign}0{}{number}", "0".repeat(zeros))
    } else {
        text
    }
}

/// In capitals, in small letters, or in both, and then with a plus for a segment below 16 now and then.
fn eui(random: &mut Random, id: &Eui64) -> String {
    let case = random.below(3);
    let mut segment = |byte: &u8| match (case, random.below(4)) {
        (0, _) | (2, 0) => format!("{byte:02X}"),
        (2, 1) if *byte < 16 => format!("+{byte:x}"),
        (2, 2) if *byte < 16 => format!("+{byte:X}"),
        _ => format!("{byte:02x}"),
    };
    id.bytes.each_ref().map(&mut segment).join("-")
}

/// A clock that differs in one thing, mostly; some can be spelled only as another clock, or not at all.
pub fn near(random: &mut Random, clock: &ReferenceClock) -> ReferenceClock {
    match clock {
        ReferenceClock::Ntp(Ntp { server }) => near_server(random, server).into(),
        ReferenceClock::Ptp(Ptp { version, server }) if random.once_in(4) => (near_version(random, version), server.clone()).into(),
        ReferenceClock::Ptp(Ptp { version, server }) => (version.clone(), near_ptp_server(random, server)).into(),
        ReferenceClock::Private(PrivateSource::Standard) => PrivateSource::Traceable.into(),
        ReferenceClock::Ext(ClockSourceExt { name, value }) => near_extension(random, name, value.as_deref()).into(),
        other => ClockSourceExt { name: other.to_string(), value: Some(String::new()) }.into(),
    }
}

fn near_server(random: &mut Random, server: &NtpServerAddr) -> NtpServerAddr {
    match server {
        NtpServerAddr::HostPort { hostname, port } if random.once_in(2) => {
            let hostname = if random.once_in(2) { hosts::near(random, hostname) } else { near_text(random, hostname) };
            NtpServerAddr::HostPort { hostname, port: *port }
        }
        NtpServerAddr::HostPort { hostname, port: None } => NtpServerAddr::from_hostname_with_port(hostname, random.below(3) as u16),
        NtpServerAddr::HostPort { hostname, port: Some(_) } if random.once_in(2) => NtpServerAddr::from_hostname(hostname),
        NtpServerAddr::HostPort { hostname, port: Some(port) } => NtpServerAddr::from_hostname_with_port(hostname, port ^ 1 << random.below(16)),
        NtpServerAddr::Traceable => NtpServerAddr::from_hostname("/traceable"),
    }
}

fn near_version(random: &mut Random, version: &PtpVersion) -> PtpVersion {
    match random.below(4) {
        0 => PtpVersion::Ieee1588_2002,
        1 => PtpVersion::Ieee1588_2008,
        2 => PtpVersion::Ieee8021As_2011,
        _ => PtpVersion::Ext(near_text(random, &version.to_string())),
    }
}

fn near_ptp_server(random: &mut Random, server: &PtpServer) -> PtpServer {
    let PtpServer::GmidDomain { gmid, domain } = server else {
        return PtpServer::from_gmid(random.number());
    };
    let number = match domain {
        Some(PtpDomain::DomainNumber(number)) => *number,
        _ => random.below(128) as u8,
    };
    let domain = match random.below(8) {
        0 => None,
        1 => Some(PtpDomain::from_name(format!("{number:016}"))),
        2 => Some(PtpDomain::DomainNumber(number)),
        3 => Some(PtpDomain::DomainNumber(number ^ 1 << random.below(7))),
        _ => return PtpServer::GmidDomain { gmid: Eui64::new(gmid.as_u64() ^ 1 << random.below(64)), domain: domain.clone() },
    };
    PtpServer::GmidDomain { gmid: *gmid, domain }
}

fn near_extension(random: &mut Random, name: &str, value: Option<&str>) -> ClockSourceExt {
    let (name, value) = match (random.below(4), value) {
        (0, None) => (name.into(), Some(String::new())),
        (0, Some(_)) => (name.into(), None),
        (1, Some(value)) => (name.into(), Some(near_text(random, value))),
        (_, value) => (near_text(random, name), value.map(str::to_string)),
    };
    ClockSourceExt { name, value }
}

/// The text in capitals, without its last character, or with another one at its end.
fn near_text(random: &mut Random, text: &str) -> String {
    let mut text = text.to_string();
    match random.below(4) {
        0 => return text.to_ascii_uppercase(),
        1 => drop(text.pop()),
        2 => {
            text.pop();
            text.push(letter(random));
        }
        _ => text.push(letter(random)),
    }
    text
}

fn letter(random: &mut Random) -> char {
    char::from(b'a' + random.byte() % 26)
}
