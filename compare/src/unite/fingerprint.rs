//! The fingerprint of a clock as slots had it when hosts were compared byte by byte: crates/equal/specs/Fingerprint.antt, with a host mixed as it is
//! spelled.

use crate::clock_signalling::{Ntp, NtpServerAddr, PrivateSource, Ptp, PtpDomain, PtpServer, PtpVersion, ReferenceClock};

/// A clock in columns; what it does not have is 0 or empty there.
#[derive(Default)]
struct Columns<'a> {
    host: &'a str,
    name: &'a str,
    kind: u32,
    form: u32,
    first: u32,
    second: u64,
    third: u32,
    value: &'a str,
}

pub fn fingerprint(clock: &ReferenceClock) -> u32 {
    let columns = columns(clock);
    let texts = mixed_text(mixed_text(0, columns.host), columns.name);
    let Columns { kind, form, first, second, third, .. } = columns;
    let numbers = [kind, form, first, (second >> 32) as u32, second as u32, third];
    mixed_text(numbers.into_iter().fold(texts, mixed), columns.value)
}

fn mixed(n: u32, k: u32) -> u32 {
    n.wrapping_mul(16_777_619).wrapping_add(k)
}

fn mixed_text(n: u32, text: &str) -> u32 {
    text.bytes().map(u32::from).fold(n, mixed)
}

fn columns(clock: &ReferenceClock) -> Columns<'_> {
    let of_kind = |kind| Columns { kind, ..Columns::default() };
    match clock {
        ReferenceClock::Ntp(Ntp { server: NtpServerAddr::Traceable }) => of_kind(0),
        ReferenceClock::Ntp(Ntp { server: NtpServerAddr::HostPort { hostname, port } }) => {
            Columns { host: hostname, first: port.map_or(0, |port| u32::from(port) + 1), ..of_kind(1) }
        }
        ReferenceClock::Ptp(Ptp { version, server }) => {
            let (form, name) = version_columns(version);
            Columns { form, name, kind: 2, ..server_columns(server) }
        }
        ReferenceClock::Gps => of_kind(3),
        ReferenceClock::Gal => of_kind(4),
        ReferenceClock::Glonass => of_kind(5),
        ReferenceClock::Local => of_kind(6),
        ReferenceClock::Private(PrivateSource::Standard) => of_kind(7),
        ReferenceClock::Private(PrivateSource::Traceable) => of_kind(8),
        ReferenceClock::Ext(ext) => {
            let value = ext.value.as_deref();
            Columns { name: &ext.name, first: u32::from(value.is_some()), value: value.unwrap_or_default(), ..of_kind(9) }
        }
    }
}

fn version_columns(version: &PtpVersion) -> (u32, &str) {
    match version {
        PtpVersion::Ieee1588_2002 => (0, ""),
        PtpVersion::Ieee1588_2008 => (1, ""),
        PtpVersion::Ieee8021As_2011 => (2, ""),
        PtpVersion::Ext(own) => (3, own),
    }
}

fn server_columns(server: &PtpServer) -> Columns<'_> {
    let PtpServer::GmidDomain { gmid, domain } = server else {
        return Columns::default();
    };
    let (first, third, value) = match domain {
        None => (1, 0, ""),
        Some(PtpDomain::DomainName { name }) => (2, 0, name.as_str()),
        Some(PtpDomain::DomainNumber(number)) => (3, u32::from(*number), ""),
    };
    Columns { first, second: gmid.as_u64(), third, value, ..Columns::default() }
}
