//! Which clock a ts-refclk value names, over the module's records (docs/RULES.md, Q1). The rule of the same clock is said here and nowhere else.

use crate::clock_signalling::{Ntp, NtpServerAddr, ReferenceClock};
use crate::table::LONGEST;
use std::fmt;
use std::hash::{Hash, Hasher};
use std::net::IpAddr;

/// The clock that a value names, or none where it is refused.
pub fn clock(value: &[u8]) -> Option<Clock> {
    let text = std::str::from_utf8(value).ok().filter(|text| text.len() <= LONGEST)?;
    text.parse().ok().map(Clock::of)
}

/// A clock by a record of it. Two are equal where they are the same clock.
#[derive(Debug, Clone)]
pub struct Clock {
    pub record: ReferenceClock,
    /// The host, where it is an IP address: read once, as a list compares its clocks over and over.
    address: Option<IpAddr>,
}

impl Clock {
    pub fn of(record: ReferenceClock) -> Self {
        let address = host_and_port(&record).and_then(|(host, _)| host.parse().ok());
        Self { record, address }
    }

    /// The NTP host as it is spelled, and its port.
    pub fn host_and_port(&self) -> Option<(&str, Option<u16>)> {
        host_and_port(&self.record)
    }
}

fn host_and_port(record: &ReferenceClock) -> Option<(&str, Option<u16>)> {
    match record {
        ReferenceClock::Ntp(Ntp { server: NtpServerAddr::HostPort { hostname, port } }) => Some((hostname, *port)),
        _ => None,
    }
}

impl PartialEq for Clock {
    /// Records that are equal but for NTP hosts, which name one server: by family and number where both are IP addresses, else with ASCII letters
    /// alike in either case.
    fn eq(&self, other: &Self) -> bool {
        let (Some((host, port)), Some((other_host, other_port))) = (self.host_and_port(), other.host_and_port()) else {
            return self.record == other.record;
        };
        port == other_port
            && match (self.address, other.address) {
                (Some(one), Some(another)) => one == another,
                _ => host.eq_ignore_ascii_case(other_host),
            }
    }
}

impl Eq for Clock {}

impl Hash for Clock {
    /// Of what equal clocks share.
    fn hash<H: Hasher>(&self, state: &mut H) {
        match (self.address, self.host_and_port()) {
            (Some(address), Some((_, port))) => (address, port).hash(state),
            (None, Some((host, port))) => (host.to_ascii_lowercase(), port).hash(state),
            (_, None) => self.record.to_string().hash(state),
        }
    }
}

/// The text that the module writes.
impl fmt::Display for Clock {
    fn fmt(&self, f: &mut fmt::Formatter<'_>) -> fmt::Result {
        self.record.fmt(f)
    }
}
