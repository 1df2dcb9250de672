//! Stand-ins for the builders that the module names: each only keeps what it is given. Nothing here is compared.

use crate::clock_signalling::MediaClock;

pub struct NtpServerAddr(pub String);
pub struct ClockSourceExt(pub String);
pub struct MediaClockSource(pub MediaClock);
pub struct Direct;
pub struct MediaClockExt(pub String);

impl NtpServerAddr {
    pub fn new(hostname: impl ToString) -> Self {
        Self(hostname.to_string())
    }
}

impl ClockSourceExt {
    pub fn new(name: impl ToString) -> Self {
        Self(name.to_string())
    }
}

impl MediaClockSource {
    pub fn new(clock: impl Into<MediaClock>) -> Self {
        Self(clock.into())
    }
}

impl Direct {
    #[allow(clippy::new_without_default)]
    pub fn new() -> Self {
        Self
    }
}

impl MediaClockExt {
    pub fn new(name: impl ToString) -> Self {
        Self(name.to_string())
    }
}
