//! The Rust module asked: what it makes of a value, and whether an answer with places says the same.

use crate::attributes::AttributeError;
use crate::clock_signalling as rust;
use crate::leaf;
use crate::record::{Answer, Attribute, Domain, Ext, Media, Place, Record, Reference, Refusal, Version};

/// What the module answered.
#[derive(Debug, PartialEq)]
pub enum Made {
    Reference(rust::ReferenceClock),
    Media(rust::MediaClockSource),
}

impl Made {
    /// The text that the module writes.
    pub fn text(&self) -> String {
        match self {
            Self::Reference(clock) => clock.to_string(),
            Self::Media(source) => source.to_string(),
        }
    }
}

pub fn read(attribute: Attribute, value: &str) -> Result<Made, AttributeError> {
    match attribute {
        Attribute::TsRefclk => value.parse().map(Made::Reference),
        Attribute::Mediaclk => value.parse().map(Made::Media),
    }
}

/// Why an answer about the value cannot be the module's, if it cannot.
pub fn objection(value: &str, module: &Result<Made, AttributeError>, answer: &Answer) -> Option<String> {
    match (module, answer) {
        (Ok(made), Answer::Accepted(record, text)) => {
            if with_strings(record, value).as_ref() != Some(made) {
                return Some(format!("the module's record is {made:?}"));
            }
            (made.text().as_bytes() != text).then(|| format!("the module writes {:?}", made.text()))
        }
        (Err(error), Answer::Refused(refusal)) => refusal_objection(value.as_bytes(), error, refusal),
        (Ok(made), Answer::Refused(_)) => Some(format!("the module accepts: {made:?}")),
        (Err(error), Answer::Accepted(..)) => Some(format!("the module refuses: {error:?}")),
    }
}

/// Each error of the module: the attribute, what it names, and the refusal that it means. Where something is missing the error carries no text,
/// and the place is empty; where it is invalid the error carries the text of the place.
const MISSING: [(&str, &str, u8); 8] = [
    ("ts-refclk", "NTP server address", 3),
    ("ts-refclk", "hostname in NTP server address", 5),
    ("ts-refclk", "PTP version", 7),
    ("ts-refclk", "PTP server", 8),
    ("ts-refclk", "Clock source name", 11),
    ("mediaclk", "media clock source", 12),
    ("mediaclk", "media clock tag", 13),
    ("mediaclk", "clock source name", 22),
];
const INVALID: [(&str, &str, u8); 12] = [
    ("ts-refclk", "NTP server address", 4),
    ("ts-refclk", "port in NTP server address", 6),
    ("ts-refclk", "PTP GMID", 9),
    ("ts-refclk", "PTP domain", 10),
    ("mediaclk", "direct: offset", 14),
    ("mediaclk", "direct: direct clock parameters", 15),
    ("mediaclk", "direct: rate format", 16),
    ("mediaclk", "direct: rate numerator", 17),
    ("mediaclk", "direct: rate denominator", 18),
    ("mediaclk", "IEEE1722 stream ID: EUI64", 19),
    ("mediaclk", "IEEE1722 stream ID: EUI64 segment", 20),
    ("mediaclk", "IEEE1722 stream ID: EUI64 hex digit", 21),
];

/// The number that an error means, and the text that it carries.
pub fn meaning(error: &AttributeError) -> Option<(u8, Option<&str>)> {
    let (list, attr, param, val) = match error {
        AttributeError::ParamNotFound { param, attr } => (&MISSING[..], attr, param, None),
        AttributeError::InvalidParamValue { param, val, attr } => (&INVALID[..], attr, param, Some(val.as_str())),
    };
    let row = list.iter().find(|row| row.0 == attr && row.1 == param)?;
    Some((row.2, val))
}

fn refusal_objection(value: &[u8], error: &AttributeError, refusal: &Refusal) -> Option<String> {
    let meant = match meaning(error) {
        Some((number, _)) if number != refusal.number => false,
        Some((_, None)) => refusal.place.len == 0 && refusal.place.of(value).is_some(),
        Some((number, Some(text))) => {
            refusal.place.of(value).is_some_and(|bytes| bytes == text.as_bytes() || number == 10 && names_domain(text, bytes))
        }
        None => false,
    };
    (!meant).then(|| format!("the module's error is {error:?}"))
}

/// The module reports a domain from 128 to 255 as its number; the place has the digits as they came.
fn names_domain(text: &str, bytes: &[u8]) -> bool {
    leaf::number(bytes, 255).is_some_and(|number| number > 127 && number.to_string() == text)
}

/// The record with each place replaced by the text there, in the module's own types.
pub fn with_strings(record: &Record, value: &str) -> Option<Made> {
    let string = |place: &Place| value.get(place.start..place.start.checked_add(place.len)?).map(str::to_string);
    let value_of = |ext: &Ext| match &ext.value {
        None => Some(None),
        Some(place) => string(place).map(Some),
    };
    Some(match record {
        Record::Reference(reference) => Made::Reference(match reference {
            Reference::NtpTraceable => rust::NtpServerAddr::Traceable.into(),
            Reference::Ntp { host, port } => rust::NtpServerAddr::HostPort { hostname: string(host)?, port: *port }.into(),
            Reference::PtpTraceable { version } => (with_version(version, string)?, rust::PtpServer::Traceable).into(),
            Reference::Ptp { version, gmid, domain } => {
                let domain = match domain {
                    None => None,
                    Some(Domain::Name(name)) => Some(rust::PtpDomain::DomainName { name: string(name)? }),
                    Some(Domain::Number(number)) => Some(rust::PtpDomain::DomainNumber(*number)),
                };
                let gmid = rust::Eui64 { bytes: gmid.to_be_bytes() };
                (with_version(version, string)?, rust::PtpServer::GmidDomain { gmid, domain }).into()
            }
            Reference::Gps => rust::ReferenceClock::Gps,
            Reference::Gal => rust::ReferenceClock::Gal,
            Reference::Glonass => rust::ReferenceClock::Glonass,
            Reference::Local => rust::ReferenceClock::Local,
            Reference::Private => rust::PrivateSource::Standard.into(),
            Reference::PrivateTraceable => rust::PrivateSource::Traceable.into(),
            Reference::Ext(ext) => rust::ClockSourceExt { name: string(&ext.name)?, value: value_of(ext)? }.into(),
        }),
        Record::Media(id, media) => {
            let id = match id {
                None => None,
                Some(id) => Some(rust::MediaClockId { src: id.src, tag: string(&id.tag)? }),
            };
            let clock = match media {
                Media::Sender => rust::MediaClock::Sender,
                Media::Direct { offset, rate } => {
                    let rate = rate.map(|(numerator, denominator)| rust::Rate { numerator, denominator });
                    rust::MediaClock::Direct(rust::Direct { offset: *offset, rate })
                }
                Media::Stream(id) => rust::MediaClock::Ieee1722StreamId(rust::Eui64 { bytes: id.to_be_bytes() }),
                Media::Ext(ext) => rust::MediaClock::Ext(rust::MediaClockExt { name: string(&ext.name)?, value: value_of(ext)? }),
            };
            Made::Media(rust::MediaClockSource { id, clock })
        }
    })
}

fn with_version(version: &Version, string: impl Fn(&Place) -> Option<String>) -> Option<rust::PtpVersion> {
    Some(match version {
        Version::V2002 => rust::PtpVersion::Ieee1588_2002,
        Version::V2008 => rust::PtpVersion::Ieee1588_2008,
        Version::V2011 => rust::PtpVersion::Ieee8021As_2011,
        Version::Own(place) => rust::PtpVersion::Ext(string(place)?),
    })
}
