//! The lines of `answers`: how an answer is printed there, and what a printed line says.

use crate::record::{Answer, Attribute, Domain, Ext, Id, Media, Place, Record, Reference, Refusal, Version};
use std::fmt;
use std::str::{FromStr, Split};

/// Writes what is there, or `-` where it is absent.
struct Optional<'a, T>(&'a Option<T>);

impl<T: fmt::Display> fmt::Display for Optional<'_, T> {
    fn fmt(&self, f: &mut fmt::Formatter) -> fmt::Result {
        match self.0 {
            None => f.write_str("-"),
            Some(it) => it.fmt(f),
        }
    }
}

impl fmt::Display for Place {
    fn fmt(&self, f: &mut fmt::Formatter) -> fmt::Result {
        write!(f, "{}+{}", self.start, self.len)
    }
}

impl fmt::Display for Version {
    fn fmt(&self, f: &mut fmt::Formatter) -> fmt::Result {
        match self {
            Self::V2002 => f.write_str("2002"),
            Self::V2008 => f.write_str("2008"),
            Self::V2011 => f.write_str("2011"),
            Self::Own(place) => place.fmt(f),
        }
    }
}

impl fmt::Display for Domain {
    fn fmt(&self, f: &mut fmt::Formatter) -> fmt::Result {
        match self {
            Self::Name(place) => write!(f, "name {place}"),
            Self::Number(number) => write!(f, "number {number}"),
        }
    }
}

impl fmt::Display for Ext {
    fn fmt(&self, f: &mut fmt::Formatter) -> fmt::Result {
        write!(f, "ext {} {}", self.name, Optional(&self.value))
    }
}

impl fmt::Display for Reference {
    fn fmt(&self, f: &mut fmt::Formatter) -> fmt::Result {
        match self {
            Self::NtpTraceable => f.write_str("ntp traceable"),
            Self::Ntp { host, port } => write!(f, "ntp {host} {}", Optional(port)),
            Self::PtpTraceable { version } => write!(f, "ptp {version} traceable"),
            Self::Ptp { version, gmid, domain } => write!(f, "ptp {version} {gmid:016X} {}", Optional(domain)),
            Self::Gps => f.write_str("gps"),
            Self::Gal => f.write_str("gal"),
            Self::Glonass => f.write_str("glonass"),
            Self::Local => f.write_str("local"),
            Self::Private => f.write_str("private"),
            Self::PrivateTraceable => f.write_str("private traceable"),
            Self::Ext(ext) => ext.fmt(f),
        }
    }
}

impl fmt::Display for Media {
    fn fmt(&self, f: &mut fmt::Formatter) -> fmt::Result {
        match self {
            Self::Sender => f.write_str("sender"),
            Self::Direct { offset, rate } => {
                let rate = rate.map(|(numerator, denominator)| format!("{numerator}/{denominator}"));
                write!(f, "direct {} {}", Optional(offset), Optional(&rate))
            }
            Self::Stream(id) => write!(f, "stream {id:016X}"),
            Self::Ext(ext) => ext.fmt(f),
        }
    }
}

impl fmt::Display for Record {
    fn fmt(&self, f: &mut fmt::Formatter) -> fmt::Result {
        match self {
            Self::Reference(reference) => reference.fmt(f),
            Self::Media(None, media) => write!(f, "- {media}"),
            Self::Media(Some(id), media) => write!(f, "{} {} {media}", if id.src { "src" } else { "id" }, id.tag),
        }
    }
}

impl fmt::Display for Answer {
    fn fmt(&self, f: &mut fmt::Formatter) -> fmt::Result {
        match self {
            Self::Accepted(record, text) => write!(f, "ok {record} = {}", hex(text)),
            Self::Refused(Refusal { number, place }) => write!(f, "no {number} {} {}", place.start, place.len),
        }
    }
}

/// Two small digits a byte.
pub fn hex(bytes: &[u8]) -> String {
    let digit = |n: u8| char::from(b"0123456789abcdef"[usize::from(n)]);
    bytes.iter().flat_map(|byte| [digit(byte >> 4), digit(byte & 15)]).collect()
}

pub fn unhex(digits: &str) -> Option<Vec<u8>> {
    let digit = |byte: u8| char::from(byte).to_digit(16).map(|n| n as u8);
    digits.as_bytes().chunks(2).map(|pair| Some(digit(pair[0])? * 16 + digit(*pair.get(1)?)?)).collect()
}

/// What a line about a value of the attribute says, or none where it is no such line.
pub fn parse(attribute: Attribute, line: &str) -> Option<Answer> {
    if let Some(refusal) = line.strip_prefix("no ") {
        let mut words = Words(refusal.split(' '));
        let (number, start, len) = (words.number()?, words.number()?, words.number()?);
        return Some(Answer::Refused(Refusal { number, place: Place { start, len } }));
    }
    let (record, text) = line.strip_prefix("ok ")?.split_once(" = ")?;
    let mut words = Words(record.split(' '));
    let record = match attribute {
        Attribute::TsRefclk => Record::Reference(words.reference()?),
        Attribute::Mediaclk => Record::Media(words.id()?, words.media()?),
    };
    words.0.next().is_none().then_some(Answer::Accepted(record, unhex(text)?))
}

struct Words<'a>(Split<'a, char>);

impl Words<'_> {
    fn number<T: FromStr>(&mut self) -> Option<T> {
        self.0.next()?.parse().ok()
    }

    fn eui(word: &str) -> Option<u64> {
        u64::from_str_radix(word, 16).ok()
    }

    fn place(&mut self) -> Option<Place> {
        Self::as_place(self.0.next()?)
    }

    fn as_place(word: &str) -> Option<Place> {
        let (start, len) = word.split_once('+')?;
        Some(Place { start: start.parse().ok()?, len: len.parse().ok()? })
    }

    /// Absent where the word is `-`, else what `read` makes of it.
    fn optional<T>(&mut self, read: impl Fn(&str) -> Option<T>) -> Option<Option<T>> {
        match self.0.next()? {
            "-" => Some(None),
            word => Some(Some(read(word)?)),
        }
    }

    fn ext(&mut self) -> Option<Ext> {
        Some(Ext { name: self.place()?, value: self.optional(Self::as_place)? })
    }

    fn version(&mut self) -> Option<Version> {
        Some(match self.0.next()? {
            "2002" => Version::V2002,
            "2008" => Version::V2008,
            "2011" => Version::V2011,
            word => Version::Own(Self::as_place(word)?),
        })
    }

    fn domain(&mut self) -> Option<Option<Domain>> {
        Some(match self.0.next()? {
            "-" => None,
            "name" => Some(Domain::Name(self.place()?)),
            "number" => Some(Domain::Number(self.number()?)),
            _ => return None,
        })
    }

    fn reference(&mut self) -> Option<Reference> {
        Some(match self.0.next()? {
            "ntp" => match self.0.next()? {
                "traceable" => Reference::NtpTraceable,
                host => Reference::Ntp { host: Self::as_place(host)?, port: self.optional(|port| port.parse().ok())? },
            },
            "ptp" => {
                let version = self.version()?;
                match self.0.next()? {
                    "traceable" => Reference::PtpTraceable { version },
                    gmid => Reference::Ptp { version, gmid: Self::eui(gmid)?, domain: self.domain()? },
                }
            }
            "gps" => Reference::Gps,
            "gal" => Reference::Gal,
            "glonass" => Reference::Glonass,
            "local" => Reference::Local,
            "private" => match self.0.next() {
                None => Reference::Private,
                Some("traceable") => Reference::PrivateTraceable,
                Some(_) => return None,
            },
            "ext" => Reference::Ext(self.ext()?),
            _ => return None,
        })
    }

    fn id(&mut self) -> Option<Option<Id>> {
        Some(match self.0.next()? {
            "-" => None,
            "id" => Some(Id { src: false, tag: self.place()? }),
            "src" => Some(Id { src: true, tag: self.place()? }),
            _ => return None,
        })
    }

    fn media(&mut self) -> Option<Media> {
        Some(match self.0.next()? {
            "sender" => Media::Sender,
            "direct" => Media::Direct {
                offset: self.optional(|offset| offset.parse().ok())?,
                rate: self.optional(|rate| {
                    let (numerator, denominator) = rate.split_once('/')?;
                    Some((numerator.parse().ok()?, denominator.parse().ok()?))
                })?,
            },
            "stream" => Media::Stream(Self::eui(self.0.next()?)?),
            "ext" => Media::Ext(self.ext()?),
            _ => return None,
        })
    }
}
