//! The rules (docs/RULES.md) in their order: what a value of either attribute reads as, which rule is the first to break and where, and how a
//! record is written. Written from the document, not from the module.

use crate::leaf::{eui64, first_ill_formed, is_ip_address, number, BrokenEui64};
use crate::record::{Answer, Attribute, Domain, Ext, Id, Media, Place, Record, Reference, Refusal, Version};

type Read<T> = Result<T, Refusal>;

/// The longest value that is read.
pub const LONGEST: usize = 1024;

/// What the document says of a value.
pub fn answer(attribute: Attribute, value: &[u8]) -> Answer {
    match read(attribute, value) {
        Ok(record) => {
            let text = write(&record, value);
            Answer::Accepted(record, text)
        }
        Err(refusal) => Answer::Refused(refusal),
    }
}

fn read(attribute: Attribute, value: &[u8]) -> Read<Record> {
    if value.len() > LONGEST {
        return refuse(1, Place { start: LONGEST, len: value.len() - LONGEST });
    }
    if let Some(start) = first_ill_formed(value) {
        return refuse(2, Place { start, len: 1 });
    }
    let whole = Part { value, start: 0, end: value.len() };
    match attribute {
        Attribute::TsRefclk => reference(whole).map(Record::Reference),
        Attribute::Mediaclk => media_source(whole),
    }
}

fn refuse<T>(number: u8, place: Place) -> Read<T> {
    Err(Refusal { number, place })
}

/// A part of the value that is read.
#[derive(Clone, Copy)]
struct Part<'a> {
    value: &'a [u8],
    start: usize,
    end: usize,
}

impl<'a> Part<'a> {
    fn bytes(self) -> &'a [u8] {
        &self.value[self.start..self.end]
    }

    fn place(self) -> Place {
        Place { start: self.start, len: self.end - self.start }
    }

    fn is_empty(self) -> bool {
        self.start == self.end
    }

    /// The empty place where the part starts.
    fn front(self) -> Place {
        Place { start: self.start, len: 0 }
    }

    /// The empty place where the part ends.
    fn back(self) -> Place {
        Place { start: self.end, len: 0 }
    }

    fn after(self, word: &str) -> Option<Self> {
        self.bytes().starts_with(word.as_bytes()).then_some(Part { start: self.start + word.len(), ..self })
    }

    /// What stands before the first `mark` and after it.
    fn cut(self, mark: &str) -> Option<(Self, Self)> {
        let before = self.bytes().windows(mark.len()).position(|at| at == mark.as_bytes())?;
        Some(self.cut_at(self.start + before, mark.len()))
    }

    fn cut_at_last(self, mark: u8) -> Option<(Self, Self)> {
        let before = self.bytes().iter().rposition(|byte| *byte == mark)?;
        Some(self.cut_at(self.start + before, 1))
    }

    fn cut_at(self, at: usize, len: usize) -> (Self, Self) {
        (Part { end: at, ..self }, Part { start: at + len, ..self })
    }

    fn number(self, limit: u32, refusal: u8) -> Read<u32> {
        match number(self.bytes(), u64::from(limit)) {
            Some(number) => Ok(number as u32),
            None => refuse(refusal, self.place()),
        }
    }
}

fn reference(value: Part) -> Read<Reference> {
    if let Some(server) = value.after("ntp=") {
        return ntp(server);
    }
    if let Some(ptp_value) = value.after("ptp=") {
        return ptp(ptp_value);
    }
    Ok(match value.bytes() {
        b"gps" => Reference::Gps,
        b"gal" => Reference::Gal,
        b"glonass" => Reference::Glonass,
        b"local" => Reference::Local,
        b"private" => Reference::Private,
        b"private:traceable" => Reference::PrivateTraceable,
        _ => Reference::Ext(extension(value, 11)?),
    })
}

fn extension(part: Part, refusal: u8) -> Read<Ext> {
    let (name, value) = match part.cut("=") {
        Some((name, value)) => (name, Some(value.place())),
        None => (part, None),
    };
    if name.is_empty() {
        return refuse(refusal, part.front());
    }
    Ok(Ext { name: name.place(), value })
}

fn ntp(server: Part) -> Read<Reference> {
    if server.is_empty() {
        return refuse(3, server.front());
    }
    if server.bytes() == b"/traceable/" {
        return Ok(Reference::NtpTraceable);
    }
    if is_ip_address(server.bytes()) {
        return Ok(Reference::Ntp { host: server.place(), port: None });
    }
    if let Some(rest) = server.after("[") {
        return match bracketed(rest) {
            Some(reference) => Ok(reference),
            None => refuse(4, server.place()),
        };
    }
    let Some((host, port)) = server.cut_at_last(b':') else {
        return Ok(Reference::Ntp { host: server.place(), port: None });
    };
    if host.is_empty() {
        return refuse(5, server.front());
    }
    let port = port.number(65_535, 6)? as u16;
    Ok(Reference::Ntp { host: host.place(), port: Some(port) })
}

/// The bracket rule, behind the `[`; whatever breaks in it, the refusal is one.
fn bracketed(rest: Part) -> Option<Reference> {
    let (address, port) = match rest.cut("]:") {
        Some((address, port)) => (address, Some(port.number(65_535, 4).ok()? as u16)),
        None => {
            let end = rest.bytes().ends_with(b"]").then_some(rest.end - 1)?;
            (Part { end, ..rest }, None)
        }
    };
    is_ip_address(address.bytes()).then_some(Reference::Ntp { host: address.place(), port })
}

fn ptp(part: Part) -> Read<Reference> {
    let Some((version, server)) = part.cut(":") else {
        return refuse(7, part.front());
    };
    let version = match version.bytes() {
        b"" => return refuse(7, part.front()),
        b"IEEE1588-2002" => Version::V2002,
        b"IEEE1588-2008" => Version::V2008,
        b"IEEE802.1AS-2011" => Version::V2011,
        _ => Version::Own(version.place()),
    };
    if server.is_empty() {
        return refuse(8, server.back());
    }
    if server.bytes() == b"traceable" {
        return Ok(Reference::PtpTraceable { version });
    }
    let (gmid, domain) = match server.cut(":") {
        Some((gmid, domain)) => (gmid, Some(domain)),
        None => (server, None),
    };
    let Ok(id) = eui64(gmid.bytes()) else {
        return refuse(9, gmid.place());
    };
    let domain = match domain {
        None => None,
        Some(name) if name.bytes().len() == 16 => Some(Domain::Name(name.place())),
        Some(digits) => Some(Domain::Number(digits.number(127, 10)? as u8)),
    };
    Ok(Reference::Ptp { version, gmid: id, domain })
}

fn media_source(value: Part) -> Read<Record> {
    let Some(behind) = value.after("id=") else {
        return Ok(Record::Media(None, media(value)?));
    };
    let Some((id, clock)) = behind.cut(" ") else {
        return refuse(12, value.back());
    };
    let (src, tag) = match id.after("src:") {
        Some(tag) => (true, tag),
        None => (false, id),
    };
    if tag.is_empty() {
        return refuse(13, tag.front());
    }
    let id = Id { src, tag: tag.place() };
    Ok(Record::Media(Some(id), media(clock)?))
}

fn media(clock: Part) -> Read<Media> {
    if clock.bytes() == b"sender" {
        return Ok(Media::Sender);
    }
    if let Some(rest) = clock.after("direct") {
        return direct(rest);
    }
    if let Some(stream) = clock.after("IEEE1722=") {
        return stream_id(stream);
    }
    Ok(Media::Ext(extension(clock, 22)?))
}

fn direct(rest: Part) -> Read<Media> {
    if rest.is_empty() {
        return Ok(Media::Direct { offset: None, rate: None });
    }
    let (offset, left) = if let Some(behind) = rest.after("=") {
        let nothing = Part { start: behind.end, ..behind };
        let (offset, left) = behind.cut(" ").unwrap_or((behind, nothing));
        (Some(offset.number(u32::MAX, 14)?), left)
    } else if let Some(left) = rest.after(" ") {
        (None, left)
    } else {
        return refuse(15, rest.place());
    };
    if left.is_empty() {
        return Ok(Media::Direct { offset, rate: None });
    }
    let Some(rate) = left.after("rate=") else {
        return refuse(15, left.place());
    };
    let Some((numerator, denominator)) = rate.cut("/") else {
        return refuse(16, rate.place());
    };
    let numerator = numerator.number(u32::MAX, 17)?;
    let over = denominator.number(u32::MAX, 18)?;
    if over == 0 {
        return refuse(18, denominator.place());
    }
    Ok(Media::Direct { offset, rate: Some((numerator, over)) })
}

fn stream_id(text: Part) -> Read<Media> {
    let inside = |start, len| Place { start: text.start + start, len };
    match eui64(text.bytes()) {
        Ok(id) => Ok(Media::Stream(id)),
        Err(BrokenEui64::Length) => refuse(19, text.place()),
        Err(BrokenEui64::SegmentLength { start, len }) => refuse(20, inside(start, len)),
        Err(BrokenEui64::SegmentDigits { start }) => refuse(21, inside(start, 2)),
    }
}

/// The text of a record of the value, whose places lie inside it.
pub fn write(record: &Record, value: &[u8]) -> Vec<u8> {
    let mut text = Vec::new();
    let at = |place: &Place| place.of(value).expect("a place inside the value");
    match record {
        Record::Reference(reference) => write_reference(reference, at, &mut text),
        Record::Media(id, media) => {
            if let Some(Id { src, tag }) = id {
                text.extend_from_slice(if *src { b"id=src:" } else { b"id=" });
                text.extend_from_slice(at(tag));
                text.push(b' ');
            }
            write_media(media, at, &mut text);
        }
    }
    text
}

fn write_reference<'a>(reference: &Reference, at: impl Fn(&Place) -> &'a [u8], text: &mut Vec<u8>) {
    match reference {
        Reference::NtpTraceable => text.extend_from_slice(b"ntp=/traceable/"),
        Reference::Ntp { host, port: None } => text.extend([b"ntp=", at(host)].concat()),
        Reference::Ntp { host, port: Some(port) } => {
            let host = at(host);
            let (open, close) = if host.contains(&b':') { ("[", "]") } else { ("", "") };
            text.extend([b"ntp=", open.as_bytes(), host, close.as_bytes(), b":", port.to_string().as_bytes()].concat());
        }
        Reference::PtpTraceable { version } => text.extend([b"ptp=", version_text(version, at), b":traceable"].concat()),
        Reference::Ptp { version, gmid, domain } => {
            text.extend([b"ptp=", version_text(version, &at), b":", eui64_text(*gmid).as_bytes()].concat());
            match domain {
                None => (),
                Some(Domain::Name(name)) => text.extend([b":", at(name)].concat()),
                Some(Domain::Number(number)) => text.extend(format!(":{number}").bytes()),
            }
        }
        Reference::Gps => text.extend_from_slice(b"gps"),
        Reference::Gal => text.extend_from_slice(b"gal"),
        Reference::Glonass => text.extend_from_slice(b"glonass"),
        Reference::Local => text.extend_from_slice(b"local"),
        Reference::Private => text.extend_from_slice(b"private"),
        Reference::PrivateTraceable => text.extend_from_slice(b"private:traceable"),
        Reference::Ext(ext) => write_ext(ext, at, text),
    }
}

fn version_text<'a>(version: &Version, at: impl Fn(&Place) -> &'a [u8]) -> &'a [u8] {
    match version {
        Version::V2002 => b"IEEE1588-2002",
        Version::V2008 => b"IEEE1588-2008",
        Version::V2011 => b"IEEE802.1AS-2011",
        Version::Own(place) => at(place),
    }
}

fn write_media<'a>(media: &Media, at: impl Fn(&Place) -> &'a [u8], text: &mut Vec<u8>) {
    match media {
        Media::Sender => text.extend_from_slice(b"sender"),
        Media::Direct { offset, rate } => {
            text.extend_from_slice(b"direct");
            if let Some(offset) = offset {
                text.extend(format!("={offset}").bytes());
            }
            if let Some((numerator, denominator)) = rate {
                text.extend(format!(" rate={numerator}/{denominator}").bytes());
            }
        }
        Media::Stream(id) => text.extend([b"IEEE1722=", eui64_text(*id).as_bytes()].concat()),
        Media::Ext(ext) => write_ext(ext, at, text),
    }
}

fn write_ext<'a>(ext: &Ext, at: impl Fn(&Place) -> &'a [u8], text: &mut Vec<u8>) {
    text.extend_from_slice(at(&ext.name));
    if let Some(value) = &ext.value {
        text.push(b'=');
        text.extend_from_slice(at(value));
    }
}

fn eui64_text(id: u64) -> String {
    let segments: Vec<String> = (0..8).map(|i| format!("{:02X}", (id >> (56 - 8 * i)) as u8)).collect();
    segments.join("-")
}
