//! What a value reads as, in the notation that `answers` prints: kinds, numbers, and places in the value.

#[derive(Debug, Clone, Copy, PartialEq, Eq)]
pub enum Attribute {
    TsRefclk,
    Mediaclk,
}

impl Attribute {
    /// The byte that a frame begins with.
    pub fn letter(self) -> u8 {
        match self {
            Self::TsRefclk => b'r',
            Self::Mediaclk => b'm',
        }
    }

    pub fn of_letter(letter: u8) -> Option<Self> {
        [Self::TsRefclk, Self::Mediaclk].into_iter().find(|attribute| attribute.letter() == letter)
    }

    /// What a line begins with that has a value of the attribute.
    pub const fn front(self) -> &'static [u8] {
        match self {
            Self::TsRefclk => b"a=ts-refclk:",
            Self::Mediaclk => b"a=mediaclk:",
        }
    }
}

#[derive(Debug, Clone, Copy, PartialEq, Eq)]
pub struct Place {
    pub start: usize,
    pub len: usize,
}

impl Place {
    /// The bytes there, or none where the place reaches outside the value.
    pub fn of<'a>(&self, value: &'a [u8]) -> Option<&'a [u8]> {
        value.get(self.start..self.start.checked_add(self.len)?)
    }
}

#[derive(Debug, Clone, PartialEq, Eq)]
pub enum Version {
    V2002,
    V2008,
    V2011,
    Own(Place),
}

#[derive(Debug, Clone, PartialEq, Eq)]
pub enum Domain {
    Name(Place),
    Number(u8),
}

#[derive(Debug, Clone, PartialEq, Eq)]
pub struct Ext {
    pub name: Place,
    pub value: Option<Place>,
}

#[derive(Debug, Clone, PartialEq, Eq)]
pub enum Reference {
    NtpTraceable,
    Ntp { host: Place, port: Option<u16> },
    PtpTraceable { version: Version },
    Ptp { version: Version, gmid: u64, domain: Option<Domain> },
    Gps,
    Gal,
    Glonass,
    Local,
    Private,
    PrivateTraceable,
    Ext(Ext),
}

#[derive(Debug, Clone, PartialEq, Eq)]
pub struct Id {
    pub src: bool,
    pub tag: Place,
}

#[derive(Debug, Clone, PartialEq, Eq)]
pub enum Media {
    Sender,
    Direct { offset: Option<u32>, rate: Option<(u32, u32)> },
    Stream(u64),
    Ext(Ext),
}

#[derive(Debug, Clone, PartialEq, Eq)]
pub enum Record {
    Reference(Reference),
    Media(Option<Id>, Media),
}

#[derive(Debug, Clone, PartialEq, Eq)]
pub struct Refusal {
    pub number: u8,
    pub place: Place,
}

/// The record and the text that it is written as, or the refusal.
#[derive(Debug, Clone, PartialEq, Eq)]
pub enum Answer {
    Accepted(Record, Vec<u8>),
    Refused(Refusal),
}

/// Every name that `Record::kinds` gives.
#[rustfmt::skip]
pub const KINDS: [&str; 27] = [
    "ntp traceable", "ntp host", "ntp host port", "ptp traceable", "ptp gmid", "ptp gmid name", "ptp gmid number", "ptp 2002", "ptp 2008",
    "ptp 2011", "ptp own version", "gps", "gal", "glonass", "local", "private", "private traceable", "ext name", "ext value", "sender",
    "direct", "direct offset", "direct rate", "direct offset rate", "stream", "id", "id src",
];

impl Record {
    /// The kinds that the record counts under: of its clock, and of its version or id where it has one.
    pub fn kinds(&self) -> Vec<&'static str> {
        match self {
            Self::Reference(reference) => [Some(reference.kind()), reference.version().map(Version::kind)].into_iter().flatten().collect(),
            Self::Media(id, media) => {
                let id = id.as_ref().map(|id| if id.src { "id src" } else { "id" });
                [Some(media.kind()), id].into_iter().flatten().collect()
            }
        }
    }
}

impl Reference {
    fn kind(&self) -> &'static str {
        match self {
            Self::NtpTraceable => "ntp traceable",
            Self::Ntp { port: None, .. } => "ntp host",
            Self::Ntp { port: Some(_), .. } => "ntp host port",
            Self::PtpTraceable { .. } => "ptp traceable",
            Self::Ptp { domain: None, .. } => "ptp gmid",
            Self::Ptp { domain: Some(Domain::Name(_)), .. } => "ptp gmid name",
            Self::Ptp { domain: Some(Domain::Number(_)), .. } => "ptp gmid number",
            Self::Gps => "gps",
            Self::Gal => "gal",
            Self::Glonass => "glonass",
            Self::Local => "local",
            Self::Private => "private",
            Self::PrivateTraceable => "private traceable",
            Self::Ext(ext) => ext.kind(),
        }
    }

    fn version(&self) -> Option<&Version> {
        match self {
            Self::PtpTraceable { version } | Self::Ptp { version, .. } => Some(version),
            _ => None,
        }
    }
}

impl Version {
    fn kind(&self) -> &'static str {
        match self {
            Self::V2002 => "ptp 2002",
            Self::V2008 => "ptp 2008",
            Self::V2011 => "ptp 2011",
            Self::Own(_) => "ptp own version",
        }
    }
}

impl Media {
    fn kind(&self) -> &'static str {
        match self {
            Self::Sender => "sender",
            Self::Direct { offset: None, rate: None } => "direct",
            Self::Direct { offset: Some(_), rate: None } => "direct offset",
            Self::Direct { offset: None, rate: Some(_) } => "direct rate",
            Self::Direct { offset: Some(_), rate: Some(_) } => "direct offset rate",
            Self::Stream(_) => "stream",
            Self::Ext(ext) => ext.kind(),
        }
    }
}

impl Ext {
    fn kind(&self) -> &'static str {
        if self.value.is_none() {
            "ext name"
        } else {
            "ext value"
        }
    }
}
