//! The functions of the module that `made` calls, by their rows in docs/ITEMS.md. A function of a smaller type is shown by the clock that is made
//! of its answer.

use crate::clock_signalling::*;
use crate::module::Made;
use crate::record::Place;

/// The rows that are constructors, conversions or setters.
pub fn rows() -> impl Iterator<Item = u8> {
    let reference = (2..=13).chain(17..=22).chain(24..=26).chain([29]).chain(31..=33).chain(38..=44).chain(51..=55);
    let parts = [59, 60, 62, 65, 66, 71, 72, 73].into_iter();
    let media = (78..=94).chain([96]).chain(101..=111).chain(115..=117).chain(121..=124).chain(126..=132).chain(136..=138);
    reference.chain(parts).chain(media)
}

/// Those that try a domain number.
pub const TRIES: [u8; 4] = [8, 42, 54, 66];

/// The arguments of a call; each function takes those that it needs.
#[derive(Clone)]
pub struct Arguments {
    pub row: u8,
    /// The texts: a host, a name or a domain name; a value; a tag or a version.
    pub p: Place,
    pub q: Place,
    pub r: Place,
    pub id: u64,
    /// A port, a domain number or an offset.
    pub x: u32,
    pub numerator: u32,
    pub denominator: u32,
    /// 0 to 2 are the versions of IEEE, in the order of the module, else the version is the text at `r`.
    pub version: u8,
    pub src: bool,
    /// Which case an argument that is an enum or an option has.
    pub case: u8,
    pub value: String,
}

impl Arguments {
    /// All but the row, high bytes first: p, q, r (start and length in two bytes each), id (8), x, numerator, denominator (4 each), version, src,
    /// case, 0, then the value.
    pub fn frame(&self) -> Vec<u8> {
        let mut bytes = Vec::new();
        for place in [self.p, self.q, self.r] {
            bytes.extend((place.start as u16).to_be_bytes());
            bytes.extend((place.len as u16).to_be_bytes());
        }
        bytes.extend(self.id.to_be_bytes());
        for number in [self.x, self.numerator, self.denominator] {
            bytes.extend(number.to_be_bytes());
        }
        bytes.extend([self.version, u8::from(self.src), self.case, 0]);
        bytes.extend(self.value.bytes());
        [&[self.row], &(bytes.len() as u16).to_be_bytes()[..], &bytes].concat()
    }

    pub fn of(row: u8, bytes: &[u8]) -> Self {
        let number = |at: usize, len: usize| bytes[at..at + len].iter().fold(0u64, |n, byte| n << 8 | u64::from(*byte));
        let place = |at| Place { start: number(at, 2) as usize, len: number(at + 2, 2) as usize };
        Self {
            row,
            p: place(0),
            q: place(4),
            r: place(8),
            id: number(12, 8),
            x: number(20, 4) as u32,
            numerator: number(24, 4) as u32,
            denominator: number(28, 4) as u32,
            version: bytes[32],
            src: bytes[33] != 0,
            case: bytes[34],
            value: String::from_utf8_lossy(&bytes[36..]).into_owned(),
        }
    }

    pub fn text(&self, place: Place) -> &str {
        &self.value[place.start..place.start + place.len]
    }

    fn name(&self) -> &str {
        self.text(self.p)
    }

    fn ext_value(&self) -> &str {
        self.text(self.q)
    }

    fn rate(&self) -> (u32, u32) {
        (self.numerator, self.denominator)
    }

    fn eui(&self) -> Eui64 {
        Eui64::new(self.id)
    }

    fn port(&self) -> u16 {
        self.x as u16
    }

    fn ptp_version(&self) -> PtpVersion {
        match self.version {
            0 => PtpVersion::Ieee1588_2002,
            1 => PtpVersion::Ieee1588_2008,
            2 => PtpVersion::Ieee8021As_2011,
            _ => PtpVersion::Ext(self.text(self.r).to_string()),
        }
    }

    /// Case 0 a name, else a number, of which nothing is asked.
    fn domain(&self) -> PtpDomain {
        match self.case {
            0 => PtpDomain::DomainName { name: self.name().to_string() },
            _ => PtpDomain::DomainNumber(self.x as u8),
        }
    }

    /// Case 0 traceable, 1 a GMID alone, else a GMID with the domain number x.
    fn ptp_server(&self) -> PtpServer {
        match self.case {
            0 => PtpServer::Traceable,
            1 => PtpServer::GmidDomain { gmid: self.eui(), domain: None },
            _ => PtpServer::GmidDomain { gmid: self.eui(), domain: Some(PtpDomain::DomainNumber(self.x as u8)) },
        }
    }

    /// Case 0 traceable, 1 a host, else a host and a port.
    fn ntp_server(&self) -> NtpServerAddr {
        match self.case {
            0 => NtpServerAddr::Traceable,
            1 => NtpServerAddr::HostPort { hostname: self.name().to_string(), port: None },
            _ => NtpServerAddr::HostPort { hostname: self.name().to_string(), port: Some(self.port()) },
        }
    }

    /// Case 0 the name alone, else with the text at r as its value.
    fn optional_value(&self) -> Option<String> {
        (self.case != 0).then(|| self.text(self.r).to_string())
    }

    /// Case 0 the sender, 1 direct with offset and rate, 2 a stream, else an extension with a value.
    fn clock(&self) -> MediaClock {
        match self.case {
            0 => MediaClock::Sender,
            1 => MediaClock::Direct(Direct { offset: Some(self.x), rate: Some(Rate { numerator: self.numerator, denominator: self.denominator }) }),
            2 => MediaClock::Ieee1722StreamId(self.eui()),
            _ => MediaClock::Ext(MediaClockExt { name: self.name().to_string(), value: Some(self.ext_value().to_string()) }),
        }
    }

    fn tag(&self) -> MediaClockId {
        MediaClockId { src: self.src, tag: self.text(self.r).to_string() }
    }

    /// Case 0 neither, 1 an offset, 2 a rate, else both; each made of the two halves of the id.
    fn direct(&self) -> Direct {
        let (high, low) = ((self.id >> 32) as u32, self.id as u32);
        let rate = Rate { numerator: high, denominator: low };
        Direct { offset: (self.case & 1 != 0).then_some(low), rate: (self.case & 2 != 0).then_some(rate) }
    }
}

/// What the function of a row makes of the arguments, or none where it refuses.
pub fn call(a: &Arguments) -> Option<Made> {
    if a.row < 78 && !(59..=62).contains(&a.row) {
        reference(a).map(Made::Reference)
    } else {
        Some(Made::Media(media(a)))
    }
}

fn reference(a: &Arguments) -> Option<ReferenceClock> {
    let (version, gmid) = (a.ptp_version(), a.eui());
    Some(match a.row {
        2 => ReferenceClock::from_ntp_hostname(a.name()),
        3 => ReferenceClock::from_ntp_hostname_with_port(a.name(), a.port()),
        4 => ReferenceClock::new_ntp_traceable(),
        5 => ReferenceClock::from_ptp_gmid(version, gmid),
        6 => ReferenceClock::from_ptp_gmid_with_domain(gmid, a.domain()),
        7 => ReferenceClock::from_ptp_gmid_with_domain_name(gmid, a.name()),
        8 => ReferenceClock::try_from_ptp_gmid_with_domain_number(gmid, a.x as u8).ok()?,
        9 => ReferenceClock::new_ptp_traceable(version),
        10 => ReferenceClock::new_private_source_standard(),
        11 => ReferenceClock::new_private_source_traceable(),
        12 => ReferenceClock::from_clock_source_ext_name(a.name()),
        13 => ReferenceClock::from_clock_source_ext_name_with_value(a.name(), a.ext_value()),
        17 => Ntp { server: a.ntp_server() }.into(),
        18 => a.ntp_server().into(),
        19 => Ptp { version, server: a.ptp_server() }.into(),
        20 => (version, a.ptp_server()).into(),
        21 => (if a.case == 0 { PrivateSource::Standard } else { PrivateSource::Traceable }).into(),
        22 => ClockSourceExt { name: a.name().to_string(), value: a.optional_value() }.into(),
        24 => Ntp::from_hostname(a.name()).into(),
        25 => Ntp::from_hostname_with_port(a.name(), a.port()).into(),
        26 => Ntp::new_traceable().into(),
        29 => Ntp::from(a.ntp_server()).into(),
        31 => NtpServerAddr::from_hostname(a.name()).into(),
        32 => NtpServerAddr::from_hostname_with_port(a.name(), a.port()).into(),
        33 => NtpServerAddr::new_traceable().into(),
        38 => Ptp::new(version, a.ptp_server()).into(),
        39 => Ptp::from_gmid(version, gmid).into(),
        40 => Ptp::from_gmid_with_domain(gmid, a.domain()).into(),
        41 => Ptp::from_gmid_with_domain_name(gmid, a.name()).into(),
        42 => Ptp::try_from_gmid_with_domain_number(gmid, a.x as u8).ok()?.into(),
        43 => Ptp::new_traceable(version).into(),
        44 => Ptp::from((version, a.ptp_server())).into(),
        51 => (version, PtpServer::from_gmid(gmid)).into(),
        52 => (version, PtpServer::from_gmid_with_domain(gmid, a.domain())).into(),
        53 => (version, PtpServer::from_gmid_with_domain_name(gmid, a.name())).into(),
        54 => (version, PtpServer::try_from_ptp_gmid_with_domain_number(gmid, a.x as u8).ok()?).into(),
        55 => (version, PtpServer::new_traceable()).into(),
        65 => ReferenceClock::from_ptp_gmid_with_domain(gmid, PtpDomain::from_name(a.name())),
        66 => ReferenceClock::from_ptp_gmid_with_domain(gmid, PtpDomain::try_from_number(a.x as u8).ok()?),
        71 => ClockSourceExt::new(a.name()).into(),
        72 => ClockSourceExt::with_value(a.name(), a.ext_value()).into(),
        73 => {
            let mut ext = ClockSourceExt { name: a.name().to_string(), value: a.optional_value() };
            ext.set_value(a.ext_value());
            ext.into()
        }
        row => unreachable!("row {row} is no constructor"),
    })
}

fn media(a: &Arguments) -> MediaClockSource {
    let (stream, id) = (a.eui(), a.tag());
    match a.row {
        59 => MediaClockSource::from_ieee1722_stream_id(Eui64::new(a.id)),
        60 => MediaClockSource::from_ieee1722_stream_id(Eui64::new(stream.as_u64())),
        62 => MediaClockSource::from_ieee1722_stream_id(Eui64::from(a.id)),
        78 => MediaClockSource::default(),
        79 => MediaClockSource::new(a.clock()),
        80 => MediaClockSource::with_clock_id(a.clock(), id),
        81 => MediaClockSource::new_direct(),
        82 => MediaClockSource::from_direct_offset(a.x),
        83 => MediaClockSource::from_direct_offset_with_id(a.x, id),
        84 => MediaClockSource::from_direct_rate(a.rate()),
        85 => MediaClockSource::from_direct_rate_with_id(a.rate(), id),
        86 => MediaClockSource::from_direct_offset_and_rate(a.x, a.rate()),
        87 => MediaClockSource::from_direct_offset_and_rate_with_id(a.x, a.rate(), id),
        88 => MediaClockSource::from_ieee1722_stream_id(stream),
        89 => MediaClockSource::from_ieee1722_stream_id_with_id(stream, id),
        90 => MediaClockSource::from_extended_name(a.name()),
        91 => MediaClockSource::from_extended_name_with_id(a.name(), id),
        92 => MediaClockSource::from_extended_name_with_value(a.name(), a.ext_value()),
        93 => MediaClockSource::from_extended_name_with_value_with_id(a.name(), a.ext_value(), id),
        94 => {
            // of version 0 the source has no id before, else one without the flag and with the text at q
            let before = (a.version != 0).then(|| MediaClockId { src: false, tag: a.ext_value().to_string() });
            let mut source = MediaClockSource { id: before, clock: a.clock() };
            source.set_id(id);
            source
        }
        96 => a.clock().into(),
        101..=111 => clock(a).into(),
        115 => MediaClockSource::with_clock_id(MediaClock::Sender, MediaClockId::new(a.text(a.r))),
        116 => MediaClockSource::with_clock_id(MediaClock::Sender, MediaClockId::new_with_src_prefix(a.text(a.r))),
        117 => {
            // of case 0 the id has no flag before, else it has
            let mut id = MediaClockId { src: a.case != 0, tag: a.text(a.r).to_string() };
            id.set_src_prefix(a.src);
            MediaClockSource::with_clock_id(MediaClock::Sender, id)
        }
        121 => MediaClockSource::from_direct_rate(Rate::default()),
        122 => MediaClockSource::from_direct_rate(Rate::new(a.numerator, a.denominator)),
        // an offset of 1 for yes, 0 for no
        123 => MediaClockSource::from_direct_offset(u32::from(Rate { numerator: a.numerator, denominator: a.denominator }.is_one())),
        124 => MediaClockSource::from_direct_rate(Rate::from(a.rate())),
        126..=132 => MediaClock::Direct(direct(a)).into(),
        136 => MediaClock::Ext(MediaClockExt::new(a.name())).into(),
        137 => MediaClock::Ext(MediaClockExt::with_value(a.name(), a.ext_value())).into(),
        138 => {
            let mut ext = MediaClockExt { name: a.name().to_string(), value: a.optional_value() };
            ext.set_value(a.ext_value());
            MediaClock::Ext(ext).into()
        }
        row => unreachable!("row {row} is no constructor"),
    }
}

fn clock(a: &Arguments) -> MediaClock {
    match a.row {
        101 => MediaClock::default(),
        102 => MediaClock::new_direct(),
        103 => MediaClock::from_direct_offset(a.x),
        104 => MediaClock::from_direct_rate(a.rate()),
        105 => MediaClock::from_direct_offset_and_rate(a.x, a.rate()),
        106 => MediaClock::from_ieee1722_stream_id(a.eui()),
        107 => MediaClock::from_extended_name(a.name()),
        108 => MediaClock::from_extended_name_with_value(a.name(), a.ext_value()),
        109 => a.direct().into(),
        110 => a.eui().into(),
        _ => MediaClockExt { name: a.name().to_string(), value: a.optional_value() }.into(),
    }
}

fn direct(a: &Arguments) -> Direct {
    let mut before = a.direct();
    match a.row {
        126 => Direct::default(),
        127 => Direct::new(),
        128 => Direct::with_offset(a.x),
        129 => {
            before.set_offset(a.x);
            before
        }
        130 => Direct::with_rate(a.rate()),
        131 => {
            before.set_rate(a.rate());
            before
        }
        _ => Direct::with_offset_and_rate(a.x, a.rate()),
    }
}
