//! Pairs of ts-refclk values by hand, with every edge of the rule of the same clock, for the stored list.

use super::Question;

/// Both questions about each pair, and about it the other way round.
pub fn questions() -> Vec<Question> {
    let written = PAIRS.iter().map(|(first, second)| [first.as_bytes().to_vec(), second.as_bytes().to_vec()]);
    let pairs = written.chain(long_and_ill_formed());
    pairs.flat_map(|[first, second]| [[first.clone(), second.clone()], [second, first]]).flat_map(Question::both).collect()
}

/// Hosts so long that the value has 1,024 bytes, or one more, and bytes that are no UTF-8.
fn long_and_ill_formed() -> Vec<[Vec<u8>; 2]> {
    let host = |letter: &[u8], len: usize| [b"ntp=", &letter.repeat(len)[..]].concat();
    vec![
        [host(b"a", 1020), host(b"A", 1020)],
        [host(b"a", 1021), host(b"A", 1021)],
        [host(b"a", 1020), host(b"a", 1021)],
        [host(b"a", 1020), host(b"a", 1019)],
        [host(b"\xFF", 1), host(b"\xFF", 1)],
        [host(b"\xC3\xA9", 1), host(b"\xC3", 1)],
        [host(b"\xC3\x89", 1), host(b"\xE9", 1)],
    ]
}

#[rustfmt::skip]
const PAIRS: [(&str, &str); 121] = [
    // names: ASCII letters in either case, and nothing else
    ("ntp=ntp.example.org", "ntp=ntp.example.org"), ("ntp=ntp.example.org", "ntp=NTP.Example.ORG"), ("ntp=h", "ntp=H:123"),
    ("ntp=h:123", "ntp=H:123"), ("ntp=h:123", "ntp=H:124"), ("ntp=h:123", "ntp=H:+000123"), ("ntp=h:0", "ntp=H"), ("ntp=a", "ntp=b"),
    ("ntp=abc", "ntp=abd"), ("ntp=abc", "ntp=ab"), ("ntp=h", "ntp=h."), ("ntp=az", "ntp=AZ"), ("ntp=a@", "ntp=a`"), ("ntp=@", "ntp=`"),
    ("ntp=a[", "ntp=a{"), ("ntp={", "ntp=["), ("ntp=a\\", "ntp=a|"), ("ntp=a]", "ntp=a}"), ("ntp=a^", "ntp=a~"), ("ntp=a_", "ntp=a\x7F"),
    ("ntp=a0", "ntp=a\x10"), ("ntp=a ", "ntp=a\0"), ("ntp=é", "ntp=É"), ("ntp=É", "ntp=É"), ("ntp=Xé", "ntp=xé"), ("ntp=\u{212A}", "ntp=k"),
    ("ntp=\u{212A}", "ntp=K"), ("ntp=\u{17F}", "ntp=s"), ("ntp=İ", "ntp=i"), ("ntp=ẞ", "ntp=ß"), ("ntp=ß", "ntp=ss"), ("ntp=Ａ", "ntp=ａ"),
    ("ntp=/traceable/", "ntp=/traceable/"), ("ntp=/traceable/", "ntp=/Traceable/"), ("ntp=/TRACEABLE/", "ntp=/Traceable/"),
    ("ntp=/traceable/:1", "ntp=/Traceable/:1"),
    // IPv4 addresses have one spelling each, and are of their own family
    ("ntp=1.2.3.4", "ntp=1.2.3.4"), ("ntp=1.2.3.4", "ntp=[1.2.3.4]"), ("ntp=1.2.3.4:80", "ntp=[1.2.3.4]:+80"), ("ntp=1.2.3.4", "ntp=1.2.3.5"),
    ("ntp=1.2.3.4", "ntp=1.2.3.04"), ("ntp=1.2.3.04", "ntp=1.2.3.04"), ("ntp=1.2.3.4", "ntp=::1.2.3.4"), ("ntp=1.2.3.4", "ntp=::ffff:1.2.3.4"),
    ("ntp=1.2.3.4:80", "ntp=[::1.2.3.4]:80"), ("ntp=1.2.3.4:80", "ntp=[::ffff:102:304]:80"), ("ntp=0.0.0.0", "ntp=::"), ("ntp=0.0.0.1", "ntp=::1"),
    ("ntp=255.255.255.255", "ntp=::ffff:ffff"), ("ntp=1.2.3.4", "ntp=102:304"), ("ntp=1.2.3.4", "ntp=16909060"), ("ntp=1.2.3.4", "ntp=1.2.3.4."),
    ("ntp=256.1.1.1", "ntp=256.1.1.1"), ("ntp=1.2.3", "ntp=1.2.3"), ("ntp=1.2.3.4", "ntp=1:2:3:4::"),
    // IPv6 addresses by their numbers
    ("ntp=::1", "ntp=[::1]"), ("ntp=::1", "ntp=0:0:0:0:0:0:0:1"), ("ntp=::1", "ntp=0000:0000:0000:0000:0000:0000:0000:0001"),
    ("ntp=::1", "ntp=0::1"), ("ntp=::1", "ntp=0:0::0:1"), ("ntp=::1", "ntp=::0.0.0.1"), ("ntp=::1", "ntp=0:0:0:0:0:0:0.0.0.1"),
    ("ntp=::1", "ntp=::2"), ("ntp=::1", "ntp=1::"), ("ntp=::", "ntp=0:0:0:0:0:0:0:0"), ("ntp=::", "ntp=0::0"), ("ntp=::", "ntp=::0.0.0.0"),
    ("ntp=1:2:3:4:5:6:7::", "ntp=1:2:3:4:5:6:7:0"), ("ntp=::2:3:4:5:6:7:8", "ntp=0:2:3:4:5:6:7:8"), ("ntp=1:2:3::5:6:7:8", "ntp=1:2:3:0:5:6:7:8"),
    ("ntp=1:2:3::5:6:7.0.8.0", "ntp=1:2:3:0:5:6:0700:800"), ("ntp=1::2:0:0:3", "ntp=1:0:0:0:2::3"), ("ntp=1:0:0:2::3", "ntp=1::2:0:0:3"),
    ("ntp=2001:db8::1", "ntp=2001:DB8::1"), ("ntp=2001:db8::1", "ntp=2001:0DB8:0::0001"), ("ntp=2001:db8::1", "ntp=2001:db8:1::"),
    ("ntp=[2001:db8::1]:123", "ntp=[2001:DB8:0:0:0:0:0:1]:0123"), ("ntp=[2001:db8::1]:123", "ntp=[2001:db8::1]:124"),
    ("ntp=[2001:db8::1]:123", "ntp=2001:db8::1"), ("ntp=[2001:db8::1]:123", "ntp=2001:db8::1:123"), ("ntp=::1:80", "ntp=[::1]:80"),
    ("ntp=::ffff:1.2.3.4", "ntp=::FFFF:102:304"), ("ntp=::ffff:1.2.3.4", "ntp=::1.2.3.4"), ("ntp=::ffff:1.2.3.4", "ntp=0:0:0:0:0:ffff:0102:0304"),
    ("ntp=[::255.255.255.255]", "ntp=::ffff:ffff"), ("ntp=fe80::a", "ntp=FE80::A"), ("ntp=ffff::ffff", "ntp=FFFF:0::FFFF"),
    // a port behind an address without brackets, and hosts that nearly are addresses
    ("ntp=::1:+80", "ntp=[::1]:80"), ("ntp=::1:00080", "ntp=[0::1]:80"), ("ntp=::1.2.3.4:80", "ntp=[::102:304]:80"),
    ("ntp=1:2:3:4:5:6:7:8:9", "ntp=[1:2:3:4:5:6:7:8]:9"),
    ("ntp=fe80::a%eth0:80", "ntp=FE80::A%ETH0:80"), ("ntp=fe80::1%eth0:80", "ntp=fe80:0::1%eth0:80"), ("ntp=1::2::3:80", "ntp=1::2:0:3:80"),
    ("ntp=00001:::80", "ntp=1:::80"), ("ntp=a:b:80", "ntp=A:B:80"), ("ntp=a:b:80", "ntp=A:0B:80"), ("ntp=1:2:3:4:5:6:7:+8", "ntp=1:2:3:4:5:6:7:8"),
    ("ntp=1:2:3:4:5:6:7:8:9", "ntp=1:2:3:4:5:6:7:08:9"), ("ntp=[h]", "ntp=[h]"), ("ntp=[::g]", "ntp=[::g]"),
    // clocks without a host: case counts in all but base 16
    ("ptp=IEEE1588-2008:39-A7-94-FF-FE-07-CB-D0:37", "ptp=IEEE1588-2008:39-a7-94-ff-fe-07-cb-d0:+037"),
    ("ptp=IEEE1588-2008:01-0A-94-FF-FE-07-CB-D0", "ptp=IEEE1588-2008:+1-+a-94-FF-FE-07-CB-D0"),
    ("ptp=IEEE1588-2008:39-A7-94-FF-FE-07-CB-D0", "ptp=IEEE1588-2008:39-A7-94-FF-FE-07-CB-D1"),
    ("ptp=IEEE1588-2008:39-A7-94-FF-FE-07-CB-D0", "ptp=ieee1588-2008:39-A7-94-FF-FE-07-CB-D0"),
    ("ptp=IEEE1588-2002:39-A7-94-FF-FE-07-CB-D0:A name of 16 by.", "ptp=IEEE1588-2002:39-A7-94-FF-FE-07-CB-D0:a name of 16 by."),
    ("ptp=V:39-A7-94-FF-FE-07-CB-D0:5", "ptp=v:39-A7-94-FF-FE-07-CB-D0:5"), ("ptp=V:traceable", "ptp=V:traceable"), ("ptp=V:traceable", "ntp=h"),
    ("gps", "gps"), ("gps", "GPS"), ("gal", "glonass"), ("private:traceable", "private"), ("ext", "ext="), ("ext=::1", "ext=0::1"),
    // refused and empty values
    ("", ""), ("", "ntp=h"), ("ntp=", "ntp="), ("ntp=:80", "ntp=:80"), ("ntp=h:65536", "ntp=h:65536"), ("ptp=V:x", "gps"),
];
