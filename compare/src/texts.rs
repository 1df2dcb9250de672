//! The texts that the lists are made of: prefixes, rows and examples of the documents, words and what can stand behind them.

use crate::record::Attribute::{self, Mediaclk, TsRefclk};

/// What a value can begin with: behind each of these every short byte string is tried, and texts of the lengths that matter.
pub const PREFIXES: [(Attribute, &str); 31] = [
    (TsRefclk, ""),
    (TsRefclk, "ntp="),
    (TsRefclk, "ntp=["),
    (TsRefclk, "ntp=[::1"),
    (TsRefclk, "ntp=[::1]"),
    (TsRefclk, "ntp=[::1]:"),
    (TsRefclk, "ntp=::"),
    (TsRefclk, "ntp=h:"),
    (TsRefclk, "ptp="),
    (TsRefclk, "ptp=V"),
    (TsRefclk, "ptp=V:"),
    (TsRefclk, "ptp=V:39-A7-94-FF-FE-07-CB-"),
    (TsRefclk, "ptp=V:39-A7-94-FF-FE-07-CB-D0"),
    (TsRefclk, "ptp=V:39-A7-94-FF-FE-07-CB-D0:"),
    (TsRefclk, "private"),
    (TsRefclk, "x="),
    (Mediaclk, ""),
    (Mediaclk, "id="),
    (Mediaclk, "id=src:"),
    (Mediaclk, "id=t "),
    (Mediaclk, "id=t direct"),
    (Mediaclk, "sender"),
    (Mediaclk, "direct"),
    (Mediaclk, "direct="),
    (Mediaclk, "direct=1 "),
    (Mediaclk, "direct "),
    (Mediaclk, "direct rate="),
    (Mediaclk, "direct rate=1/"),
    (Mediaclk, "IEEE1722="),
    (Mediaclk, "IEEE1722=39-A7-94-FF-FE-07-CB-"),
    (Mediaclk, "x="),
];

/// The rows of the rules.
pub const ROWS: [(Attribute, &str); 18] = [
    (TsRefclk, ""),
    (TsRefclk, "ntp=::1:8080"),
    (TsRefclk, "ntp=::1:65535"),
    (TsRefclk, "ntp=a:b:80"),
    (TsRefclk, "ntp=[a:b]:80"),
    (TsRefclk, "ntp=h:+080"),
    (TsRefclk, "ptp=V:+1-00-00-00-00-00-00-00:127"),
    (TsRefclk, "ptp=V:+1-00-00-00-00-00-00-00:128"),
    (TsRefclk, "ptp=V:+1-00-00-00-00-00-00-00:0000000000000005"),
    (TsRefclk, "ptp=V:+1-00-00-00-00-00-00-00:00000000000000005"),
    (TsRefclk, "ptp=V:+1-00-00-00-00-00-00-00:domain-nmbr=0127"),
    (Mediaclk, "direct="),
    (Mediaclk, "directfoo"),
    (Mediaclk, "direct rate=0/1"),
    (Mediaclk, "direct rate=1/0"),
    (Mediaclk, "direct=4294967296"),
    (Mediaclk, "id=src: sender"),
    (Mediaclk, "id=a"),
];

/// The examples of RFC 7273, what senders in the field use, and one value or more of each kind that these lack.
pub const EXAMPLES: [(Attribute, &str); 36] = [
    (TsRefclk, "ntp=/traceable/"),
    (TsRefclk, "ntp=203.0.113.10"),
    (TsRefclk, "ntp=198.51.100.22"),
    (TsRefclk, "ptp=IEEE802.1AS-2011:39-A7-94-FF-FE-07-CB-D0"),
    (TsRefclk, "ptp=IEEE1588-2008:39-A7-94-FF-FE-07-CB-D0:0"),
    (TsRefclk, "ptp=IEEE1588-2008:traceable"),
    (TsRefclk, "local"),
    (TsRefclk, "private:traceable"),
    (Mediaclk, "sender"),
    (Mediaclk, "direct=963214424"),
    (Mediaclk, "direct=963214424 rate=1000/1001"),
    (Mediaclk, "IEEE1722=38-D6-6D-8E-D2-78-13-2F"),
    (Mediaclk, "id=src:MDA6NjA6MmI6MjA6MTI6MWY= sender"),
    (Mediaclk, "id=MDA6NjA6MmI6MjA6MTI6MWY= sender"),
    (TsRefclk, "ptp=IEEE1588-2008:00-1D-C1-FF-FE-12-00-A4:0"),
    (TsRefclk, "ptp=IEEE1588-2008:ec-46-70-ff-fe-00-ff-ca:127"),
    (TsRefclk, "localmac=7C-E9-D3-1B-9A-AF"),
    (Mediaclk, "direct=0"),
    (TsRefclk, "gps"),
    (TsRefclk, "gal"),
    (TsRefclk, "glonass"),
    (TsRefclk, "private"),
    (TsRefclk, "ntp=ntp.example.org"),
    (TsRefclk, "ntp=ntp.example.org:123"),
    (TsRefclk, "ntp=[2001:db8::1]"),
    (TsRefclk, "ntp=[2001:db8::1]:123"),
    (TsRefclk, "ptp=IEEE1588-2002:39-A7-94-FF-FE-07-CB-D0:a name of 16 by."),
    (TsRefclk, "ptp=own:39-a7-94-ff-fe-07-cb-d0"),
    (TsRefclk, "ptp=IEEE1588-2019:traceable"),
    (TsRefclk, "name"),
    (TsRefclk, "name="),
    (TsRefclk, "name=a=b"),
    (Mediaclk, "direct"),
    (Mediaclk, "direct "),
    (Mediaclk, "name=value with spaces"),
    (Mediaclk, "id=tag IEEE1722=00-00-00-00-00-00-00-00"),
];

/// Whole words of the grammar, nearly them, and values that show in which order the rules are tried.
#[rustfmt::skip]
pub const WORDS: [&str; 60] = [
    "gps", "GPS", "gp", "gpss", " gps", "gps ", "gps=", "gps=1", "gal", "gal=", "Gal", "galx", "glonass", "glonas", "glonasss", "local",
    "Local", "local ", "local=", "private", "private:", "private:traceable", "private:traceable ", "private:Traceable", "private:x",
    "private=", "privat", "ntp", "ntp:", "NTP=h", "ptp", "ptp:", "PTP=V:traceable", "sender", "Sender", "sende", "senders", "sender ",
    "sender=", "direct", "Direct", "direct=+0 ", "direct=0 x", "direct x", "direct  ", "direct rate", "direct rate=", "direct rate=1",
    "direct rate=/", "direct rate=1/2/3", "direct=1 rate=1/2 ", "direct=1  rate=1/2", "direct=x foo", "IEEE1722", "IEEE1722=",
    "ieee1722=00-00-00-00-00-00-00-00", "=", "=x", "id=", "id= sender",
];

#[rustfmt::skip]
pub const BEHIND_NTP: [&str; 34] = [
    "/traceable/", "/traceable", "traceable", "/traceable/:1", "[", "]", "[]", "[]:", "[]:1", "[h]", "[h]:1", "[::1]", "[::1]:", "[::1]:1",
    "[::1]:x", "[::1]1", "[::1]]", "[[::1]]", "[::1]:1]:1", "[::1]:1]", "[::1]x]:1", "[::]:65536", "[1.2.3.4]:65535", "1.2.3.4:123",
    "1.2.3.4:", ":", "::", ":::", ":1", "h:", "h::", "h::1", "::1:123456", "[::1:80",
];

#[rustfmt::skip]
pub const BEHIND_PTP: [&str; 24] = [
    "", ":", "::", "V", "V:", "V::", ":traceable", "V:traceable", "V:traceable:", "V:traceable:0", "V:Traceable", "V:traceabl",
    "IEEE1588-2002:traceable", "IEEE1588-2008:", "IEEE802.1AS-2011:traceable", "IEEE1588-2001:traceable", "ieee1588-2008:traceable",
    " IEEE1588-2008:traceable", "V:x", "V:39-A7-94-FF-FE-07-CB-D0", "V:39-A7-94-FF-FE-07-CB-D0:", "V:39-A7-94-FF-FE-07-CB-D0::",
    "V:39-A7-94-FF-FE-07-CB-D0:0:", "V:39-A7-94-FF-FE-07-CB-D:0",
];

pub const BEHIND_ID: [&str; 14] =
    ["", " ", "t", "t ", "t  ", "src:", "src: ", "src:t ", "src:t sender", "src sender", "srcx: sender", "src:src: sender", " id=t sender", "t =x"];
