//! The values that are the same in every run: the rows and examples of the documents, the words, lengths, numbers, addresses and EUI-64s at their
//! edges, and multi-byte characters at every place.

use crate::record::Attribute::{self, Mediaclk, TsRefclk};
use crate::texts::{BEHIND_ID, BEHIND_NTP, BEHIND_PTP, EXAMPLES, PREFIXES, ROWS, WORDS};
use crate::values::Value;

pub fn all() -> Vec<Value> {
    [examples(), words(), lengths(), numbers(), addresses(), euis(), characters()].concat()
}

/// The rows and examples of the documents.
pub fn examples() -> Vec<Value> {
    ROWS.iter().chain(&EXAMPLES).map(|(attribute, text)| Value::new(*attribute, text)).collect()
}

/// Every word as a value of both attributes, and what can follow each of the three prefixes that open a part.
pub fn words() -> Vec<Value> {
    let behind =
        |attribute, prefix: &'static str, texts: &'static [&str]| texts.iter().map(move |text| Value::new(attribute, &format!("{prefix}{text}")));
    let both = WORDS.iter().flat_map(|word| [Value::new(TsRefclk, word), Value::new(Mediaclk, word), Value::new(Mediaclk, &format!("id=t {word}"))]);
    both.chain(behind(TsRefclk, "ntp=", &BEHIND_NTP))
        .chain(behind(TsRefclk, "ptp=", &BEHIND_PTP))
        .chain(behind(Mediaclk, "id=", &BEHIND_ID))
        .collect()
}

/// Texts behind each prefix so long that the text, or the whole value, has a length at which a rule begins or ends.
pub fn lengths() -> Vec<Value> {
    let lengths = (0..=1).chain(15..=17).chain(22..=24).chain(1021..=1027);
    let mut values = Vec::new();
    for (attribute, prefix) in PREFIXES {
        for len in lengths.clone() {
            for filler in ["a", "0", "-", "é", "🕒"] {
                values.push(filled(attribute, prefix, filler, prefix.len() + len));
                if len >= prefix.len() {
                    values.push(filled(attribute, prefix, filler, len));
                }
            }
        }
    }
    for len in [2048, 4096, 65_535] {
        values.push(filled(TsRefclk, "ntp=", "a", len));
        values.push(filled(Mediaclk, "direct=", "0", len));
    }
    values
}

/// The prefix and as many fillers as make the length, the last of them cut where they do not fit.
fn filled(attribute: Attribute, prefix: &str, filler: &str, len: usize) -> Value {
    Value { attribute, bytes: prefix.bytes().chain(filler.bytes().cycle()).take(len).collect() }
}

/// Each number at the edges of its width, with what may and may not stand around it.
pub fn numbers() -> Vec<Value> {
    let places = [
        (TsRefclk, "ntp=h:", ""),
        (TsRefclk, "ntp=[::1]:", ""),
        (TsRefclk, "ntp=::1:", ""),
        (TsRefclk, "ptp=V:39-A7-94-FF-FE-07-CB-D0:", ""),
        (Mediaclk, "direct=", ""),
        (Mediaclk, "direct=", " rate=1/2"),
        (Mediaclk, "direct rate=", "/1"),
        (Mediaclk, "direct rate=1/", ""),
        (Mediaclk, "id=t direct=0 rate=1/", ""),
    ];
    let mut values = Vec::new();
    for (attribute, before, after) in places {
        for number in edges() {
            for front in ["", "+", "0", "+0", "00000", "+0000000000000000000000000000", "++", "-", " ", "0x", "+-"] {
                for back in ["", " ", "a", "+", "\0", "é", "٣", ".0", "/"] {
                    values.push(Value::new(attribute, &format!("{before}{front}{number}{back}{after}")));
                }
            }
        }
    }
    values
}

/// Numbers around each width's end, and none at all.
pub fn edges() -> Vec<String> {
    let mut edges: Vec<String> = ["", "0", "1", "9", "10", "99999999999999999999999999"].map(String::from).into();
    for limit in [127, 255, 65_535, u128::from(u32::MAX), u128::from(u64::MAX)] {
        edges.extend([limit - 1, limit, limit + 1, limit * 10].map(|number| number.to_string()));
    }
    edges
}

/// Addresses of every shape, valid and nearly, bare and in brackets, with a port and without.
pub fn addresses() -> Vec<Value> {
    let around = [("", ""), ("", ":80"), ("[", "]"), ("[", "]:80"), ("[", "]:x"), ("[", "")];
    let mut values = Vec::new();
    for address in address_shapes() {
        for (before, after) in around {
            values.push(Value::new(TsRefclk, &format!("ntp={before}{address}{after}")));
        }
    }
    values
}

/// Up to nine groups on each side of `::`, or of nothing, with an IPv4 address at the front, the end or nowhere; then IPv4 addresses.
pub fn address_shapes() -> Vec<String> {
    let mut shapes = Vec::new();
    for group in ["1", "abCD", "0000", "12345", "g", ""] {
        for left in 0..=9 {
            for right in 0..=9 {
                for middle in ["::", ":", ":::"] {
                    let side = |groups: usize| vec![group; groups].join(":");
                    let text = format!("{}{middle}{}", side(left), side(right));
                    shapes.push(format!("{text}:1.2.3.4"));
                    shapes.push(format!("{text}1.2.3.4"));
                    shapes.push(format!("1.2.3.4{text}"));
                    shapes.push(text);
                }
            }
        }
    }
    for octet in
        ["0", "00", "1", "01", "9", "10", "99", "100", "199", "200", "249", "250", "255", "256", "260", "300", "1000", "", "+1", "-1", "a", " 1"]
    {
        for octets in 1..=5 {
            for at in 0..octets {
                let mut parts = vec!["7"; octets];
                parts[at] = octet;
                shapes.push(parts.join("."));
                shapes.push(format!("::{}", parts.join(".")));
            }
        }
    }
    shapes.extend(
        ["::1%eth0", "fe80::1%1", "::1/64", "1.2.3.4/8", "0x7f.0.0.1", "1.2.3.4.", ".1.2.3.4", "::ffff:1.2.3.4", " ::1", "::1 "].map(String::from),
    );
    shapes
}

/// EUI-64s with each segment in turn replaced, of the right length and not.
pub fn euis() -> Vec<Value> {
    let segments =
        ["00", "ff", "FF", "+1", "+f", "++", "1+", "+", "", "-", "--", "g0", "0g", "0G", "é", " 1", "1 ", "0", "000", "0x", "/0", ":0", "@A", "`a"];
    let mut values = Vec::new();
    for segment in segments {
        for at in 0..8 {
            for rest in ["00", "aB", "+9"] {
                let mut parts = [rest; 8];
                parts[at] = segment;
                let mut text = parts.join("-");
                values.extend(around_eui(&text));
                while text.len() < 23 {
                    text.push('0');
                }
                values.extend(around_eui(&text[..if text.is_char_boundary(23) { 23 } else { 22 }]));
            }
        }
    }
    for count in 1..=10 {
        values.extend(around_eui(&vec!["00"; count].join("-")));
    }
    values
}

fn around_eui(text: &str) -> [Value; 3] {
    [
        Value::new(TsRefclk, &format!("ptp=V:{text}:0")),
        Value::new(Mediaclk, &format!("IEEE1722={text}")),
        Value::new(Mediaclk, &format!("id=src:t IEEE1722={text}")),
    ]
}

/// Multi-byte characters, whole, cut short and ill-formed, at every place of every example.
pub fn characters() -> Vec<Value> {
    let sequences: [&[u8]; 17] = [
        "é".as_bytes(),
        "€".as_bytes(),
        "🕒".as_bytes(),
        "\u{80}".as_bytes(),
        "\u{10FFFF}".as_bytes(),
        b"\xC3",
        b"\xE2",
        b"\xE2\x82",
        b"\xF0",
        b"\xF0\x9F",
        b"\xF0\x9F\x95",
        b"\x80",
        b"\xC0\xAF",
        b"\xE0\x9F\xBF",
        b"\xED\xA0\x80",
        b"\xF4\x90\x80\x80",
        b"\xFF",
    ];
    let mut values = Vec::new();
    for example in examples() {
        for at in 0..=example.bytes.len() {
            for sequence in sequences {
                let (front, back) = example.bytes.split_at(at);
                values.push(Value { attribute: example.attribute, bytes: [front, sequence, back].concat() });
            }
        }
    }
    // around the longest length, where the check of the length comes first
    for sequence in sequences {
        for front in 1018..=1025 {
            values.push(Value { attribute: TsRefclk, bytes: [&vec![b'a'; front], sequence].concat() });
        }
    }
    values
}
