//! Texts at the edges of each rule, on either side of them. The number of a rule's edges is
//! always the same; letters that do not matter are drawn.

use crate::profile::NOT_PROVIDED;
use crate::random::Random;
use crate::rules::{Rule, LETTERS};
use crate::samples::DIGITS;
use crate::shape_edges::{bics, countries, creditor_ids, ibans};

pub fn edges(rule: Rule, random: &mut Random) -> Vec<Vec<u8>> {
    match rule {
        Rule::Id => plain(35, random),
        Rule::Name => plain(70, random),
        Rule::Remittance => plain(140, random),
        Rule::Count => counts(random),
        Rule::Sum => decimals(15, random),
        Rule::Amount => decimals(9, random),
        Rule::Date => dates(random),
        Rule::Time => times(random),
        Rule::Iban => ibans(random),
        Rule::Bic => bics(random),
        Rule::CreditorId => creditor_ids(random),
        Rule::AddressText(longest) => address_texts(longest, random),
        Rule::Country => countries(),
        Rule::OneOf(words) => codes(words),
    }
}

/// One of the edges of all these rules, taken one after the other.
pub fn edge_in_turn(rules: &[Rule], turn: usize, random: &mut Random) -> (Rule, Vec<u8>) {
    let of_rule = |&rule: &Rule| {
        edges(rule, random)
            .into_iter()
            .map(move |text| (rule, text))
    };
    let mut all: Vec<(Rule, Vec<u8>)> = rules.iter().flat_map(of_rule).collect();
    all.swap_remove(turn % all.len())
}

pub fn texts(list: &[&str]) -> Vec<Vec<u8>> {
    list.iter().map(|text| text.as_bytes().to_vec()).collect()
}

fn letters(length: usize, random: &mut Random) -> Vec<u8> {
    random.bytes(b"aZ9 ", length)
}

pub fn with_byte(text: &[u8], place: usize, byte: u8) -> Vec<u8> {
    let mut text = text.to_vec();
    text[place] = byte;
    text
}

/// The text with each of the bytes in each of its places.
pub fn each_place(text: &[u8], bytes: &[u8]) -> Vec<Vec<u8>> {
    let places = 0..text.len();
    places
        .flat_map(|place| bytes.iter().map(move |&byte| with_byte(text, place, byte)))
        .collect()
}

/// A byte more or less, before and after.
pub fn around(text: &[u8], bytes: &[u8]) -> Vec<Vec<u8>> {
    let mut around = vec![text[1..].to_vec(), text[..text.len() - 1].to_vec()];
    for &byte in bytes {
        around.push([&[byte], text].concat());
        around.push([text, &[byte]].concat());
    }
    around
}

fn plain(most: usize, random: &mut Random) -> Vec<Vec<u8>> {
    let mut edges = texts(&[
        "/",
        "//",
        "///",
        "A/B",
        "A//B",
        "A///B",
        "/A",
        "A/",
        "/A/",
        "A/B/C",
        "A/ /B",
        " /A",
        "A/ ",
        "A//",
        "//A",
        "A/B//C",
        " ",
        "  ",
        " A",
        "A ",
        "A  B",
        "\t",
        "\n",
        "\r\n",
        "A\n",
        "\nA",
        "A\tB",
        "\u{e9}",
        "\u{20ac}5",
        "O&apos;Neil",
        "A&amp;B",
        "&lt;Nm&gt;",
        "]]>",
        "A>B",
        "Nm/>",
        "/Nm>",
        "\u{feff}A",
        "A\u{a0}B",
    ]);
    for length in [0, 1, 2, most - 1, most, most + 1, 2 * most, 255, 256, 3000] {
        edges.push(letters(length, random));
    }
    edges.extend([most, most + 1].map(|length| vec![b' '; length]));
    for place in [0, 1, most / 2, most - 2, most - 1] {
        let text = letters(most, random);
        edges.push(with_byte(&text, place, b'/'));
        edges.push(with_byte(&text, place, 0xFC));
    }
    for byte in (0..0x80).chain([0x80, 0x9F, 0xA0, 0xBF, 0xC3, 0xE9, 0xFE, 0xFF]) {
        if byte != b'<' && !LETTERS.contains(&byte) {
            let length = random.pick(&[1, 3, most]);
            let place = random.below(length);
            edges.push(with_byte(&letters(length, random), place, byte));
        }
    }
    edges.extend(with_two_faults(most, random));
    edges
}

/// Plain texts of a postal address: fewer edges, since a name has most of them too.
fn address_texts(most: usize, random: &mut Random) -> Vec<Vec<u8>> {
    let mut edges = texts(&[
        "/",
        "//",
        "/A",
        "A/",
        "A//B",
        " ",
        "  A ",
        "\t",
        "A\n",
        "\u{e9}",
        "N\u{b0} 3",
        "12_14",
        "12;14",
        "A@B",
        "A#B",
        "A\"B",
        "A*B",
        "O&apos;Neil",
        "A&amp;B",
        "]]>",
        "A>B",
        "/AdrLine>",
        "\u{feff}A",
        "A\u{a0}B",
        "12-14 (bis)",
    ]);
    for length in [0, 1, 2, most - 1, most, most + 1, 2 * most, 255] {
        edges.push(letters(length, random));
    }
    edges.extend([most, most + 1].map(|length| vec![b' '; length]));
    for place in [0, most - 1] {
        let text = letters(most, random);
        edges.push(with_byte(&text, place, b'/'));
        edges.push(with_byte(&text, place, 0xFC));
    }
    edges.extend(with_two_faults(most, random));
    edges
}

/// A byte too many with a strange letter or with slashes, and a strange letter between slashes.
fn with_two_faults(most: usize, random: &mut Random) -> Vec<Vec<u8>> {
    let mut edges = Vec::new();
    for place in [0, most / 2, most] {
        let text = letters(most + 1, random);
        edges.push(with_byte(&text, place, 0xFC));
        edges.push(with_byte(&text, place, b'/'));
    }
    for place in [1, most / 2, most - 2] {
        let text = [b"/", &letters(most - 2, random)[..], b"/"].concat();
        edges.push(with_byte(&text, place, 0xFC));
    }
    edges
}

fn counts(random: &mut Random) -> Vec<Vec<u8>> {
    let mut edges = texts(&[
        "", "0", "00", "1", "01", "+1", "-1", " 1", "1 ", "1.", "1.0", "1,0", "1e0", "0x1", "A",
        "1A", "/", ":", "1/", "1:", "\u{661}", "1\n", "\n1", "\0", "1\0", "'1'", "\u{b2}",
    ]);
    edges.extend([14, 15, 16, 17, 20, 30].map(|length| random.bytes(DIGITS, length)));
    edges.extend([14, 15, 16, 40].map(|length| vec![b'0'; length]));
    edges
}

fn decimals(most: usize, random: &mut Random) -> Vec<Vec<u8>> {
    let mut edges = texts(&[
        "", ".", "0", "0.0", "0.00", "0.000", "00", "0.01", "0.02", "0.1", "0.10", "00.01", "1",
        "1.", ".5", "1.5", "1.50", "1.500", "1.05", "1,50", "1,5", "-1", "+1", "-0.01", " 1", "1 ",
        "1 .5", "1. 5", "1e3", "1.5e1", "1..5", "1.5.", "1.5.5", "12/", "12:", "1./", "1.:",
        "1.0/", "1.0:", "1O", "1.O", "3250.150", "0x10", "\u{661}", "1\n", "1.5\n", "NaN", "1'000",
        "1 000.00", "1.5\0", "EUR1", "1.0A", "A1",
    ]);
    for length in [most - 1, most, most + 1] {
        for decimals in ["", ".", ".0", ".99", ".990"] {
            let whole = random.bytes(b"123456789", length);
            edges.push([whole, decimals.into()].concat());
            let zeros = format!("{:0length$}{decimals}", random.below(2));
            edges.push(zeros.into_bytes());
        }
        edges.push([vec![b'9'; length], b".99".to_vec()].concat());
        edges.push([vec![b'9'; length], b".98".to_vec()].concat());
        edges.push([vec![b'0'; length], b".01".to_vec()].concat());
    }
    edges
}

fn dates(random: &mut Random) -> Vec<Vec<u8>> {
    let mut edges = texts(&[
        "1899-12-31",
        "1900-01-01",
        "2099-12-31",
        "2100-01-01",
        "2026-00-10",
        "2026-13-10",
        "2026-99-10",
        "2026-11-00",
        "2026-11-32",
        "2026-11-99",
        "2026-1-01",
        "2026-11-1",
        "20261110",
        "2026/11/10",
        "2026-11-10 ",
        " 2026-11-10",
        "2026-11-10Z",
        "2026-11-10T00:00:00",
        "26-11-10",
        "+026-11-10",
        "2026--1-10",
        "2026-11-100",
        "10-11-2026",
        "2026 11 10",
        "",
        "2026-11",
        "02026-1-10",
        "0000-00-00",
        "9999-12-31",
        "2026-11-10\n",
        "0026-11-10",
        "12026-11-10",
    ]);
    let centuries = [1896, 1900, 1904, 1996, 2000, 2004, 2096, 2100, 2104];
    for year in centuries
        .into_iter()
        .chain([1999, 2001, 2002, 2003, 2024, 2026])
    {
        for day in [28, 29, 30] {
            edges.push(format!("{year}-02-{day}").into_bytes());
        }
    }
    for month in 1..=12 {
        for day in [30, 31, 32] {
            let year = random.within(1900..=2099);
            edges.push(format!("{year}-{month:02}-{day}").into_bytes());
        }
    }
    edges.extend(each_place(b"2026-11-10", b"/:"));
    edges
}

fn times(random: &mut Random) -> Vec<Vec<u8>> {
    let mut edges = texts(&[
        "2026-11-02T09:30:00Z",
        "2026-11-02T09:30:00.000",
        "2026-11-02T09:30:00+01:00",
        "2026-11-02T09:30",
        "2026-11-02 09:30:00",
        "2026-11-02t09:30:00",
        "2026-11-02",
        "T09:30:00",
        "2026-11-02T9:30:00",
        "2026-11-02T093000",
        "2026-11-02T09-30-00",
        "2026-11-02T09:30:00 ",
        " 2026-11-02T09:30:00",
        "2026-11-02T-1:30:00",
        "2026-11-02T09:3:000",
        "",
        "1899-12-31T23:59:59",
        "1900-01-01T00:00:00",
        "2099-12-31T23:59:59",
        "2100-01-01T00:00:00",
        "1900-02-29T12:00:00",
        "2000-02-29T12:00:00",
        "2026-11-31T12:00:00",
    ]);
    for number in [0, 9, 10, 19, 20, 22, 23, 24, 29, 58, 59, 60, 61, 69, 99] {
        let day = random.within(10..=28);
        edges.push(format!("2026-11-{day}T{number:02}:30:00").into_bytes());
        edges.push(format!("2026-11-{day}T09:{number:02}:00").into_bytes());
        edges.push(format!("2026-11-{day}T09:30:{number:02}").into_bytes());
    }
    edges.extend(each_place(b"2026-11-02T09:30:00", b"/:"));
    edges
}

/// The codes with small changes, and the codes of other elements.
fn codes(words: &[&str]) -> Vec<Vec<u8>> {
    let mut edges = texts(&[
        "",
        "DD",
        "TRF",
        "true",
        "false",
        "1",
        "0",
        "SEPA",
        "URGP",
        "CORE",
        "B2B",
        "COR1",
        "FRST",
        "RCUR",
        "OOFF",
        "FNAL",
        "RPRE",
        "SLEV",
        "SHAR",
        NOT_PROVIDED,
        "NOTPROVIDEX",
        " ",
    ]);
    for word in words {
        let (small, large) = (word.to_lowercase(), word.to_uppercase());
        let mixed = large[..1].to_string() + &small[1..];
        edges.extend(texts(&[word, &small, &large, &mixed]));
        edges.extend(around(word.as_bytes(), b" \nX\0"));
    }
    edges
}
