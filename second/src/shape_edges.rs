//! Edges of the texts that have a shape, and of check digits: IBANs, BICs, creditor identifiers and
//! countries.

use crate::edges::{around, each_place, texts, with_byte};
use crate::profile::NOT_PROVIDED;
use crate::random::Random;
use crate::samples::{good_creditor_id, good_iban, CAPITALS};

pub fn ibans(random: &mut Random) -> Vec<Vec<u8>> {
    let mut edges = texts(&[
        "GB29NWBK60161331926819",
        "BE30001216371411",
        "FR7610041010050500013M02606",
        "gb29NWBK60161331926819",
        "Gb29NWBK60161331926819",
        "gB29NWBK60161331926819",
        "GB29nwbk60161331926819",
        "GB28nwbk60161331926819",
        "gb28nwbk60161331926819",
        "GB29NWBKa0161331926819",
        "BE540",
        "BE54",
        "BE5",
        "BE",
        "",
        "GB29 NWBK 6016 1331 9268 19",
        "GB2ONWBK60161331926819",
        "1229NWBK60161331926819",
        "IBAN GB29NWBK60161331926819",
        "BE30-0012-1637-1411",
        "BE30001216371411 ",
    ]);
    for length in [1, 2, 12, 29, 30, 30, 31, 32, 60] {
        edges.push(good_iban(length, random));
    }
    for add in [1, 10, 95, 96, 97, 99] {
        let text = good_iban(18, random);
        edges.push(other_check_digits(&text, add));
    }
    edges.extend(all_check_digits(b"BE00001216371411"));
    edges.extend(each_place(b"GB29N", b"/:@[`{"));
    edges.extend(around(b"BE30001216371411", b"0A "));
    let mut text = good_iban(20, random);
    text.swap(2, 3);
    edges.push(text);
    edges
}

pub fn bics(random: &mut Random) -> Vec<Vec<u8>> {
    let mut edges = texts(&[
        NOT_PROVIDED,
        NOT_PROVIDED,
        "NOTPROVIDEX",
        "NOTPROVI",
        "notprovided",
        "NOTPROVIDED ",
        "BANKGB2L",
        "BANKGB2LXXX",
        "bankgb2l",
        "1234GB56",
        "12345678",
        "1234GB56789",
        "",
        "BANK GB2L",
        "BANKGB2L ",
        " BANKGB2L",
    ]);
    edges.extend((6..=13).map(|length| random.bytes(CAPITALS, length)));
    edges.extend(each_place(b"BANKGB2LXXX", b"0a@"));
    edges.extend(
        each_place(b"ZA90AZ", b"/:[`")
            .into_iter()
            .map(|text| [&text[..], b"09"].concat()),
    );
    edges
}

/// Creditor identifiers that leave 1 only where their rule is misread: with the business code,
/// with the first four characters in front, with both.
pub const MISREAD: [&str; 3] = ["FR20ZZZ123456", "FR58ZZZ123456", "FR18ZZZ123456"];

/// Creditor identifiers that leave 1 with either of two pairs of check digits.
pub const WITH_TWO_PAIRS: [&str; 6] = [
    "BE00ZZZ2",
    "BE97ZZZ2",
    "BE01ZZZ81",
    "BE98ZZZ81",
    "BE02ZZZ63",
    "BE99ZZZ63",
];

pub fn creditor_ids(random: &mut Random) -> Vec<Vec<u8>> {
    let mut edges = texts(&[
        "DE98ZZZ09999999999",
        "BE120010456810810",
        "BE69000050D000000008",
        "FR72ZZZ123456",
        "FR72000123456",
        "FR72A9Z123456",
        "FR71ZZZ123456",
        "FR73ZZZ123456",
        "FR00ZZZ123456",
        "FR00zzz123456",
        "BE73ZZZ123456789012",
        "BE11ZZZ73123456789012",
        "BE11ZZZ123456789",
        "BE78000050D000000008",
        "BE54ZZZ",
        "BE27ZZZ1",
        "",
        "BE27ZZ",
        "BE27 ZZZ1",
        "BE27ZZZ-1",
        "BE27ZZZ 1",
        "BE27ZZZ1 ",
        "be27zzz1",
    ]);
    edges.extend(texts(&MISREAD));
    edges.extend(texts(&WITH_TWO_PAIRS));
    for length in [0, 1, 2, 27, 28, 29, 60] {
        edges.push(good_creditor_id(length, random));
    }
    for (length, add) in [(1, 1), (28, 99), (29, 1), (11, 10), (11, 96), (11, 97)] {
        let text = good_creditor_id(length, random);
        edges.push(other_check_digits(&text, add));
    }
    edges.extend(each_place(b"BE91ZZZ1A", b"0a@"));
    edges.extend(mistyped(&good_creditor_id(6, random)));
    edges
}

pub fn countries() -> Vec<Vec<u8>> {
    let mut edges = texts(&[
        "AA", "AZ", "ZZ", "BE", "CH", "FR", "GB", "UK", "XX", "", " ", "  ", "F", "FRA", "CHE",
        "FRFR", "756", "fr", "Fr", "fR", "F1", "1F", "12", "F ", " F", " FR", "FR ", "FR\n",
        "\nFR", "F-R", "F/", "FR-", "F\0", "\u{c9}", "F&",
    ]);
    edges.extend(each_place(b"AZ", b"@[`{/:"));
    edges
}

/// The text with the next digit or capital in each place, 0 after 9 and A after Z, and with each
/// two neighbours exchanged.
fn mistyped(text: &[u8]) -> Vec<Vec<u8>> {
    let next = |byte| match byte {
        b'9' => b'0',
        b'Z' => b'A',
        other => other + 1,
    };
    let places = 0..text.len();
    let changed = places.map(|place| with_byte(text, place, next(text[place])));
    let exchanged = (1..text.len()).map(|place| {
        let mut text = text.to_vec();
        text.swap(place - 1, place);
        text
    });
    changed.chain(exchanged).collect()
}

fn other_check_digits(text: &[u8], add: u32) -> Vec<u8> {
    let digits = 10 * u32::from(text[2] - b'0') + u32::from(text[3] - b'0');
    let other = format!("{:02}", (digits + add) % 100);
    [&text[..2], other.as_bytes(), &text[4..]].concat()
}

/// Check digits that leave every kind of remainder, each tenth and those around the right one.
fn all_check_digits(text: &[u8]) -> Vec<Vec<u8>> {
    let chosen = [
        0, 1, 2, 3, 10, 20, 28, 29, 31, 32, 40, 50, 60, 70, 80, 90, 97, 98, 99,
    ];
    let digits = chosen.iter();
    digits.map(|&add| other_check_digits(text, add)).collect()
}
