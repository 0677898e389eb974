//! Tests of the text rules: which texts they allow, and the values of counts, sums and amounts.

use crate::random::Random;
use crate::rules::{
    amount, count, moved_digits, remainder_by_97, sum, without_business_code, Fault, Rule, LETTERS,
};
use crate::selftest::Bench;
use crate::shape_edges::{MISREAD, WITH_TWO_PAIRS};

pub fn run(bench: &mut Bench) {
    stars(bench);
    letter_set(bench);
    plain_texts(bench);
    numbers(bench);
    dates(bench);
    every_day(bench);
    codes(bench);
    identifications(bench);
    countries(bench);
    creditor_ids(bench);
    misread(bench);
    known_remainders(bench);
    remainders(bench);
}

fn judge(bench: &mut Bench, rule: Rule, good: &[&str], bad: &[&str]) {
    for text in good {
        let name = format!("{rule:?} allows {text:?}");
        bench.holds(&name, rule.allows(text.as_bytes()));
    }
    for text in bad {
        let name = format!("{rule:?} refuses {text:?}");
        bench.holds(&name, !rule.allows(text.as_bytes()));
    }
}

fn stars(bench: &mut Bench) {
    let good_ibans = ["GB29NWBK60161331926819", "BE30001216371411"];
    judge(
        bench,
        Rule::Iban,
        &good_ibans,
        &["FR7610041010050500013M02606"],
    );
    let french = remainder_by_97(b"FR7610041010050500013M02606");
    bench.same("★5 leaves 6", french, 6);
    let bad_amounts = ["1000000000", "0.00", "1.", ".5"];
    judge(bench, Rule::Amount, &["999999999.99"], &bad_amounts);
    judge(bench, Rule::Sum, &["0"], &["3250.150"]);
    judge(bench, Rule::Date, &["2000-02-29"], &["1900-02-29"]);
    judge(bench, Rule::Id, &["A/B"], &["A//B", "/A"]);
    judge(bench, Rule::Bic, &["BANKGB2L"], &["NOTPROVIDED"]);
}

fn letter_set(bench: &mut Bench) {
    bench.same("letters", LETTERS.len(), 26 + 26 + 10 + 11);
    let wrong = (0..=255).find(|&byte: &u8| {
        let due = byte.is_ascii_alphanumeric() || b"/-?:().,'+ ".contains(&byte);
        Rule::Name.allows(&[byte]) != due || Rule::Remittance.allows(&[b'A', byte]) != due
    });
    bench.same("each byte in a name", wrong, None);
    let wrong = (0..=255).find(|&byte: &u8| {
        let due = byte != b'/' && Rule::Name.allows(&[byte]);
        Rule::Id.allows(&[byte]) != due
    });
    bench.same("each byte as an id", wrong, None);
}

fn plain_texts(bench: &mut Bench) {
    let of_addresses = [70, 16, 35].map(|longest| (Rule::AddressText(longest), longest));
    let others = [(Rule::Id, 35), (Rule::Name, 70), (Rule::Remittance, 140)];
    for (rule, longest) in others.into_iter().chain(of_addresses) {
        let texts = [1, longest].map(|length| "a".repeat(length));
        let long = "a".repeat(longest + 1);
        let blanks = " ".repeat(longest);
        let good = [&texts[0], &texts[1], &blanks, " ", "A ", " A", "A/B/C", "-"];
        judge(bench, rule, &good, &["", &long, "A\nB", "A\tB", "\u{e9}"]);
    }
    let slashes = ["/", "//", "/A", "A/", "A//B", "A/B//C/D", "A///B"];
    judge(bench, Rule::Id, &["A/ /B", " /A", "A/ "], &slashes);
    judge(bench, Rule::Name, &slashes, &[]);
    judge(bench, Rule::Remittance, &slashes, &[]);
    judge(bench, Rule::AddressText(16), &slashes, &[]);
}

fn numbers(bench: &mut Bench) {
    let strange = [
        "", ".", " 1", "1 ", "+1", "-1", "1,0", "1e3", "1A", "1/", "1:", "\u{661}",
    ];
    let good = ["0", "000", "7", "999999999999999", "000000000000002"];
    judge(bench, Rule::Count, &good, &strange);
    judge(bench, Rule::Count, &[], &["1000000000000000", "1.0", "1."]);
    let good = ["0.0", "5.5", "999999999999999.99", "000000000000001.1"];
    judge(bench, Rule::Sum, &good, &strange);
    let bad = ["1000000000000000", "1.", ".5", "1.000", "1.2.3", "1..2"];
    judge(bench, Rule::Sum, &[], &bad);
    let good = ["0.01", "000000000.01", "000000001", "1", "1.5", "999999999"];
    judge(bench, Rule::Amount, &good, &strange);
    let bad = ["0", "0.0", "0000000001", "0000000000.01", "1.000", "1.5."];
    judge(bench, Rule::Amount, &[], &bad);
    bench.same("leading zeros", count(b"000000000000002"), Some(2));
    let spellings = ["3280", "3280.0", "3280.00", "000003280.0"];
    let values = spellings.map(|text| sum(text.as_bytes()));
    bench.same("spellings of a sum", values, [Some(328_000); 4]);
    bench.same(
        "the greatest sum",
        sum(b"999999999999999.99"),
        Some(99_999_999_999_999_999),
    );
    bench.same("5.5", sum(b"5.5"), Some(550));
    bench.same("amount of 0.07", amount(b"0.07"), Some(7));
    bench.same("amount of 0.7", amount(b"0.7"), Some(70));
}

fn dates(bench: &mut Bench) {
    let good = ["1900-01-01", "2099-12-31", "2024-02-29", "2026-11-30"];
    let bad = [
        "1899-12-31",
        "2100-01-01",
        "2023-02-29",
        "2026-11-31",
        "2026-00-10",
        "2026-13-10",
        "2026-11-00",
        "2026-2-1",
        "2026-11-1O",
        "2026/11/10",
        "2026-11-10 ",
        "20261110",
        "",
        "2026-11-10T00:00:00",
        "+026-11-10",
        "2026-1:-10",
    ];
    judge(bench, Rule::Date, &good, &bad);
    let good = [
        "2026-11-02T09:30:00",
        "1900-01-01T00:00:00",
        "2099-12-31T23:59:59",
    ];
    let bad = [
        "2026-11-02T24:00:00",
        "2026-11-02T23:60:00",
        "2026-11-02T23:59:60",
        "2026-11-02T09:30:00Z",
        "2026-11-02T09:30",
        "2026-11-02 09:30:00",
        "2026-02-29T09:30:00",
        "2026-11-02",
        "2026-11-02T09:30:00.0",
        "2026-11-02t09:30:00",
        "",
    ];
    judge(bench, Rule::Time, &good, &bad);
}

/// Every year, month and day against the lengths of the months.
fn every_day(bench: &mut Bench) {
    let months = [31, 28, 31, 30, 31, 30, 31, 31, 30, 31, 30, 31];
    let mut days = 0;
    let mut wrong = Vec::new();
    for year in 1890..=2110 {
        let leap = year % 4 == 0 && (year % 100 != 0 || year % 400 == 0);
        for (month, day) in (0..=99).flat_map(|month| (0..=99).map(move |day| (month, day))) {
            let length = match month {
                2 if leap => 29,
                1..=12 => months[month - 1],
                _ => 0,
            };
            let due = (1900..=2099).contains(&year) && (1..=length).contains(&day);
            days += usize::from(due);
            let text = format!("{year}-{month:02}-{day:02}");
            if Rule::Date.allows(text.as_bytes()) != due {
                wrong.push(text);
            }
        }
    }
    bench.same("every day", wrong, Vec::<String>::new());
    bench.same("days of 1900 to 2099", days, 73_049);
}

fn codes(bench: &mut Bench) {
    let scheme = Rule::OneOf(crate::profile::SCHEMES);
    judge(
        bench,
        scheme,
        &["CORE", "B2B"],
        &["", "core", "COR1", "CORE ", "B2"],
    );
    let sequence = Rule::OneOf(crate::profile::SEQUENCES);
    let good = ["FRST", "RCUR", "OOFF", "FNAL"];
    judge(bench, sequence, &good, &["", "RPRE", "frst", "FRSTX"]);
}

fn identifications(bench: &mut Bench) {
    let longest = remainder_one("GB", &"Z9".repeat(15));
    let too_long = remainder_one("GB", &"Z9".repeat(16));
    let good = [
        "BE540",
        "GB29nwbk60161331926819",
        "BE68539007547034",
        &longest,
    ];
    let bad = [
        "",
        "BE",
        "BE54",
        "gb29NWBK60161331926819",
        "Gb29NWBK60161331926819",
        "GB29NWBK60161331926818",
        "GB30NWBK60161331926819",
        "GB29 NWBK60161331926819",
        "GB2ANWBK60161331926819",
        &too_long,
    ];
    judge(bench, Rule::Iban, &good, &bad);
    let good = [
        "BANKGB2LXXX",
        "1234GB56",
        "NOTPROVI",
        "NOTPROVIDEX",
        "BBRUBEBB",
    ];
    let bad = [
        "",
        "BANKGB2",
        "BANKGB2LX",
        "BANKGB2LXX",
        "BANKGB2LXXXX",
        "bankGB2L",
        "BANK1B2L",
        "BANKG12L",
        "BANKGB2l",
        "BANKGB2LXX-",
    ];
    judge(bench, Rule::Bic, &good, &bad);
}

/// Every text of two bytes, and some of other lengths.
fn countries(bench: &mut Bench) {
    let good = ["AA", "AZ", "ZA", "ZZ", "CH", "GB"];
    let bad = ["", "C", "CHE", "CHCH", " CH", "CH ", "\u{c9}", "C\u{c9}"];
    judge(bench, Rule::Country, &good, &bad);
    let pairs = (0..=255).flat_map(|a: u8| (0..=255).map(move |b: u8| [a, b]));
    let allowed: Vec<[u8; 2]> = pairs.filter(|pair| Rule::Country.allows(pair)).collect();
    let capitals = allowed
        .iter()
        .flatten()
        .all(|byte| (65..=90).contains(byte));
    bench.same("countries", (allowed.len(), capitals), (26 * 26, true));
}

fn creditor_ids(bench: &mut Bench) {
    let longest = "BE92ZZZ".to_string() + &"9".repeat(28);
    let too_long = "BE94ZZZ".to_string() + &"9".repeat(29);
    let good = ["BE27ZZZ1", "BE27A9Z1", "BE270001", &longest];
    judge(bench, Rule::CreditorId, &good, &[]);
    judge(bench, Rule::CreditorId, &WITH_TWO_PAIRS, &[]);
    let no_shape = [
        "",
        "BE54ZZZ",
        "be27ZZZ1",
        "BE27zzz1",
        "BE27ZZZa",
        "BE2AZZZ1",
        "B127ZZZ1",
        "BE27ZZZ 1",
        "be28ZZZ1",
        &too_long,
    ];
    let wrong = [
        (&no_shape[..], Fault::Shape),
        (&MISREAD, Fault::CheckDigits),
    ];
    for (texts, fault) in wrong {
        for text in texts {
            let found = Rule::CreditorId.fault(text.as_bytes());
            bench.same(&format!("creditor identifier {text:?}"), found, Some(fault));
        }
    }
}

/// What the misread creditor identifiers leave, each misread in its own way.
fn misread(bench: &mut Bench) {
    let [with_code, in_front, both] = MISREAD.map(str::as_bytes);
    let left = [
        remainder_by_97(with_code),
        remainder_by_97(&last_four_first(&without_business_code(in_front))),
        remainder_by_97(&last_four_first(both)),
    ];
    bench.same("misread creditor identifiers", left, [1; 3]);
}

/// The text that is this one when its first four characters have been moved to the end.
fn last_four_first(text: &[u8]) -> Vec<u8> {
    let (rest, last) = text.split_at(text.len() - 4);
    [last, rest].concat()
}

/// An IBAN with the check digits that make it leave 1.
fn remainder_one(country: &str, account: &str) -> String {
    let digits = (2..=98).map(|digits| format!("{country}{digits:02}{account}"));
    let mut right = digits.filter(|text| remainder_by_97(text.as_bytes()) == 1);
    right.next().unwrap()
}

/// Creditor identifiers with what they leave, most of them printed in the sources.
const CREDITOR_IDS: [(&str, u32); 9] = [
    ("DE98ZZZ09999999999", 1),
    ("BE120010456810810", 1),
    ("BE69000050D000000008", 1),
    ("FR72ZZZ123456", 1),
    ("FR00ZZZ123456", 26),
    ("BE73ZZZ123456789012", 21),
    ("BE11ZZZ73123456789012", 54),
    ("BE11ZZZ123456789", 41),
    ("BE78000050D000000008", 10),
];

fn known_remainders(bench: &mut Bench) {
    for (text, left) in CREDITOR_IDS {
        let found = remainder_by_97(&without_business_code(text.as_bytes()));
        bench.same(&format!("{text} leaves {left}"), found, left);
        let fault = Rule::CreditorId.fault(text.as_bytes());
        bench.same(text, fault, Fault::CheckDigits.unless(left == 1));
    }
    let with_code = ["DE98ZZZ09999999999", "FR00ZZZ123456"];
    let left = with_code.map(|text| remainder_by_97(text.as_bytes()));
    bench.same("with the business code", left, [25, 78]);
}

/// The remainder once more, digit after digit.
fn remainders(bench: &mut Bench) {
    let mut random = Random::new(97, 0);
    let wrong = (0..5000).find(|_| {
        let length = random.within(5..=34);
        let text = random.bytes(b"ABCXYZabcxyz0123456789", length);
        let digits = moved_digits(&text);
        let left = digits
            .bytes()
            .fold(0, |left, d| (10 * left + u32::from(d - b'0')) % 97);
        left != remainder_by_97(&text)
    });
    bench.same("remainders", wrong, None);
}
