//! Good texts for each rule, and the right spellings of counts and sums.

use crate::profile::CENTS_LIMIT;
use crate::random::Random;
use crate::rules::{remainder_by_97, Rule, LETTERS};

/// How long good texts are.
#[derive(Clone, Copy, PartialEq)]
pub enum Size {
    Least,
    Any,
    Most,
}

pub const CAPITALS: &[u8] = b"ABCDEFGHIJKLMNOPQRSTUVWXYZ";
const CAPITALS_AND_DIGITS: &[u8] = b"ABCDEFGHIJKLMNOPQRSTUVWXYZ0123456789";
const LETTERS_AND_DIGITS: &[u8] = b"abcdefghijklmnopqrstuvwxyzABCDEFGHIJKLMNOPQRSTUVWXYZ0123456789";
pub const DIGITS: &[u8] = b"0123456789";

pub fn good(rule: Rule, size: Size, random: &mut Random) -> Vec<u8> {
    match rule {
        Rule::Id => good_id(size, random),
        Rule::Name => letters(length(70, size, random), random),
        Rule::Remittance => letters(length(140, size, random), random),
        Rule::Count => spelled_count(1, random).into_bytes(),
        Rule::Sum => spelled_cents(1, 15, random).into_bytes(),
        Rule::Amount => good_amount(size, random),
        Rule::Date => good_date(random),
        Rule::Time => good_time(random),
        Rule::Iban => good_iban(length(30, size, random), random),
        Rule::Bic => good_bic(size, random),
        Rule::CreditorId => good_creditor_id(length(28, size, random), random),
        Rule::AddressText(longest) => letters(length(longest, size, random), random),
        Rule::Country => random.bytes(CAPITALS, 2),
        Rule::OneOf(words) => random.pick(words).as_bytes().to_vec(),
    }
}

/// A number with any leading zeros that its rule's 15 digits leave room for.
pub fn spelled_count(number: u64, random: &mut Random) -> String {
    spelled_digits(number, 15, random)
}

/// Cents with any leading zeros and any of the right decimals.
pub fn spelled_cents(cents: u64, digits: usize, random: &mut Random) -> String {
    let whole = spelled_digits(cents / 100, digits, random);
    let decimals = match cents % 100 {
        0 => random.pick(&["", ".0", ".00"]).to_string(),
        n if n % 10 == 0 && random.once_in(2) => format!(".{}", n / 10),
        n => format!(".{n:02}"),
    };
    whole + &decimals
}

fn spelled_digits(number: u64, digits: usize, random: &mut Random) -> String {
    let width = match random.below(4) {
        0 => random.within(1..=digits),
        1 => random.pick(&[2, digits]),
        _ => 1,
    };
    format!("{number:0width$}")
}

pub fn good_cents(random: &mut Random) -> u64 {
    match random.below(8) {
        0 => random.pick(&[1, 9, 10, 99, 100, 101, CENTS_LIMIT - 1, CENTS_LIMIT]),
        1 => 100 * random.within(1..=999_999_999) as u64,
        2 => 10 * random.within(1..=99_999) as u64,
        3 => random.within(1..=CENTS_LIMIT as usize) as u64,
        _ => random.within(1..=1_000_000) as u64,
    }
}

/// Any real day of 1900 to 2099, often the end of a month.
pub fn good_date(random: &mut Random) -> Vec<u8> {
    loop {
        let year = match random.once_in(4) {
            true => random.pick(&[1900, 1904, 2000, 2024, 2096, 2099]),
            false => random.within(1900..=2099),
        };
        let day = match random.once_in(2) {
            true => random.within(28..=31),
            false => random.within(1..=31),
        };
        let month = random.within(1..=12);
        let text = format!("{year}-{month:02}-{day:02}").into_bytes();
        if Rule::Date.allows(&text) {
            return text;
        }
    }
}

fn length(most: usize, size: Size, random: &mut Random) -> usize {
    match (size, random.below(8)) {
        (Size::Least, _) | (Size::Any, 0) => 1,
        (Size::Most, _) | (Size::Any, 1) => most,
        (Size::Any, 2 | 3) => random.within(1..=most),
        (Size::Any, _) => random.within(1..=most.min(16)),
    }
}

fn letters(length: usize, random: &mut Random) -> Vec<u8> {
    random.bytes(LETTERS, length)
}

fn good_id(size: Size, random: &mut Random) -> Vec<u8> {
    let mut text = letters(length(35, size, random), random);
    let last = text.len() - 1;
    for place in 0..=last {
        let outside = place == 0 || place == last || text[place - 1] == b'/';
        if outside && text[place] == b'/' {
            text[place] = b'-';
        }
    }
    text
}

fn good_amount(size: Size, random: &mut Random) -> Vec<u8> {
    match size {
        Size::Least => random.bytes(b"123456789", 1),
        Size::Any => spelled_cents(good_cents(random), 9, random).into_bytes(),
        Size::Most => random.pick(&["999999999.99", "000000000.01"]).into(),
    }
}

fn good_time(random: &mut Random) -> Vec<u8> {
    let date = good_date(random);
    let (hour, minute) = (random.below(24), random.below(60));
    let time = format!("T{hour:02}:{minute:02}:{:02}", random.below(60));
    [date, time.into_bytes()].concat()
}

pub fn good_iban(length: usize, random: &mut Random) -> Vec<u8> {
    let set = random.pick(&[DIGITS, CAPITALS_AND_DIGITS, LETTERS_AND_DIGITS]);
    let country = random.bytes(CAPITALS, 2);
    let account = random.bytes(set, length);
    let digits = check_digits(&country, &account, random);
    [country, digits, account].concat()
}

/// Check digits that leave 1 between a country and the rest that counts; where two pairs do, 00
/// and 97, 01 and 98 or 02 and 99, one of them.
fn check_digits(country: &[u8], rest: &[u8], random: &mut Random) -> Vec<u8> {
    let mut digits = 98 - remainder_by_97(&[country, b"00", rest].concat()) as usize;
    match digits {
        2 if random.once_in(2) => digits += 97,
        97 | 98 if random.once_in(2) => digits -= 97,
        _ => {}
    }
    format!("{digits:02}").into_bytes()
}

fn good_bic(size: Size, random: &mut Random) -> Vec<u8> {
    let mut text = random.bytes(CAPITALS_AND_DIGITS, 4);
    text.extend(random.bytes(CAPITALS, 2));
    text.extend(random.bytes(CAPITALS_AND_DIGITS, 2));
    if size == Size::Most || (size == Size::Any && random.once_in(2)) {
        text.extend(random.bytes(CAPITALS_AND_DIGITS, 3));
    }
    text
}

pub fn good_creditor_id(length: usize, random: &mut Random) -> Vec<u8> {
    let country = random.bytes(CAPITALS, 2);
    let business_code = random.bytes(CAPITALS_AND_DIGITS, 3);
    let national_part = random.bytes(CAPITALS_AND_DIGITS, length);
    let digits = check_digits(&country, &national_part, random);
    [country, digits, business_code, national_part].concat()
}
