//! The rules of document 01's section "Texts", what is wrong with a text that breaks its rule, and
//! the values of counts, sums and amounts.

use crate::profile::{paths, CENTS_LIMIT, NOT_PROVIDED, SCHEMES, SEQUENCES};

#[derive(Clone, Copy, Debug, PartialEq, Eq)]
pub enum Rule {
    Id,
    Name,
    Remittance,
    Count,
    Sum,
    Amount,
    Date,
    Time,
    Iban,
    Bic,
    CreditorId,
    /// A plain text of a postal address, of at most so many bytes.
    AddressText(usize),
    Country,
    OneOf(&'static [&'static str]),
}

/// What is wrong with a text, or with a number of a day list; each has the number of its refusal.
#[derive(Clone, Copy, Debug, PartialEq, Eq)]
pub enum Fault {
    Length = 51,
    Letter = 52,
    Slash = 53,
    Number = 54,
    Date = 55,
    Code = 56,
    Shape = 57,
    CheckDigits = 58,
}

impl Fault {
    /// This fault, unless a test was passed.
    pub fn unless(self, passed: bool) -> Option<Fault> {
        (!passed).then_some(self)
    }

    pub fn number(self) -> u32 {
        self as u32
    }
}

/// The letter set.
pub const LETTERS: &[u8] =
    b"abcdefghijklmnopqrstuvwxyzABCDEFGHIJKLMNOPQRSTUVWXYZ0123456789/-?:().,'+ ";

/// The rule of the text at the end of a path of element names, if the profile has such a text.
pub fn rule_of(path: &[&str]) -> Option<Rule> {
    let rule = match path {
        [.., "MsgId" | "PmtInfId" | "InstrId" | "EndToEndId" | "MndtId"] => Rule::Id,
        [.., "Nm"] => Rule::Name,
        [.., "Ustrd"] => Rule::Remittance,
        [.., "NbOfTxs"] => Rule::Count,
        [.., "CtrlSum"] => Rule::Sum,
        [.., "InstdAmt"] => Rule::Amount,
        [.., "ReqdColltnDt" | "DtOfSgntr"] => Rule::Date,
        [.., "CreDtTm"] => Rule::Time,
        [.., "IBAN"] => Rule::Iban,
        [.., "BICFI"] => Rule::Bic,
        [.., "PrvtId", "Othr", "Id"] => Rule::CreditorId,
        [.., "StrtNm" | "AdrLine"] => Rule::AddressText(70),
        [.., "BldgNb" | "PstCd"] => Rule::AddressText(16),
        [.., "TwnNm"] => Rule::AddressText(35),
        [.., "Ctry"] => Rule::Country,
        [.., "FinInstnId", "Othr", "Id"] => Rule::OneOf(&[NOT_PROVIDED]),
        [.., "PmtMtd"] => Rule::OneOf(&["DD"]),
        [.., "BtchBookg"] => Rule::OneOf(&["true", "false"]),
        [.., "SvcLvl", "Cd"] => Rule::OneOf(&["SEPA"]),
        [.., "LclInstrm", "Cd"] => Rule::OneOf(SCHEMES),
        [.., "SeqTp"] => Rule::OneOf(SEQUENCES),
        [.., "ChrgBr"] => Rule::OneOf(&["SLEV"]),
        [.., "Prtry"] => Rule::OneOf(&["SEPA"]),
        _ => return None,
    };
    Some(rule)
}

/// The rules of all texts of the profile, each once.
pub fn rules_of_the_profile() -> Vec<Rule> {
    let mut rules = Vec::new();
    for path in paths() {
        let names: Vec<&str> = path.iter().map(String::as_str).collect();
        rules.extend(rule_of(&names).filter(|rule| !rules.contains(rule)));
    }
    rules
}

impl Rule {
    /// Whether the texts of this rule stand in postal addresses.
    pub fn is_of_addresses(self) -> bool {
        matches!(self, Rule::AddressText(_) | Rule::Country)
    }

    pub fn allows(self, text: &[u8]) -> bool {
        self.fault(text).is_none()
    }

    /// The fault of the first test that a text fails, if it fails any: a plain text is tested for
    /// its length, its letters and, where it identifies something, its slashes, an IBAN or a
    /// creditor identifier for its shape and its check digits, every other text once.
    pub fn fault(self, text: &[u8]) -> Option<Fault> {
        match self {
            Rule::Id => plain(text, 35).or_else(|| Fault::Slash.unless(slashes(text))),
            Rule::Name => plain(text, 70),
            Rule::Remittance => plain(text, 140),
            Rule::Count => Fault::Number.unless(count(text).is_some()),
            Rule::Sum => Fault::Number.unless(sum(text).is_some()),
            Rule::Amount => Fault::Number.unless(amount(text).is_some()),
            Rule::Date => Fault::Date.unless(date(text)),
            Rule::Time => Fault::Date.unless(time(text)),
            Rule::Iban => iban(text),
            Rule::Bic => Fault::Shape.unless(bic(text)),
            Rule::CreditorId => creditor_id(text),
            Rule::AddressText(longest) => plain(text, longest),
            Rule::Country => Fault::Shape.unless(fits(text, "AA")),
            Rule::OneOf(words) => Fault::Code.unless(words.iter().any(|w| w.as_bytes() == text)),
        }
    }
}

/// The value of a right count.
pub fn count(text: &[u8]) -> Option<u64> {
    digits(text, 15)?.parse().ok()
}

/// The cents of a right control sum.
pub fn sum(text: &[u8]) -> Option<u64> {
    decimal(text, 15)
}

/// The cents of a right amount.
pub fn amount(text: &[u8]) -> Option<u64> {
    decimal(text, 9).filter(|cents| (1..=CENTS_LIMIT).contains(cents))
}

/// The number left on division by 97 when the first four characters have been moved to the end
/// and letters are read as 10 to 35: each digit of the number, weighed by the remainder of its
/// power of ten.
pub fn remainder_by_97(text: &[u8]) -> u32 {
    let mut weight = 1;
    let mut total = 0;
    for digit in moved_digits(text).bytes().rev() {
        total += u32::from(digit - b'0') * weight;
        weight = weight * 10 % 97;
    }
    total % 97
}

/// The decimal digits of that number.
pub fn moved_digits(text: &[u8]) -> String {
    let (head, tail) = text.split_at(4);
    let values = tail.iter().chain(head);
    values
        .filter_map(|&byte| char::from(byte).to_digit(36))
        .map(|value| value.to_string())
        .collect()
}

fn plain(text: &[u8], longest: usize) -> Option<Fault> {
    let letters = || text.iter().all(|byte| LETTERS.contains(byte));
    Fault::Length
        .unless((1..=longest).contains(&text.len()))
        .or_else(|| Fault::Letter.unless(letters()))
}

fn slashes(text: &[u8]) -> bool {
    !(text.starts_with(b"/") || text.ends_with(b"/") || text.windows(2).any(|two| two == b"//"))
}

/// The text, if it is 1 to `most` digits.
fn digits(text: &[u8], most: usize) -> Option<&str> {
    let right = (1..=most).contains(&text.len()) && text.iter().all(u8::is_ascii_digit);
    std::str::from_utf8(text).ok().filter(|_| right)
}

/// The hundredths of 1 to `most` digits, then optionally a point and 1 or 2 digits.
fn decimal(text: &[u8], most: usize) -> Option<u64> {
    let point = text.iter().position(|&byte| byte == b'.');
    let (whole, decimals) = match point {
        None => (text, &b"0"[..]),
        Some(point) => (&text[..point], &text[point + 1..]),
    };
    let (whole, decimals) = (digits(whole, most)?, digits(decimals, 2)?);
    format!("{whole}{decimals:0<2}").parse().ok()
}

/// Whether each byte is of the kind that the shape names: A capital, 9 digit, X capital or digit,
/// L letter or digit; any other sign stands for itself.
fn fits(text: &[u8], shape: &str) -> bool {
    text.len() == shape.len() && text.iter().zip(shape.bytes()).all(|(&b, s)| of_kind(b, s))
}

fn of_kind(byte: u8, kind: u8) -> bool {
    match kind {
        b'A' => byte.is_ascii_uppercase(),
        b'9' => byte.is_ascii_digit(),
        b'X' => byte.is_ascii_uppercase() || byte.is_ascii_digit(),
        b'L' => byte.is_ascii_alphanumeric(),
        sign => byte == sign,
    }
}

/// Whether a text has the shape and then 1 to `most` bytes of a kind.
fn fits_and_more(text: &[u8], shape: &str, kind: u8, most: usize) -> bool {
    let (head, tail) = text.split_at(shape.len().min(text.len()));
    let right_tail = tail.iter().all(|&byte| of_kind(byte, kind));
    fits(head, shape) && (1..=most).contains(&tail.len()) && right_tail
}

fn date(text: &[u8]) -> bool {
    if !fits(text, "9999-99-99") {
        return false;
    }
    let day = (value(&text[..4]), value(&text[5..7]), value(&text[8..]));
    (1900..=2099).contains(&day.0) && day_of(day_number(day)) == day
}

fn time(text: &[u8]) -> bool {
    fits(text, "9999-99-99T99:99:99")
        && date(&text[..10])
        && value(&text[11..13]) <= 23
        && value(&text[14..16]) <= 59
        && value(&text[17..]) <= 59
}

fn value(digits: &[u8]) -> i64 {
    digits
        .iter()
        .fold(0, |value, digit| 10 * value + i64::from(digit - b'0'))
}

/// The number of a day of year, month and day, counted from the day before 0000-03-01: years of
/// 365 days, their leap days, and months from March. What is no day gets some number too.
fn day_number((year, month, day): (i64, i64, i64)) -> i64 {
    let year = if month <= 2 { year - 1 } else { year };
    let month = (month + 9) % 12;
    365 * year + year / 4 - year / 100 + year / 400 + (153 * month + 2) / 5 + day
}

/// The real day that has this number, so that only real days come back from their numbers.
fn day_of(number: i64) -> (i64, i64, i64) {
    let mut year = number * 400 / 146_097 + 1;
    while day_number((year, 3, 1)) > number {
        year -= 1;
    }
    let day_of_year = number - day_number((year, 3, 1));
    let month = (5 * day_of_year + 2) / 153;
    let day = day_of_year - (153 * month + 2) / 5 + 1;
    match month {
        0..=9 => (year, month + 3, day),
        _ => (year + 1, month - 9, day),
    }
}

fn iban(text: &[u8]) -> Option<Fault> {
    Fault::Shape
        .unless(fits_and_more(text, "AA99", b'L', 30))
        .or_else(|| Fault::CheckDigits.unless(remainder_by_97(text) == 1))
}

fn bic(text: &[u8]) -> bool {
    (fits(text, "XXXXAAXX") || fits(text, "XXXXAAXXXXX")) && text != NOT_PROVIDED.as_bytes()
}

fn creditor_id(text: &[u8]) -> Option<Fault> {
    let left = || remainder_by_97(&without_business_code(text));
    Fault::Shape
        .unless(fits_and_more(text, "AA99XXX", b'X', 28))
        .or_else(|| Fault::CheckDigits.unless(left() == 1))
}

/// A creditor identifier without its characters 5 to 7, which its check digits leave out.
pub fn without_business_code(text: &[u8]) -> Vec<u8> {
    [&text[..4], &text[7..]].concat()
}
