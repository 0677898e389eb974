//! The day list: lines, frames and values, with the refusals 23 to 25 and 51 to 58.

use crate::answer::{refuse, refuse_value, Refusal};
use crate::profile::{CENTS_LIMIT, COLLECTION_LIMIT, SCHEMES, SEQUENCES};
use crate::rules::{Fault, Rule};

/// The texts of a creditor frame, with their rules. `true`: length 0 is allowed.
pub const CREDITOR_RULES: [(Rule, bool); 7] = [
    (Rule::Id, false),
    (Rule::Time, false),
    (Rule::Name, false),
    (Rule::Name, false),
    (Rule::Iban, false),
    (Rule::Bic, true),
    (Rule::CreditorId, false),
];

/// The texts of a collection frame, likewise.
pub const COLLECTION_RULES: [(Rule, bool); 8] = [
    (Rule::Date, false),
    (Rule::Id, false),
    (Rule::Id, false),
    (Rule::Date, false),
    (Rule::Bic, true),
    (Rule::Name, false),
    (Rule::Iban, false),
    (Rule::Remittance, true),
];

/// The creditor frame: message id, creation time, initiating name, creditor name, IBAN, BIC,
/// creditor identifier.
#[derive(Clone)]
pub struct Creditor {
    pub texts: [Vec<u8>; 7],
}

/// A collection frame: its texts are collection date, end-to-end id, mandate id, signature date,
/// BIC, debtor name, IBAN, remittance.
#[derive(Clone, Debug, PartialEq, Eq, PartialOrd, Ord)]
pub struct Collection {
    pub scheme: u8,
    pub sequence: u8,
    pub cents: u64,
    pub texts: [Vec<u8>; 8],
}

pub struct DayList {
    pub creditor: Creditor,
    pub collections: Vec<Collection>,
}

impl DayList {
    /// Reads a list through the stages of 23 to 25 and of 51 to 58.
    pub fn read(list: &[u8]) -> Result<DayList, Refusal> {
        let mut creditor = None;
        let mut collections = Vec::new();
        for (line, number) in list.split_inclusive(|&byte| byte == b'\n').zip(1..) {
            let mut frame = match frame(line) {
                Some(bytes) => Frame { bytes },
                None => return refuse(23, number),
            };
            let right = match number {
                1 => frame.creditor().map(|found| creditor = Some(found)),
                _ => frame.collection().map(|found| collections.push(found)),
            };
            if right.is_none() || !frame.bytes.is_empty() {
                return refuse(23, number);
            }
        }
        match creditor {
            None => refuse(24, 0),
            Some(_) if collections.is_empty() => refuse(24, 1),
            Some(_) if collections.len() > COLLECTION_LIMIT => refuse(25, COLLECTION_LIMIT + 2),
            Some(creditor) => judge(creditor, collections),
        }
    }
}

/// The stage of 51 to 58: the first line with a fault, and the first of its fields that has one.
fn judge(creditor: Creditor, collections: Vec<Collection>) -> Result<DayList, Refusal> {
    let of_creditor = [creditor.faults()].into_iter();
    let of_lines = of_creditor.chain(collections.iter().map(Collection::faults));
    for (faults, line) in of_lines.zip(1..) {
        for (fault, field) in faults.into_iter().zip(1..) {
            if let Some(fault) = fault {
                return refuse_value(fault.number(), line, field);
            }
        }
    }
    Ok(DayList {
        creditor,
        collections,
    })
}

impl Creditor {
    /// The fault of each field, if it has one.
    fn faults(&self) -> Vec<Option<Fault>> {
        faults_of_texts(&self.texts, &CREDITOR_RULES)
    }
}

impl Collection {
    /// Likewise: scheme, sequence and cents are the first three fields.
    fn faults(&self) -> Vec<Option<Fault>> {
        let mut faults = vec![
            Fault::Code.unless(usize::from(self.scheme) < SCHEMES.len()),
            Fault::Code.unless(usize::from(self.sequence) < SEQUENCES.len()),
            Fault::Number.unless((1..=CENTS_LIMIT).contains(&self.cents)),
        ];
        faults.extend(faults_of_texts(&self.texts, &COLLECTION_RULES));
        faults
    }
}

fn faults_of_texts(texts: &[Vec<u8>], rules: &[(Rule, bool)]) -> Vec<Option<Fault>> {
    let pairs = texts.iter().zip(rules);
    pairs
        .map(|(text, (rule, may_be_empty))| match text.is_empty() {
            true if *may_be_empty => None,
            _ => rule.fault(text),
        })
        .collect()
}

/// The bytes of a line of an even number of hexadecimal digits, ended by LF.
fn frame(line: &[u8]) -> Option<Vec<u8>> {
    let digits = line.strip_suffix(b"\n")?;
    let values: Option<Vec<u8>> = digits.iter().map(|&digit| hexadecimal(digit)).collect();
    let pairs = values?;
    let bytes = pairs.chunks_exact(2);
    let even = bytes.remainder().is_empty();
    even.then(|| bytes.map(|pair| 16 * pair[0] + pair[1]).collect())
}

fn hexadecimal(digit: u8) -> Option<u8> {
    let place = b"0123456789ABCDEF".iter().position(|&known| known == digit);
    place.map(|value| value as u8)
}

/// The part of a frame that is still to be read.
struct Frame {
    bytes: Vec<u8>,
}

impl Frame {
    fn take(&mut self, length: usize) -> Option<Vec<u8>> {
        let enough = length <= self.bytes.len();
        enough.then(|| self.bytes.drain(..length).collect())
    }

    fn byte(&mut self) -> Option<u8> {
        self.take(1).map(|bytes| bytes[0])
    }

    fn kind(&mut self, kind: u8) -> Option<()> {
        (self.byte()? == kind).then_some(())
    }

    fn texts<const N: usize>(&mut self) -> Option<[Vec<u8>; N]> {
        let mut texts = Vec::new();
        for _ in 0..N {
            let length = self.byte()?;
            texts.push(self.take(usize::from(length))?);
        }
        texts.try_into().ok()
    }

    fn creditor(&mut self) -> Option<Creditor> {
        self.kind(1)?;
        let texts = self.texts()?;
        Some(Creditor { texts })
    }

    fn collection(&mut self) -> Option<Collection> {
        self.kind(2)?;
        let scheme = self.byte()?;
        let sequence = self.byte()?;
        let cents = self.take(5)?;
        let texts = self.texts()?;
        Some(Collection {
            scheme,
            sequence,
            cents: cents
                .iter()
                .fold(0, |value, &byte| 256 * value + u64::from(byte)),
            texts,
        })
    }
}
