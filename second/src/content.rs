//! The content of a message of the form: a tokenizer with a stack of open elements hands out the
//! texts with their paths, and these are gathered into header, batches, transactions and postal
//! addresses.

use crate::profile::ADDRESS;
use crate::rules::{rule_of, Rule};
use std::collections::BTreeMap;

/// A text and the place where it starts in the message.
#[derive(Clone, Copy)]
pub struct Text<'a> {
    pub start: usize,
    pub bytes: &'a [u8],
}

/// The texts of the header, of a batch or of a transaction, by the names of the elements that
/// lead to them, and the place of the section's `<`.
#[derive(Default)]
pub struct Section<'a> {
    pub place: usize,
    texts: BTreeMap<String, Text<'a>>,
}

impl<'a> Section<'a> {
    fn at(place: usize) -> Section<'a> {
        Section {
            place,
            ..Section::default()
        }
    }

    pub fn text(&self, path: &str) -> Option<Text<'a>> {
        self.texts.get(path).copied()
    }

    /// A text that the form requires.
    pub fn required(&self, path: &str) -> Text<'a> {
        self.texts[path]
    }
}

pub struct Batch<'a> {
    pub section: Section<'a>,
    pub transactions: Vec<Section<'a>>,
}

/// A postal address: the place of its `<`, the batch where it stands, from 0, and the names of
/// the elements that it holds, in order.
pub struct Address<'a> {
    pub place: usize,
    pub batch: usize,
    pub elements: Vec<&'a str>,
}

#[derive(Default)]
pub struct Message<'a> {
    pub header: Section<'a>,
    pub batches: Vec<Batch<'a>>,
    pub addresses: Vec<Address<'a>>,
    pub texts: Vec<(Rule, Text<'a>)>,
}

impl<'a> Message<'a> {
    /// Reads a message of the form.
    pub fn read(bytes: &'a [u8]) -> Message<'a> {
        let mut message = Message::default();
        for token in tokens(bytes) {
            match token {
                Token::Opened(name, place) => message.open(name, place),
                Token::Text(path, text) => message.put(&path, text),
            }
        }
        message
    }

    pub fn transactions(&self) -> impl Iterator<Item = &Section<'a>> {
        self.batches.iter().flat_map(|batch| &batch.transactions)
    }

    fn open(&mut self, name: &str, place: usize) {
        let section = Section::at(place);
        match (name, self.batches.last_mut()) {
            ("PmtInf", _) => self.batches.push(Batch {
                section,
                transactions: Vec::new(),
            }),
            ("DrctDbtTxInf", Some(batch)) => batch.transactions.push(section),
            (ADDRESS, _) => self.addresses.push(Address {
                place,
                batch: self.batches.len() - 1,
                elements: Vec::new(),
            }),
            _ => {}
        }
    }

    fn put(&mut self, path: &[&'a str], text: Text<'a>) {
        let rule = rule_of(path).expect("the profile has a rule for each of its texts");
        self.texts.push((rule, text));
        if let ([.., ADDRESS, element], Some(address)) = (path, self.addresses.last_mut()) {
            return address.elements.push(element);
        }
        let batch = self.batches.last_mut();
        let (section, names) = match (path, batch) {
            ([_, _, "PmtInf", "DrctDbtTxInf", names @ ..], Some(batch)) => {
                (batch.transactions.last_mut().unwrap(), names)
            }
            ([_, _, "PmtInf", names @ ..], Some(batch)) => (&mut batch.section, names),
            ([_, _, _, names @ ..], _) => (&mut self.header, names),
            _ => unreachable!("a text stands in the header or in a batch"),
        };
        section.texts.insert(names.join("/"), text);
    }
}

enum Token<'a> {
    Opened(&'a str, usize),
    Text(Vec<&'a str>, Text<'a>),
}

/// The opened elements and the texts of a message of the form, in order. A closing tag that
/// directly follows its opening tag's text ends a text, but not in an address, which may be empty.
fn tokens(message: &[u8]) -> Vec<Token<'_>> {
    let mut tokens = Vec::new();
    let mut open: Vec<&str> = Vec::new();
    let mut text_start = None;
    let mut rest = 0;
    while let Some(place) = find(message, rest, b'<') {
        let end = find(message, place, b'>').unwrap();
        let tag = std::str::from_utf8(&message[place + 1..end]).unwrap();
        rest = end + 1;
        if tag.starts_with('/') {
            if let Some(start) = text_start.take() {
                let bytes = &message[start..place];
                tokens.push(Token::Text(open.clone(), Text { start, bytes }));
            }
            open.pop();
        } else if !tag.starts_with('?') {
            let name = tag.split(' ').next().unwrap();
            tokens.push(Token::Opened(name, place));
            open.push(name);
            text_start = (name != ADDRESS).then_some(rest);
        }
    }
    tokens
}

fn find(message: &[u8], from: usize, wanted: u8) -> Option<usize> {
    let found = message[from..].iter().position(|&byte| byte == wanted);
    found.map(|distance| from + distance)
}
