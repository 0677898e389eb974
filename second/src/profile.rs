//! The profile: its limits, and its tree in document 01's own notation, read into parts.

use std::slice::from_ref;

pub const MESSAGE_LIMIT: usize = 1_048_576;
pub const BATCH_LIMIT: usize = 64;
pub const TRANSACTION_LIMIT: usize = 2_000;
pub const COLLECTION_LIMIT: usize = 1_000;
pub const CEILING_LIMIT: u64 = 500;
pub const CENTS_LIMIT: u64 = 99_999_999_999;
pub const PROGRAM_LIMIT: usize = 65_536;

/// What a program prints where its arrays are too short.
pub const TOO_LONG: &str = "TOO LONG\n";

pub const DECLARATION: &str = r#"<?xml version="1.0" encoding="UTF-8"?>"#;
pub const DOCUMENT: &str = r#"<Document xmlns="urn:iso:std:iso:20022:tech:xsd:pain.008.001.08">"#;
pub const WHITE_SPACE: &[u8] = b" \t\r\n";

pub const SCHEMES: &[&str] = &["CORE", "B2B"];
pub const SEQUENCES: &[&str] = &["FRST", "RCUR", "OOFF", "FNAL"];
pub const NOT_PROVIDED: &str = "NOTPROVIDED";

/// The name of a postal address.
pub const ADDRESS: &str = "PstlAdr";

/// `?` may be missing, `|` one of the two, `+` one or more, `{2}` up to two. A name with a line of
/// its own holds that line; a name in small letters stands for its line.
const TREE: [(&str, &str); 7] = [
    ("Document", "CstmrDrctDbtInitn"),
    ("CstmrDrctDbtInitn", "GrpHdr, PmtInf+"),
    ("GrpHdr", "MsgId, CreDtTm, NbOfTxs, CtrlSum, InitgPty(Nm)"),
    (
        "PmtInf",
        "PmtInfId, PmtMtd, BtchBookg?, NbOfTxs?, CtrlSum?, \
         PmtTpInf(SvcLvl(Cd), LclInstrm(Cd), SeqTp), ReqdColltnDt, Cdtr(Nm, PstlAdr?), \
         CdtrAcct(Id(IBAN)), CdtrAgt(bank), ChrgBr, \
         CdtrSchmeId(Id(PrvtId(Othr(Id, SchmeNm(Prtry))))), DrctDbtTxInf+",
    ),
    (
        "DrctDbtTxInf",
        "PmtId(InstrId?, EndToEndId), InstdAmt, DrctDbtTx(MndtRltdInf(MndtId, DtOfSgntr)), \
         DbtrAgt(bank), Dbtr(Nm, PstlAdr?), DbtrAcct(Id(IBAN)), RmtInf(Ustrd)?",
    ),
    (
        "PstlAdr",
        "StrtNm?, BldgNb?, PstCd?, TwnNm?, Ctry?, AdrLine{2}",
    ),
    ("bank", "FinInstnId(BICFI | Othr(Id))"),
];

/// What may stand in an element.
pub enum Part {
    Text(String),
    Holder(String, Vec<Part>),
    Optional(Box<Part>),
    Repeated(Box<Part>),
    UpTo(usize, Box<Part>),
    Either(Vec<Part>),
}

/// The root of the profile tree.
pub fn root() -> Part {
    Notation { rest: "Document" }.choice()
}

/// The opening tag of an element.
pub fn opening(name: &str) -> String {
    match name {
        "Document" => DOCUMENT.to_string(),
        "InstdAmt" => r#"<InstdAmt Ccy="EUR">"#.to_string(),
        _ => format!("<{name}>"),
    }
}

/// The closing tag of an element.
pub fn closing(name: &str) -> String {
    format!("</{name}>")
}

/// The names that lead from the root to each element of the tree, in order.
pub fn paths() -> Vec<Vec<String>> {
    root().paths(&[])
}

impl Part {
    fn paths(&self, before: &[String]) -> Vec<Vec<String>> {
        let all = |parts: &[Part], before: &[String]| -> Vec<Vec<String>> {
            parts.iter().flat_map(|part| part.paths(before)).collect()
        };
        match self {
            Part::Text(name) => vec![[before, from_ref(name)].concat()],
            Part::Optional(part) | Part::Repeated(part) | Part::UpTo(_, part) => part.paths(before),
            Part::Either(parts) => all(parts, before),
            Part::Holder(name, parts) => {
                let path = [before, from_ref(name)].concat();
                let below = all(parts, &path);
                [vec![path], below].concat()
            }
        }
    }
}

fn line_of(name: &str) -> Option<&'static str> {
    let line = TREE.iter().find(|(holder, _)| *holder == name);
    line.map(|(_, parts)| *parts)
}

/// The part of the notation that is still to be read.
struct Notation<'a> {
    rest: &'a str,
}

impl<'a> Notation<'a> {
    fn eat(&mut self, sign: char) -> bool {
        self.rest = self.rest.trim_start();
        match self.rest.strip_prefix(sign) {
            Some(rest) => {
                self.rest = rest;
                true
            }
            None => false,
        }
    }

    fn name(&mut self) -> &'a str {
        let text = self.rest.trim_start();
        let end = text.find(|c: char| !c.is_ascii_alphabetic());
        let (name, rest) = text.split_at(end.unwrap_or(text.len()));
        self.rest = rest;
        name
    }

    fn list(&mut self) -> Vec<Part> {
        let mut parts = vec![self.choice()];
        while self.eat(',') {
            parts.push(self.choice());
        }
        parts
    }

    fn choice(&mut self) -> Part {
        let mut parts = vec![self.occurrence()];
        while self.eat('|') {
            parts.push(self.occurrence());
        }
        match parts.len() {
            1 => parts.remove(0),
            _ => Part::Either(parts),
        }
    }

    fn occurrence(&mut self) -> Part {
        let part = self.element();
        if self.eat('?') {
            Part::Optional(Box::new(part))
        } else if self.eat('+') {
            Part::Repeated(Box::new(part))
        } else if self.eat('{') {
            let most = self.number();
            self.eat('}');
            Part::UpTo(most, Box::new(part))
        } else {
            part
        }
    }

    /// A number of one digit.
    fn number(&mut self) -> usize {
        let (digit, rest) = self.rest.split_at(1);
        self.rest = rest;
        digit.parse().expect("the notation has a digit here")
    }

    fn element(&mut self) -> Part {
        let name = self.name();
        if self.eat('(') {
            let parts = self.list();
            self.eat(')');
            return Part::Holder(name.to_string(), parts);
        }
        match line_of(name) {
            None => Part::Text(name.to_string()),
            Some(line) if name.starts_with(char::is_lowercase) => Notation { rest: line }.choice(),
            Some(line) => Part::Holder(name.to_string(), Notation { rest: line }.list()),
        }
    }
}
