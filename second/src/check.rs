//! The check: its stages in order, the rows of an accepted message, and what the checking program
//! prints.

use crate::addresses::good_at;
use crate::answer::{refuse, Refusal};
use crate::automaton::Automaton;
use crate::content::{Batch, Message, Section, Text};
use crate::profile::{BATCH_LIMIT, MESSAGE_LIMIT, SCHEMES, SEQUENCES, TRANSACTION_LIMIT};
use crate::rules::{amount, count, sum};

const SLIP_NUMBERS: usize = 12;
const BATCH_NUMBERS: usize = 8;

/// The lengths of the two lent tables, in numbers.
#[derive(Clone, Copy)]
pub struct Tables {
    pub slips: usize,
    pub batches: usize,
}

impl Tables {
    pub const LONG_ENOUGH: Tables = Tables {
        slips: usize::MAX,
        batches: usize::MAX,
    };
}

/// What is said of one batch. What is absent is None.
pub struct BatchReport {
    transactions_before: u64,
    count: u64,
    cents: u64,
    declared_count: Option<u64>,
    declared_cents: Option<u64>,
    terms: u64,
}

pub struct Accepted {
    pub transactions: u64,
    pub cents: u64,
    pub batches: Vec<BatchReport>,
    pub slip_rows: Vec<[u64; SLIP_NUMBERS]>,
}

pub struct Checker {
    form: Automaton,
}

impl Checker {
    pub fn new() -> Checker {
        Checker {
            form: Automaton::of_the_form(),
        }
    }

    pub fn check(&self, bytes: &[u8], tables: Tables) -> Result<Accepted, Refusal> {
        if bytes.len() > MESSAGE_LIMIT {
            return refuse(1, MESSAGE_LIMIT);
        }
        if let Some(place) = self.form.place(bytes) {
            return refuse(2, place);
        }
        let message = Message::read(bytes);
        limits(&message)?;
        texts(&message)?;
        addresses(&message)?;
        let accepted = accepted(&message);
        batch_totals(&message, &accepted)?;
        message_totals(&message, &accepted)?;
        accepted.fits(tables)?;
        Ok(accepted)
    }
}

/// Stages 3 and 4.
fn limits(message: &Message) -> Result<(), Refusal> {
    if let Some(batch) = message.batches.get(BATCH_LIMIT) {
        return refuse(3, batch.section.place);
    }
    match message.transactions().nth(TRANSACTION_LIMIT) {
        Some(transaction) => refuse(4, transaction.place),
        None => Ok(()),
    }
}

/// The stage of 51 to 58: the fault of the first text that has one.
fn texts(message: &Message) -> Result<(), Refusal> {
    let texts = message.texts.iter();
    let mut faults = texts.filter_map(|(rule, text)| Some((rule.fault(text.bytes)?, text.start)));
    match faults.next() {
        Some((fault, start)) => refuse(fault.number(), start),
        None => Ok(()),
    }
}

/// Stage 59: the first address whose elements are no good mix at the date of its own batch.
fn addresses(message: &Message) -> Result<(), Refusal> {
    let bad = message.addresses.iter().find(|address| {
        let batch = &message.batches[address.batch].section;
        !good_at(batch.required("ReqdColltnDt").bytes, &address.elements)
    });
    match bad {
        Some(address) => refuse(59, address.place),
        None => Ok(()),
    }
}

/// Stages 6 and 7, batch by batch.
fn batch_totals(message: &Message, accepted: &Accepted) -> Result<(), Refusal> {
    for (batch, report) in message.batches.iter().zip(&accepted.batches) {
        compare(6, batch.section.text("NbOfTxs"), count, report.count)?;
        compare(7, batch.section.text("CtrlSum"), sum, report.cents)?;
    }
    Ok(())
}

/// Stages 8 and 9.
fn message_totals(message: &Message, accepted: &Accepted) -> Result<(), Refusal> {
    let header = &message.header;
    compare(8, header.text("NbOfTxs"), count, accepted.transactions)?;
    compare(9, header.text("CtrlSum"), sum, accepted.cents)
}

fn compare(
    number: u32,
    declared: Option<Text>,
    value: fn(&[u8]) -> Option<u64>,
    right: u64,
) -> Result<(), Refusal> {
    match declared {
        Some(text) if value(text.bytes) != Some(right) => refuse(number, text.start),
        _ => Ok(()),
    }
}

impl Accepted {
    /// Stages 10 and 11.
    pub fn fits(&self, tables: Tables) -> Result<(), Refusal> {
        let needed = self.tables();
        if needed.slips > tables.slips {
            return refuse(10, needed.slips);
        }
        if needed.batches > tables.batches {
            return refuse(11, needed.batches);
        }
        Ok(())
    }

    /// The numbers needed in each table.
    pub fn tables(&self) -> Tables {
        Tables {
            slips: SLIP_NUMBERS * self.slip_rows.len(),
            batches: BATCH_NUMBERS * self.batches.len(),
        }
    }
}

/// All that is answered, should no later stage refuse: every text meets its rule.
fn accepted(message: &Message) -> Accepted {
    let mut before = 0;
    let mut batches = Vec::new();
    for batch in &message.batches {
        let report = batch_report(batch, before);
        before += report.count;
        batches.push(report);
    }
    Accepted {
        transactions: before,
        cents: batches.iter().map(|report| report.cents).sum(),
        batches,
        slip_rows: slip_rows(message),
    }
}

fn batch_report(batch: &Batch, transactions_before: u64) -> BatchReport {
    let section = &batch.section;
    let scheme = index(SCHEMES, section.required("PmtTpInf/LclInstrm/Cd"));
    let sequence = index(SEQUENCES, section.required("PmtTpInf/SeqTp"));
    BatchReport {
        transactions_before,
        count: batch.transactions.len() as u64,
        cents: batch.transactions.iter().map(cents).sum(),
        declared_count: section.text("NbOfTxs").and_then(|text| count(text.bytes)),
        declared_cents: section.text("CtrlSum").and_then(|text| sum(text.bytes)),
        terms: 4 * scheme + sequence,
    }
}

fn cents(transaction: &Section) -> u64 {
    amount(transaction.required("InstdAmt").bytes).unwrap()
}

fn index(words: &[&str], text: Text) -> u64 {
    let found = words.iter().position(|word| word.as_bytes() == text.bytes);
    found.unwrap() as u64
}

fn slip_rows(message: &Message) -> Vec<[u64; SLIP_NUMBERS]> {
    let mut rows = Vec::new();
    for (batch, number) in message.batches.iter().zip(1..) {
        let transactions = batch.transactions.iter();
        rows.extend(transactions.map(|transaction| slip_row(number, transaction)));
    }
    rows
}

fn slip_row(batch: u64, transaction: &Section) -> [u64; SLIP_NUMBERS] {
    let mut row = vec![batch, cents(transaction)];
    for path in [
        "PmtId/EndToEndId",
        "DrctDbtTx/MndtRltdInf/MndtId",
        "Dbtr/Nm",
        "DbtrAcct/Id/IBAN",
        "RmtInf/Ustrd",
    ] {
        let text = transaction.text(path);
        row.push(text.map_or(0, |text| text.start as u64));
        row.push(text.map_or(0, |text| text.bytes.len() as u64));
    }
    row.try_into().unwrap()
}

impl BatchReport {
    pub fn row(&self) -> [u64; BATCH_NUMBERS] {
        [
            self.transactions_before,
            self.count,
            self.cents,
            u64::from(self.declared_count.is_some()),
            self.declared_count.unwrap_or(0),
            u64::from(self.declared_cents.is_some()),
            self.declared_cents.unwrap_or(0),
            self.terms,
        ]
    }

    fn line(&self, number: usize) -> String {
        let declared = |value: Option<u64>| value.map_or("-".to_string(), |v| v.to_string());
        format!(
            "B {number} {} {} {} {}\n",
            self.count,
            self.cents,
            declared(self.declared_count),
            declared(self.declared_cents)
        )
    }
}

/// The lines that the checking program prints.
pub fn printed(answer: &Result<Accepted, Refusal>) -> String {
    let accepted = match answer {
        Err(refusal) => return format!("{refusal}\n"),
        Ok(accepted) => accepted,
    };
    let mut lines = format!(
        "OK {} {} {}\n",
        accepted.batches.len(),
        accepted.transactions,
        accepted.cents
    );
    for (report, number) in accepted.batches.iter().zip(1..) {
        lines += &report.line(number);
    }
    lines
}

/// The slip rows and the batch rows, a line each.
pub fn printed_rows(accepted: &Accepted) -> String {
    let slips = accepted.slip_rows.iter().map(|row| printed_row("S", row));
    let batches = accepted.batches.iter().map(|b| printed_row("R", &b.row()));
    slips.chain(batches).collect()
}

fn printed_row(mark: &str, row: &[u64]) -> String {
    let numbers: String = row.iter().map(|number| format!(" {number}")).collect();
    format!("{mark}{numbers}\n")
}
