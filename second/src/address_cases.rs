//! The cases of the table of postal addresses: messages made from the vectors' one, each with the
//! tables that it is checked with and the answer that is due. They are the same whatever the seed.
//! The self-test judges them, and they are among the calls that every seed begins with.

use crate::address_forms::{AFTER_NAME, ELSEWHERE, ENDS, INSIDE, TEXTS};
use crate::address_table::{
    BAD_HERE, DATES, DETAILS, FIRSTS, HYBRID, MIXES, MIXES_OF_TWO_LINES, MIX_DATES, STRUCTURED,
    TABLES, TEXTS_AND_TAGS, TOTALS, TWO_BATCHES,
};
use crate::answer::{refuse, Refusal};
use crate::check::{Accepted, Tables};
use crate::profile::{BATCH_LIMIT, TRANSACTION_LIMIT};
use crate::vectors::MESSAGE;

/// A message, the tables, and the answer: batches, transactions and cents, or the refusal.
pub struct AddressCase {
    pub name: String,
    pub message: String,
    pub tables: Tables,
    pub due: Result<[u64; 3], Refusal>,
}

/// What a case says of an answer.
pub fn summary(found: &Result<Accepted, Refusal>) -> Result<[u64; 3], Refusal> {
    let accepted = found.as_ref().map_err(|refusal| *refusal)?;
    Ok([
        accepted.batches.len() as u64,
        accepted.transactions,
        accepted.cents,
    ])
}

/// All cases.
pub fn cases() -> Vec<AddressCase> {
    let parts = [
        mixes(),
        dates(),
        two_batches(),
        orders(),
        short_tables(),
        limits(),
        forms(),
        elsewhere(),
        cuts(),
    ];
    parts.into_iter().flatten().collect()
}

/// The collection date of the vectors' message, and the count and cents of its batch.
const DATE: &str = "2026-11-10";
const COUNT: u64 = 2;
const CENTS: u64 = 325_015;

/// Tables that are long enough for three batches.
const LONG_ENOUGH: Tables = Tables {
    slips: 72,
    batches: 24,
};

/// The vectors' message with so many batches, each with a date and with the addresses of its
/// creditor and its two debtors.
fn message(batches: &[(&str, [&str; 3])]) -> String {
    let (head, rest) = MESSAGE.split_at(MESSAGE.find("<PmtInf>").unwrap());
    let (batch, tail) = rest.split_at(rest.find("</CstmrDrctDbtInitn>").unwrap());
    let number = batches.len() as u64;
    let cents = number * CENTS;
    let head = head
        .replace("<NbOfTxs>2", &format!("<NbOfTxs>{}", number * COUNT))
        .replace("3250.15", &format!("{}.{:02}", cents / 100, cents % 100));
    let batches = batches
        .iter()
        .map(|(date, addresses)| furnished(&batch.replace(DATE, date), addresses));
    head + &batches.collect::<String>() + tail
}

/// The batch with an address at the end of each of its parties.
fn furnished(batch: &str, addresses: &[&str; 3]) -> String {
    let mut before = String::new();
    let mut rest = batch;
    for (address, end) in addresses.iter().zip(["</Cdtr>", "</Dbtr>", "</Dbtr>"]) {
        let (part, more) = rest.split_once(end).unwrap();
        before += &[part, address, end].concat();
        rest = more;
    }
    before + rest
}

/// The case of a marked message: the mark is left out, and is the place of a refusal.
fn case(name: &str, marked: &str, number: u32) -> AddressCase {
    let message = marked.replacen('^', "", 1);
    let batches = message.matches("<PmtInf>").count() as u64;
    let due = match (number, marked.find('^')) {
        (0, None) => Ok([batches, COUNT * batches, CENTS * batches]),
        (1.., Some(place)) => refuse(number, place),
        _ => panic!("a mark without a refusal, or a refusal without a mark: {name}"),
    };
    AddressCase {
        name: name.to_string(),
        message,
        tables: LONG_ENOUGH,
        due,
    }
}

/// Cases of the same bytes at the end of the creditor and at the end of the first debtor.
fn in_each_party(date: &str, marked: &str, number: u32) -> Vec<AddressCase> {
    let creditor = message(&[(date, [marked, "", ""])]);
    let debtor = message(&[(date, ["", marked, ""])]);
    vec![
        case(&format!("creditor, {date}: {marked}"), &creditor, number),
        case(&format!("debtor, {date}: {marked}"), &debtor, number),
    ]
}

/// An address that holds this, marked where it is refused with 59.
fn address(inside: &str, number: u32) -> String {
    let mark = if number == 59 { "^" } else { "" };
    format!("{mark}<PstlAdr>{inside}</PstlAdr>")
}

/// Every mix on both sides of the last date, with each detail and without.
fn mixes() -> Vec<AddressCase> {
    let mut cases = Vec::new();
    for (rest, alone, with_details) in MIXES.iter().chain(&MIXES_OF_TWO_LINES) {
        let details = DETAILS.iter().map(|detail| (*detail, with_details));
        for (detail, numbers) in [("", alone)].into_iter().chain(details) {
            for (date, &number) in MIX_DATES.iter().zip(numbers) {
                let address = address(&[detail, rest].concat(), number);
                cases.extend(in_each_party(date, &address, number));
            }
        }
    }
    cases
}

/// An address of each kind at each date.
fn dates() -> Vec<AddressCase> {
    let of_a_date = |&(date, number): &(&str, u32)| {
        let line = "<AdrLine>1207 Geneve</AdrLine>";
        let both = "<Ctry>CH</Ctry><AdrLine>1207 Geneve</AdrLine>";
        let unstructured = [line, both].map(|inside| (address(inside, number), number));
        let others = [STRUCTURED, HYBRID].map(|address| (address.to_string(), 0));
        let all = unstructured.into_iter().chain(others);
        all.map(move |(address, number)| {
            let marked = message(&[(date, ["", "", &address])]);
            case(&format!("{date}: {address}"), &marked, number)
        })
        .collect::<Vec<_>>()
    };
    DATES.iter().flat_map(of_a_date).collect()
}

fn two_batches() -> Vec<AddressCase> {
    let cases = TWO_BATCHES.map(|(batches, number)| {
        let name = format!("two batches, {batches:?}");
        case(&name, &message(&batches), number)
    });
    cases.into()
}

/// Which of two faults is refused.
fn orders() -> Vec<AddressCase> {
    let all = FIRSTS.iter().chain(&TOTALS).chain(&TEXTS_AND_TAGS);
    all.map(|(addresses, changes, number)| {
        let mut marked = message(&[(DATE, *addresses)]);
        for (from, to) in *changes {
            assert!(marked.contains(from), "the message has no {from}");
            marked = marked.replacen(from, to, 1);
        }
        let name = format!("{addresses:?}, {changes:?}");
        case(&name, &marked, *number)
    })
    .collect()
}

fn short_tables() -> Vec<AddressCase> {
    let cases = TABLES.map(|((slips, batches), addresses, number)| {
        let name = format!("tables of {slips} and {batches}, {addresses:?}");
        AddressCase {
            tables: Tables { slips, batches },
            ..case(&name, &message(&[(DATE, addresses)]), number)
        }
    });
    cases.into()
}

/// Bad mixes in as many batches and transactions as the limits allow, and in one more, which is
/// refused for that.
fn limits() -> Vec<AddressCase> {
    let bad = &BAD_HERE[1..];
    let batches = |number| message(&vec![(DATE, [bad, "", ""]); number]);
    let one = message(&[(DATE, ["", bad, ""])]);
    let (head, rest) = one.split_at(one.find("<DrctDbtTxInf>").unwrap());
    let (transaction, _) = rest.split_at(rest.rfind("<DrctDbtTxInf>").unwrap());
    let (_, tail) = rest.split_at(rest.find("</PmtInf>").unwrap());
    let transactions = |number| [head, &transaction.repeat(number), tail].concat();
    let first = |message: String| message.replacen(bad, BAD_HERE, 1);
    let last = |message: String, tag: &str| {
        let (before, after) = message.split_at(message.rfind(tag).unwrap());
        format!("{before}^{after}")
    };
    let (most, many) = (batches(BATCH_LIMIT), transactions(TRANSACTION_LIMIT));
    let (more, too_many) = (
        batches(BATCH_LIMIT + 1),
        transactions(TRANSACTION_LIMIT + 1),
    );
    vec![
        case("64 batches", &first(most), 59),
        case("65 batches", &last(more, "<PmtInf>"), 3),
        case("2,000 transactions", &first(many), 59),
        case("2,001 transactions", &last(too_many, "<DrctDbtTxInf>"), 4),
    ]
}

/// What is of the form and what is not, and texts, in either party.
fn forms() -> Vec<AddressCase> {
    let after_name = AFTER_NAME.map(|(part, number)| (part.to_string(), number));
    let inside = INSIDE.map(|part| (address(part, 2), 2));
    let ends = ENDS.map(|end| (format!("<PstlAdr><Ctry>CH</Ctry>{end}"), 2));
    let texts = TEXTS.map(|(part, number)| (address(part, number), number));
    let all = after_name
        .into_iter()
        .chain(inside)
        .chain(ends)
        .chain(texts);
    all.flat_map(|(marked, number)| in_each_party(DATE, &marked, number))
        .collect()
}

fn elsewhere() -> Vec<AddressCase> {
    let cases = ELSEWHERE.map(|(from, to)| {
        assert!(MESSAGE.contains(from), "the message has no {from}");
        case(to, &MESSAGE.replacen(from, to, 1), 2)
    });
    cases.into()
}

/// Messages that end inside an address or right after it, beside a sign of its tags.
fn cuts() -> Vec<AddressCase> {
    let inside = [DETAILS[3], MIXES_OF_TWO_LINES[3].0].concat();
    let whole = in_each_party(DATE, &address(&inside, 0), 0);
    whole
        .iter()
        .flat_map(|whole| cuts_of(&whole.message))
        .collect()
}

fn cuts_of(message: &str) -> Vec<AddressCase> {
    let start = message.find("<PstlAdr>").unwrap();
    let end = message.find("</PstlAdr>").unwrap() + "</PstlAdr>".len();
    let beside = |place: &usize| b"</>".contains(&message.as_bytes()[place - 1]);
    let places = (start..=end).filter(beside);
    places
        .map(|place| {
            case(
                &format!("cut at {place}"),
                &format!("{}^", &message[..place]),
                2,
            )
        })
        .collect()
}
