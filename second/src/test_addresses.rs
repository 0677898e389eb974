//! Tests of refusal 59 and of postal addresses: every case of their table, the mixes against the
//! request's own sentences, places and rows by number, and what the generated messages have.

use crate::address_cases::{cases, summary};
use crate::address_draft::ELEMENTS;
use crate::address_table::{DATES, MIXES, MIX_DATES};
use crate::addresses::{good_at, mix};
use crate::check::{printed_rows, Checker, Tables};
use crate::content::{Address, Message};
use crate::message_cases::message;
use crate::profile::PROGRAM_LIMIT;
use crate::selftest::Bench;
use crate::test_form::{every_place, Tester, GOOD};
use crate::vectors::with;
use std::collections::BTreeSet;

pub fn run(bench: &mut Bench) {
    let tester = Tester::new();
    cases_of_the_table(bench);
    good_mixes_of_the_table(bench);
    sentences(bench);
    places(bench, &tester);
    every_place(bench, &tester, &addressed());
    rows(bench, &tester);
    generated(bench);
}

fn cases_of_the_table(bench: &mut Bench) {
    let checker = Checker::new();
    let cases = cases();
    bench.same("cases of addresses", cases.len(), 838);
    for case in cases {
        let found = checker.check(case.message.as_bytes(), case.tables);
        bench.same(&case.name, summary(&found), case.due);
    }
}

/// Of the sixteen mixes seven are good on the first of the two dates, four on the second.
fn good_mixes_of_the_table(bench: &mut Bench) {
    let numbers = MIXES.iter().flat_map(|mix| [mix.1, mix.2]);
    let numbers: Vec<[u32; 2]> = numbers.collect();
    let good = [0, 1].map(|date| numbers.iter().filter(|pair| pair[date] == 0).count());
    bench.same("mixes", (numbers.len(), good), (16, [7, 4]));
}

/// Every choice of elements at every date of the table, against the three kinds as the request
/// has them.
fn sentences(bench: &mut Bench) {
    let dates = DATES.iter().map(|(date, _)| *date);
    let wrong: Vec<(&str, Vec<&str>)> = dates
        .flat_map(|date| choices().into_iter().map(move |elements| (date, elements)))
        .filter(|(date, elements)| good_at(date.as_bytes(), elements) != of_a_kind(date, elements))
        .collect();
    bench.same("the kinds of addresses", wrong, Vec::new());
    bench.same("choices of elements", choices().len(), 128);
    let mixes: BTreeSet<String> = choices().iter().map(|elements| mix(elements)).collect();
    bench.same("mixes of elements", mixes.len(), 16);
}

/// Every choice of elements of an address, in their order.
fn choices() -> Vec<Vec<&'static str>> {
    let choice = |bits: usize| {
        let all = ELEMENTS.into_iter().enumerate();
        let chosen = all.filter(|(index, _)| bits >> index & 1 == 1);
        chosen.map(|(_, element)| element).collect()
    };
    (0..1 << ELEMENTS.len()).map(choice).collect()
}

fn of_a_kind(date: &str, elements: &[&str]) -> bool {
    let has = |element| elements.contains(&element);
    let (town, country, line) = (has("TwnNm"), has("Ctry"), has("AdrLine"));
    let structured = town && country && !line;
    let hybrid = town && country && line;
    let nothing_else = elements
        .iter()
        .all(|element| ["Ctry", "AdrLine"].contains(element));
    let unstructured = (line || country) && nothing_else;
    let day: u32 = date.replace('-', "").parse().unwrap();
    structured || hybrid || (unstructured && day < 20_261_115)
}

const CREDITOR: &str = "</Nm></Cdtr>";
const DEBTOR: &str = "</Nm></Dbtr>";

/// The vectors' message with an address of its creditor and of its first debtor, each with all
/// that it may hold.
fn addressed() -> String {
    let address =
        "<PstlAdr><StrtNm>High Street</StrtNm><BldgNb>12a</BldgNb><PstCd>SW1A 2AA</PstCd>\
                   <TwnNm>London</TwnNm><Ctry>GB</Ctry><AdrLine>Flat 3</AdrLine>\
                   <AdrLine>Second floor</AdrLine></PstlAdr>";
    with(CREDITOR, &format!("</Nm>{address}</Cdtr>")).replacen(
        DEBTOR,
        &format!("</Nm>{address}</Dbtr>"),
        1,
    )
}

/// Places of the vectors' message, by number.
fn places(bench: &mut Bench, tester: &Tester) {
    let creditor = |inside| tester.answer(with(CREDITOR, &format!("</Nm>{inside}</Cdtr>")));
    let debtor = |inside| tester.answer(with(DEBTOR, &format!("</Nm>{inside}</Dbtr>")));
    let empty = "<PstlAdr></PstlAdr>";
    bench.same("empty, creditor", creditor(empty), "NO 59 594");
    bench.same("empty, debtor", debtor(empty), "NO 59 1191");
    let country = "<PstlAdr><Ctry>CH</Ctry></PstlAdr>";
    bench.same("country, creditor", creditor(country), GOOD);
    let message = with(CREDITOR, &format!("</Nm>{country}</Cdtr>"));
    let message = message.replacen("2026-11-10", "2026-11-15", 1);
    bench.same("country, too late", tester.answer(message), "NO 59 594");
    let lines = "<PstlAdr><AdrLine>A</AdrLine><AdrLine>B</AdrLine><AdrLine>C</AdrLine></PstlAdr>";
    bench.same("third line, creditor", creditor(lines), "NO 2 644");
    bench.same("third line, debtor", debtor(lines), "NO 2 1241");
    let street = "<PstlAdr><StrtNm></StrtNm></PstlAdr>";
    bench.same("empty street, debtor", debtor(street), "NO 51 1208");
    bench.same("<PstlAdr/>", creditor("<PstlAdr/>"), "NO 2 602");
    bench.same("other tag", creditor("<PstlAdx>"), "NO 2 601");
    bench.same("other element", debtor("<CtryOfRes>"), "NO 2 1192");
    let party = with("</InitgPty>", "<PstlAdr></PstlAdr></InitgPty>");
    bench.same("initiating party", tester.answer(party), "NO 2 276");
}

/// The rows of a message with addresses: its texts start later by them, and nothing else changes.
fn rows(bench: &mut Bench, tester: &Tester) {
    let message = addressed();
    bench.same("addressed", tester.answer(&message), GOOD);
    let answer = Checker::new().check(message.as_bytes(), Tables::LONG_ENOUGH);
    let rows = answer.map_or(String::new(), |accepted| printed_rows(&accepted));
    let due = "S 1 110007 1096 5 1192 7 1354 14 1582 22 1642 10\n\
               S 1 215008 1717 5 1813 9 1967 14 2013 16 0 0\n\
               R 0 2 325015 1 2 1 325015 1\n";
    bench.same("rows with addresses", rows, due);
}

/// The mixes that are good at no date, and those that are good for some time only.
const BAD_MIXES: [&str; 9] = ["", "d", "dc", "dcl", "dl", "dt", "dtl", "t", "tl"];
const MIXES_IN_TIME: [&str; 3] = ["c", "cl", "l"];

/// Generated messages without addresses and with them; what the latter are refused with; the
/// mixes of those that are accepted, each with whether its date is a late one, and of those that
/// are refused with 59.
#[derive(Default)]
struct Found {
    without: usize,
    with: usize,
    numbers: BTreeSet<u32>,
    good: BTreeSet<(String, bool)>,
    bad: BTreeSet<(String, bool)>,
}

fn generated(bench: &mut Bench) {
    let checker = Checker::new();
    let mut found = Found::default();
    for case in 0..3_600 {
        let bytes = message(1, case, PROGRAM_LIMIT);
        found.add(&checker, &bytes);
    }
    let (without, with) = (found.without, found.with);
    bench.holds(
        "with and without addresses",
        without > 2_000 && with > 1_000,
    );
    let numbers = [0, 2, 51, 52, 53, 54, 55, 56, 57, 58, 59, 6, 7, 8, 9];
    let all = BTreeSet::from(numbers);
    bench.holds("numbers with addresses", found.numbers.is_superset(&all));
    let at_any_date = ["dtc", "dtcl", "tc", "tcl"];
    let pairs = at_any_date
        .iter()
        .flat_map(|mix| [(*mix, false), (*mix, true)]);
    let in_time = MIXES_IN_TIME.iter().map(|mix| (*mix, false));
    let due = pairs
        .chain(in_time)
        .map(|(mix, late)| (mix.to_string(), late));
    bench.same("good mixes", found.good, due.collect::<BTreeSet<_>>());
    let too_late = found.bad.iter().filter(|(_, late)| *late);
    let too_late: BTreeSet<&str> = too_late.map(|(mix, _)| mix.as_str()).collect();
    let in_time = BTreeSet::from(MIXES_IN_TIME);
    bench.holds("mixes that come too late", too_late.is_superset(&in_time));
    let bad: BTreeSet<&str> = found.bad.iter().map(|(mix, _)| mix.as_str()).collect();
    let due = BTreeSet::from(BAD_MIXES).union(&in_time).copied().collect();
    bench.same::<BTreeSet<&str>, _>("bad mixes", bad, due);
}

impl Found {
    fn add(&mut self, checker: &Checker, bytes: &[u8]) {
        if !bytes.windows(9).any(|window| window == b"<PstlAdr>") {
            self.without += 1;
            return;
        }
        self.with += 1;
        let answer = checker.check(bytes, Tables::LONG_ENOUGH);
        let refusal = answer.err();
        self.numbers
            .insert(refusal.map_or(0, |refusal| refusal.number));
        match refusal.map(|refusal| (refusal.number, refusal.place)) {
            None => self.good.extend(mixes_of(bytes, |_| true)),
            Some((59, place)) => self
                .bad
                .extend(mixes_of(bytes, |address| address.place == place)),
            Some(_) => {}
        }
    }
}

/// The mixes of the wanted addresses of a message, and whether each is later than the last date
/// of unstructured ones.
fn mixes_of(bytes: &[u8], wanted: impl Fn(&Address) -> bool) -> Vec<(String, bool)> {
    let message = Message::read(bytes);
    let wanted = message.addresses.iter().filter(|address| wanted(address));
    wanted
        .map(|address| {
            let batch = &message.batches[address.batch].section;
            let late = batch.required("ReqdColltnDt").bytes > MIX_DATES[0].as_bytes();
            (mix(&address.elements), late)
        })
        .collect()
}
