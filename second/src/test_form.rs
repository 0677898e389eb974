//! Tests of refusals 1 to 4: length, form and limits, on the written message of the vectors.

use crate::check::{printed, Checker, Tables};
use crate::profile::{paths, DECLARATION, MESSAGE_LIMIT};
use crate::selftest::Bench;
use crate::vectors::{with, MESSAGE};

pub fn run(bench: &mut Bench) {
    let tester = Tester::new();
    lengths(bench, &tester);
    beginnings(bench, &tester);
    starts(bench, &tester);
    tags(bench, &tester);
    children(bench, &tester);
    white_space(bench, &tester);
    limits(bench, &tester);
    every_place(bench, &tester, MESSAGE);
}

/// A checker with tables that are long enough, and its answer as printed, without the last LF.
pub struct Tester {
    checker: Checker,
}

impl Tester {
    pub fn new() -> Tester {
        Tester {
            checker: Checker::new(),
        }
    }

    pub fn answer(&self, message: impl AsRef<[u8]>) -> String {
        self.answer_with(message, Tables::LONG_ENOUGH)
    }

    pub fn answer_with(&self, message: impl AsRef<[u8]>, tables: Tables) -> String {
        let answer = self.checker.check(message.as_ref(), tables);
        printed(&answer).trim_end().to_string()
    }
}

/// A stretch of the message of the vectors, from the first find of a text to the end of another.
pub fn stretch(from: &str, to: &str) -> &'static str {
    let start = MESSAGE.find(from).unwrap();
    let end = start + MESSAGE[start..].find(to).unwrap() + to.len();
    &MESSAGE[start..end]
}

pub const GOOD: &str = "OK 1 2 325015\nB 1 2 325015 2 325015";

fn lengths(bench: &mut Bench, tester: &Tester) {
    let xs = vec![b'x'; MESSAGE_LIMIT + 1];
    bench.same("1: a byte too many", tester.answer(&xs), "NO 1 1048576");
    bench.same("1: just enough", tester.answer(&xs[1..]), "NO 2 0");
    bench.same(
        "1: far too many",
        tester.answer(xs.repeat(2)),
        "NO 1 1048576",
    );
    let mut filled = MESSAGE.as_bytes().to_vec();
    filled.resize(MESSAGE_LIMIT, b' ');
    bench.same("1: white space up to it", tester.answer(&filled), GOOD);
    filled.push(b' ');
    bench.same("1: and beyond", tester.answer(&filled), "NO 1 1048576");
}

fn beginnings(bench: &mut Bench, tester: &Tester) {
    bench.same("elements of the tree", paths().len(), 75);
    bench.same("the message itself", MESSAGE.len(), 1743);
    bench.same("accepted", tester.answer(MESSAGE), GOOD);
    bench.same("★1", tester.answer(""), "NO 2 0");
    bench.same("★2", tester.answer("<"), "NO 2 1");
    bench.same("white space only", tester.answer(" \n\t\r"), "NO 2 4");
    bench.same("start of the declaration", tester.answer("<?x"), "NO 2 3");
    bench.same("declaration only", tester.answer(DECLARATION), "NO 2 38");
    bench.same(
        "last byte missing",
        tester.answer(&MESSAGE[..1742]),
        "NO 2 1742",
    );
}

fn starts(bench: &mut Bench, tester: &Tester) {
    let spaced = with("?>", " ?>");
    bench.same("★3", tester.answer(spaced), "NO 2 36");
    let standalone = with("?>", " standalone=\"no\"?>");
    bench.same("standalone", tester.answer(standalone), "NO 2 36");
    let blank = format!(" {MESSAGE}");
    bench.same(
        "a blank before the declaration",
        tester.answer(blank),
        "NO 2 2",
    );
    let blanks = format!("\r\n\t{MESSAGE}");
    bench.same("three blanks before it", tester.answer(blanks), "NO 2 4");
    let mark = format!("\u{feff}{MESSAGE}");
    bench.same("byte order mark", tester.answer(mark), "NO 2 0");
    let second = format!("{DECLARATION}{MESSAGE}");
    bench.same("second declaration", tester.answer(second), "NO 2 39");
    let quotes = with("version=\"1.0\"", "version='1.0'");
    bench.same(
        "other quotes in the declaration",
        tester.answer(quotes),
        "NO 2 14",
    );
    let none = &MESSAGE[38..];
    bench.same("no declaration", tester.answer(none), GOOD);
    let blanks_and_none = format!(" \r\n\t{none}");
    bench.same("blanks, none", tester.answer(blanks_and_none), GOOD);
    let other = none.replace("pain.008", "pain.001");
    bench.same("other namespace", tester.answer(other), "NO 2 55");
}

fn tags(bench: &mut Bench, tester: &Tester) {
    let closing = with("</MsgId>", "</MsgId >");
    bench.same("</MsgId >", tester.answer(closing), "NO 2 155");
    let dollars = with("\"EUR\"", "\"USD\"");
    bench.same("USD", tester.answer(dollars), "NO 2 955");
    let quotes = with("\"EUR\"", "'EUR'");
    bench.same("other quotes around EUR", tester.answer(quotes), "NO 2 954");
    let place = MESSAGE.find("<Nm>").unwrap() + 3;
    let empty = with("<Nm>Leak Labs Bureau</Nm>", "<Nm/>");
    bench.same("<Nm/>", tester.answer(empty), format!("NO 2 {place}"));
    let place = MESSAGE.find("<BICFI>").unwrap() + 4;
    let bic = with("<BICFI>BBRUBEBB</BICFI>", "<BIC>BBRUBEBB</BIC>");
    bench.same("<BIC>", tester.answer(bic), format!("NO 2 {place}"));
    let place = MESSAGE.find("RUN").unwrap() + 1;
    let element = with("RUN-2026/07", "<a>");
    bench.same(
        "element where text is due",
        tester.answer(element),
        format!("NO 2 {place}"),
    );
}

fn children(bench: &mut Bench, tester: &Tester) {
    let no_bearer = with("<ChrgBr>SLEV</ChrgBr>", "");
    bench.same("no ChrgBr", tester.answer(no_bearer), "NO 2 729");
    let no_sum = with("<CtrlSum>3250.15</CtrlSum>", "");
    bench.same(
        "no CtrlSum in the header",
        tester.answer(no_sum),
        "NO 2 215",
    );
    let comment = with("</GrpHdr>", "</GrpHdr><!-- -->");
    bench.same("comment", tester.answer(comment), "NO 2 296");
    let text = with("<PmtId>", "<PmtId>x");
    bench.same(
        "text where elements are due",
        tester.answer(text),
        "NO 2 902",
    );
    let both = with("</BICFI>", "</BICFI><Othr><Id>NOTPROVIDED</Id></Othr>");
    bench.same("both BICFI and Othr", tester.answer(both), "NO 2 705");
    let place = MESSAGE.find("<BICFI>").unwrap() + 1;
    let neither = with("<BICFI>BBRUBEBB</BICFI>", "");
    bench.same(
        "neither BICFI nor Othr",
        tester.answer(neither),
        format!("NO 2 {place}"),
    );
    let place = MESSAGE.find("<Ustrd>").unwrap() + 1;
    let empty = with("<Ustrd>Facture N1</Ustrd>", "");
    bench.same("no Ustrd", tester.answer(empty), format!("NO 2 {place}"));
    let place = MESSAGE.find("<DrctDbtTxInf>").unwrap() + 1;
    let none = with(stretch("<DrctDbtTxInf>", "</PmtInf>"), "</PmtInf>");
    bench.same(
        "no transaction",
        tester.answer(none),
        format!("NO 2 {place}"),
    );
    let place = MESSAGE.find("<PmtInf>").unwrap() + 1;
    let none = with(stretch("<PmtInf>", "</PmtInf>"), "");
    bench.same("no batch", tester.answer(none), format!("NO 2 {place}"));
}

fn white_space(bench: &mut Bench, tester: &Tester) {
    let nul = format!("{MESSAGE}\0");
    bench.same("NUL after the root", tester.answer(nul), "NO 2 1743");
    let blanks = format!("{MESSAGE} \r\n\t");
    bench.same("white space after the root", tester.answer(blanks), GOOD);
    let everywhere = MESSAGE.replace("><", "> \r\n\t<");
    bench.same("white space everywhere", tester.answer(everywhere), GOOD);
    for other in ["\u{b}", "\u{c}", "\u{85}", "\u{a0}", "\u{2028}"] {
        let place = MESSAGE.find("<GrpHdr>").unwrap();
        let message = with("<GrpHdr>", &format!("{other}<GrpHdr>"));
        bench.same(
            "other blanks",
            tester.answer(message),
            format!("NO 2 {place}"),
        );
    }
}

fn limits(bench: &mut Bench, tester: &Tester) {
    let batch = stretch("<PmtInf>", "</PmtInf>");
    let batches = with(batch, &batch.repeat(65));
    bench.same("65 batches", tester.answer(&batches), "NO 3 90983");
    let cut = &batches[..batches.len() - 1];
    let place = cut.len();
    bench.same("2 before 3", tester.answer(cut), format!("NO 2 {place}"));
    let transaction = stretch("<DrctDbtTxInf>", "</DrctDbtTxInf>");
    let both = stretch("<DrctDbtTxInf>", "</DrctDbtTxInf></PmtInf>");
    let many = transaction.repeat(2001) + "</PmtInf>";
    let transactions = with(both, &many);
    bench.same("length of 2,001 transactions", transactions.len(), 879_360);
    bench.same(
        "2,001 transactions",
        tester.answer(&transactions),
        "NO 4 878881",
    );
    let enough = with(both, &(transaction.repeat(2000) + "</PmtInf>"));
    bench.same("2,000 transactions", tester.answer(enough), "NO 6 383");
    let place = transactions.rfind("</CstmrDrctDbtInitn>").unwrap();
    let place_of_65th = place + 63 * batch.len();
    let (before, after) = transactions.split_at(place);
    let crowded = format!("{before}{}{after}", batch.repeat(64));
    let due = format!("NO 3 {place_of_65th}");
    bench.same("3 before 4", tester.answer(crowded), due);
}

/// Every beginning of a message that is answered with GOOD, every byte of it changed, and a blank
/// inserted everywhere. The message has no white space, no empty text and no empty element.
pub fn every_place(bench: &mut Bench, tester: &Tester, message: &str) {
    every_beginning(bench, tester, message);
    every_byte_changed(bench, tester, message);
    every_blank_inserted(bench, tester, message);
}

fn every_beginning(bench: &mut Bench, tester: &Tester, message: &str) {
    let wrong = (0..message.len())
        .find(|&length| tester.answer(&message[..length]) != format!("NO 2 {length}"));
    bench.same("every beginning", wrong, None);
}

/// The start of the text that a byte of the message is in.
fn text_around(message: &str, place: usize) -> Option<usize> {
    let opened = message[..place].rfind('>')?;
    let in_tag = message.as_bytes()[opened..=place].contains(&b'<');
    (!in_tag).then_some(opened + 1)
}

/// The number of a text with a byte outside the letter set, by the tags before it.
fn number_of_strange_text(tags: &str) -> u32 {
    let opening = &tags[tags.rfind('<').unwrap()..];
    match opening {
        "<MsgId>" | "<PmtInfId>" | "<EndToEndId>" | "<MndtId>" | "<Nm>" | "<Ustrd>" => 52,
        "<StrtNm>" | "<BldgNb>" | "<PstCd>" | "<TwnNm>" | "<AdrLine>" => 52,
        "<NbOfTxs>" | "<CtrlSum>" | r#"<InstdAmt Ccy="EUR">"# => 54,
        "<CreDtTm>" | "<ReqdColltnDt>" | "<DtOfSgntr>" => 55,
        "<PmtMtd>" | "<BtchBookg>" | "<Cd>" | "<SeqTp>" | "<ChrgBr>" | "<Prtry>" => 56,
        "<Id>" if tags.ends_with("<FinInstnId><Othr><Id>") => 56,
        "<Id>" if tags.ends_with("<PrvtId><Othr><Id>") => 57,
        "<IBAN>" | "<BICFI>" | "<Ctry>" => 57,
        _ => unreachable!("the message has no other texts"),
    }
}

fn every_byte_changed(bench: &mut Bench, tester: &Tester, message: &str) {
    let wrong = (0..message.len()).find(|&place| {
        let mut changed = message.as_bytes().to_vec();
        changed[place] = 1;
        let due = match text_around(message, place) {
            Some(start) => format!("NO {} {start}", number_of_strange_text(&message[..start])),
            None if ends_text(message, place) => {
                format!("NO 2 {}", place_past_text(message, place))
            }
            None => format!("NO 2 {place}"),
        };
        tester.answer(changed) != due
    });
    bench.same("every byte changed", wrong, None);
}

fn ends_text(message: &str, place: usize) -> bool {
    message[place..].starts_with('<') && place > 0 && text_around(message, place - 1).is_some()
}

/// When the `<` that ends a text is changed, the text goes on to the next `<`, and what follows
/// there should be the closing tag.
fn place_past_text(message: &str, place: usize) -> usize {
    let next = place + 1 + message[place + 1..].find('<').unwrap();
    let due_and_found = message[place..].bytes().zip(message[next..].bytes());
    next + due_and_found
        .take_while(|(due, found)| due == found)
        .count()
}

fn every_blank_inserted(bench: &mut Bench, tester: &Tester, message: &str) {
    let wrong = (1..message.len()).find(|&place| {
        let (before, after) = message.split_at(place);
        let answer = tester.answer(format!("{before} {after}"));
        let in_text = text_around(message, place - 1).is_some();
        let due = match (before.ends_with('>'), after.as_bytes()[0]) {
            (true, b'<') => GOOD.to_string(),
            _ if in_text || before.ends_with('>') => return false,
            (_, b' ') => format!("NO 2 {}", place + 1),
            _ => format!("NO 2 {place}"),
        };
        answer != due
    });
    bench.same("a blank inserted everywhere", wrong, None);
}
