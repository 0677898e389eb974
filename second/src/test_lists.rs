//! Tests of the day list and of the written message.

use crate::check::{Checker, Tables};
use crate::content::Message;
use crate::daylist::{Collection, DayList};
use crate::frames::list;
use crate::limit_cases::longest;
use crate::list_cases::good_list;
use crate::profile::{CENTS_LIMIT, MESSAGE_LIMIT, SCHEMES, SEQUENCES};
use crate::random::Random;
use crate::rules::amount;
use crate::selftest::Bench;
use crate::vectors::{day_list, list_with_text, LIST, MESSAGE};
use crate::writer::write;

pub fn run(bench: &mut Bench) {
    written(bench);
    other_terms(bench);
    lines(bench);
    frames(bench);
    values(bench);
    batches(bench);
    room(bench);
    longest_message(bench);
    round_trips(bench);
}

/// The message, or the refusal as printed.
fn answer(list: impl AsRef<[u8]>, ceiling: u64) -> String {
    write(list.as_ref(), ceiling, usize::MAX).unwrap_or_else(|refusal| refusal.to_string())
}

fn written(bench: &mut Bench) {
    bench.same("written at ceiling 2", answer(LIST, 2), MESSAGE);
    bench.same("written at ceiling 500", answer(LIST, 500), MESSAGE);
    let place = MESSAGE.find("</PmtInf>").unwrap();
    let start = MESSAGE.find("<PmtInf>").unwrap();
    let middle = MESSAGE.find("<DrctDbtTxInf>").unwrap();
    let second = MESSAGE.rfind("<DrctDbtTxInf>").unwrap();
    let head = MESSAGE[start..middle].replace("<NbOfTxs>2", "<NbOfTxs>1");
    let heads = [
        head.replace("3250.15", "1100.07"),
        head.replace("3250.15", "2150.08").replace("B001", "B002"),
    ];
    let due = [
        &MESSAGE[..start],
        &heads[0],
        &MESSAGE[middle..second],
        "</PmtInf>",
        &heads[1],
        &MESSAGE[second..place],
        &MESSAGE[place..],
    ];
    bench.same("written at ceiling 1", answer(LIST, 1), due.concat());
    bench.same("its length", due.concat().len(), 2338);
}

/// The second collection is B2B FRST, of 5 cents, on the next day.
fn other_terms(bench: &mut Bench) {
    let mut vectors = day_list();
    let other = &mut vectors.collections[1];
    (other.scheme, other.sequence, other.cents) = (1, 0, 5);
    other.texts[0] = b"2026-11-11".to_vec();
    let message = answer(list(&vectors.creditor, &vectors.collections), 500);
    bench.same("length with two terms", message.len(), 2331);
    bench.holds(
        "sum of 5 cents",
        message.contains("<CtrlSum>0.05</CtrlSum>"),
    );
    let accepted = Checker::new().check(message.as_bytes(), Tables::LONG_ENOUGH);
    let rows = accepted.map(|a| a.batches.iter().map(|b| b.row()).collect::<Vec<_>>());
    let due = vec![
        [0, 1, 110_007, 1, 1, 1, 110_007, 1],
        [1, 1, 5, 1, 1, 1, 5, 4],
    ];
    bench.same("rows of two terms", rows, Ok(due));
}

fn lines(bench: &mut Bench) {
    let split: Vec<&str> = LIST.split_inclusive('\n').collect();
    let (creditor, collection) = (split[0], split[1]);
    bench.same("empty list", answer("", 1), "NO 24 0");
    bench.same("a line feed", answer("\n", 1), "NO 23 1");
    bench.same(
        "creditor line without LF",
        answer(creditor.trim_end(), 1),
        "NO 23 1",
    );
    bench.same("creditor line only", answer(creditor, 1), "NO 24 1");
    bench.same("collection first", answer(collection, 1), "NO 23 1");
    bench.same("two creditors", answer(creditor.repeat(2), 1), "NO 23 2");
    bench.same("no last LF", answer(LIST.trim_end(), 1), "NO 23 3");
    bench.same(
        "empty line after",
        answer(format!("{LIST}\n"), 1),
        "NO 23 4",
    );
    let long = vec![b'0'; MESSAGE_LIMIT + 1];
    bench.same("21", answer(&long, 1), "NO 21 0");
    bench.same("21 before 22", answer(&long, 0), "NO 21 0");
    bench.same("21: just enough", answer(&long[1..], 1), "NO 23 1");
    for ceiling in [0, 501, u64::MAX] {
        bench.same("22", answer(LIST, ceiling), "NO 22 0");
        bench.same("22 before 23", answer("junk", ceiling), "NO 22 0");
    }
    let many = creditor.to_string() + &collection.repeat(1001);
    bench.same("25", answer(&many, 500), "NO 25 1002");
    let bad_value = many.replacen("020001", "020004", 1);
    bench.same("25 before 56", answer(bad_value, 500), "NO 25 1002");
    let parts = [
        collection.repeat(1498),
        "02\n".into(),
        collection.repeat(100),
    ];
    let bad_line = creditor.to_string() + &parts.concat();
    bench.same("23 before 25", answer(bad_line, 500), "NO 23 1500");
}

fn frames(bench: &mut Bench) {
    bench.same("small letters", answer(LIST.to_lowercase(), 1), "NO 23 1");
    bench.same("CR LF", answer(LIST.replace('\n', "\r\n"), 1), "NO 23 1");
    bench.same("a blank", answer(LIST.replacen('A', " ", 1), 1), "NO 23 1");
    bench.same(
        "odd digits",
        answer(LIST.replacen("020001", "20001", 1), 1),
        "NO 23 2",
    );
    let extra = LIST.replacen("4E31\n", "4E3100\n", 1);
    bench.same("a byte more", answer(extra, 1), "NO 23 2");
    let fewer = LIST.replacen("4E31\n", "4E\n", 1);
    bench.same("a byte less", answer(fewer, 1), "NO 23 2");
    let kind = LIST.replacen("020001", "030001", 1);
    bench.same("another kind", answer(kind, 1), "NO 23 2");
    let long = list_with_text(2, 11, &[b'A'; 255]);
    bench.same("a text of 255 bytes", answer(long, 1), "NO 51 2 11");
}

/// The answer for the vectors with another text in a field, counted as in a refusal.
fn with_text(line: usize, field: usize, text: &[u8]) -> String {
    answer(list_with_text(line, field, text), 500)
}

fn values(bench: &mut Bench) {
    let cents = |bytes: &str| answer(LIST.replacen("000001ADB7", bytes, 1), 500);
    bench.holds(
        "★12: 17 48 76 E7 FF",
        cents("174876E7FF").contains(">999999999.99<"),
    );
    let head = |bytes: &str| answer(LIST.replacen("020001", bytes, 1), 500);
    bench.holds(
        "B2B, FNAL",
        head("020103").contains("B2B</Cd></LclInstrm><SeqTp>FNAL<"),
    );
    let not_provided = |bic: &str| {
        let bank = format!("<BICFI>{bic}</BICFI>");
        MESSAGE.replace(&bank, "<Othr><Id>NOTPROVIDED</Id></Othr>")
    };
    bench.same(
        "creditor BIC of length 0",
        with_text(1, 6, b""),
        not_provided("BBRUBEBB"),
    );
    bench.same(
        "debtor BIC of length 0",
        with_text(3, 8, b""),
        not_provided("BANKGB2L"),
    );
    bench.same("no remittance", with_text(3, 11, b""), MESSAGE);
}

fn batches(bench: &mut Bench) {
    let vectors = day_list();
    let of = |count: usize, ceiling: u64| {
        let collections = vec![vectors.collections[0].clone(); count];
        answer(list(&vectors.creditor, &collections), ceiling)
    };
    let most = of(64, 1);
    bench.holds(
        "64 pass",
        most.contains("B064") && most.starts_with("<?xml"),
    );
    bench.same("65 refused", of(65, 1), "NO 27 65");
    bench.same("1,000 refused", of(1000, 1), "NO 27 1000");
    bench.holds("1,000 at 16", of(1000, 16).contains("B063"));
    bench.same("1,000 at 15", of(1000, 15), "NO 27 67");
    bench.same("length of 64", most.len(), 66_504);
}

fn room(bench: &mut Bench) {
    let answer = |ceiling, room| write(LIST.as_bytes(), ceiling, room).map_err(|r| r.to_string());
    bench.same(
        "28: a byte short",
        answer(2, 1742),
        Err("NO 28 1743".to_string()),
    );
    bench.same("28: none", answer(1, 0), Err("NO 28 2338".to_string()));
    bench.same("28: just enough", answer(2, 1743), Ok(MESSAGE.to_string()));
    let vectors = day_list();
    let collections = vec![vectors.collections[0].clone(); 65];
    let refusal = write(&list(&vectors.creditor, &collections), 1, 0);
    let printed = refusal.map_err(|refusal| refusal.to_string());
    bench.same("27 before 28", printed, Err("NO 27 65".to_string()));
}

fn longest_message(bench: &mut Bench) {
    let bytes = longest(&mut Random::new(4, 1));
    let lines = bytes.split_inclusive(|&byte| byte == b'\n').count();
    bench.same("lines of the longest message's list", lines, 1001);
    bench.same("its length", bytes.len(), 701_543);
    let message = answer(&bytes, 500);
    bench.same("the longest message", message.len(), 745_349);
    let accepted = Checker::new().check(message.as_bytes(), Tables::LONG_ENOUGH);
    let cents = accepted.map(|accepted| (accepted.batches.len(), accepted.cents));
    bench.same(
        "the longest message is accepted",
        cents,
        Ok((64, 1000 * CENTS_LIMIT)),
    );
}

/// The collections that a message of the profile carries, and the greatest number in a batch.
fn carried(message: &str) -> (Vec<Collection>, usize) {
    let message = Message::read(message.as_bytes());
    let mut collections = Vec::new();
    for batch in &message.batches {
        let word = |path| batch.section.required(path).bytes;
        let index = |words: &[&str], text: &[u8]| {
            let found = words.iter().position(|word| word.as_bytes() == text);
            found.unwrap() as u8
        };
        for transaction in &batch.transactions {
            let text = |path| {
                transaction
                    .text(path)
                    .map_or(Vec::new(), |t| t.bytes.to_vec())
            };
            collections.push(Collection {
                scheme: index(SCHEMES, word("PmtTpInf/LclInstrm/Cd")),
                sequence: index(SEQUENCES, word("PmtTpInf/SeqTp")),
                cents: amount(&text("InstdAmt")).unwrap(),
                texts: [
                    word("ReqdColltnDt").to_vec(),
                    text("PmtId/EndToEndId"),
                    text("DrctDbtTx/MndtRltdInf/MndtId"),
                    text("DrctDbtTx/MndtRltdInf/DtOfSgntr"),
                    text("DbtrAgt/FinInstnId/BICFI"),
                    text("Dbtr/Nm"),
                    text("DbtrAcct/Id/IBAN"),
                    text("RmtInf/Ustrd"),
                ],
            });
        }
    }
    let sizes = message.batches.iter().map(|batch| batch.transactions.len());
    let greatest = sizes.max().unwrap_or(0);
    (collections, greatest)
}

/// Each written message is accepted, with the list's totals, and carries the listed collections
/// within the ceiling.
fn round_trips(bench: &mut Bench) {
    let checker = Checker::new();
    let wrong = (0..400).find(|&case| {
        let (bytes, ceiling) = good_list(&mut Random::new(3, case));
        let message = match write(&bytes, ceiling, usize::MAX) {
            Ok(message) => message,
            Err(refusal) => return refusal.number != 27,
        };
        let list = DayList::read(&bytes);
        let mut listed = list.map(|list| list.collections).unwrap_or_default();
        let cents = listed.iter().map(|collection| collection.cents).sum();
        let due = (listed.len() as u64, cents);
        let (mut collections, greatest) = carried(&message);
        listed.sort();
        collections.sort();
        let totals = checker
            .check(message.as_bytes(), Tables::LONG_ENOUGH)
            .map(|accepted| (accepted.transactions, accepted.cents));
        totals != Ok(due) || greatest > ceiling as usize || listed != collections
    });
    bench.same("round trips", wrong, None);
}
